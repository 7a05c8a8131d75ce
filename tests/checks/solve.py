#!/usr/bin/env python3
# check: behind
# self-test: beside
# needs: calls
# arguments: --calls 'bin/run calls'
# says: losses are solved otherwise than by the independent program
"""Losses that no single message repairs (rules 14.2, 14.6 and 14.9): scripts made from seeds, and real packets over a bad line with a solve
before each number is given up. Every answer must be the independent program's; what is released must be what was sent, with zeros
behind."""

import argparse
import pathlib
import sys

sys.path[0] = str(pathlib.Path(__file__).resolve().parents[1])  # the folder tests/

from independent.arguments import shown
from independent.datagrams import PARITY
from independent.packets import PACKET_LIMIT
from independent.receiving import REPAIRED, UNKNOWN
from making.script import UNLIMITED, Script
from making.sums import DONE
from mutants.solve import SOLVE_MUTANTS
from support.comparing import SOLVING_SEEDS, Failed, compare_calls, made_solving
from support.failing import Cases, altered, altered_here
from support.real import Wrong, as_expected, corpus, must, octets_of, written_by
from support.released import LOST, check_released, counts_text
from support.within import Mutant

PATIENCE = 24
LINES = (('tt_v17_ecm_v0.a2b', 0.45), ('tt_v17_ecm_v0.a2b', 0.6), ('tt_v29_ecm_v0.a2b', 0.5), ('gt_v17_nonecm_v0.a2b', 0.55))


def bad_line(name, loss):
    """Real packets sent with parity, its settings free at each, some lost; before a number is given up, all that can be solved is.

    The script, and how many numbers only the new call brought back."""
    script, saved = Script(name + str(loss), UNLIMITED), 0
    r, session = script.random, script.receiving
    for packet in corpus(name):
        _, octets = script.send(packet, PARITY, r.randrange(2, 9), r.choice((1, 1, 2, 3)))
        if not script.chance(loss):
            script.offer(octets)
        saved += leave(script, PATIENCE)
    saved += leave(script, 0)
    must(session.total() == len(corpus(name)), 'not all numbers have left')
    script.call(0x14)
    return script, saved


def leave(script, patience):
    """Numbers leave while the base is known; if the sender is so far ahead of an unknown one, it is solved or given up."""
    session, saved = script.receiving, 0
    while session.total() < script.sending.sent:
        if session.place(session.base).state == UNKNOWN:
            if script.sending.sent - session.total() <= patience:
                break
            before = [place.state for place in session.places]
            script.call(0x1A)
            saved += sum(old != place.state for old, place in zip(before, session.places))
        script.next(PACKET_LIMIT, skip=True)
    return saved


def check_line(command, script, packets):
    """Every solve is done, and what is released is what was sent; one that a solve filled has the limit's length and note 0."""
    answers, number, counts = written_by(command, script.lines, script.answers), 0, [0, 0, 0, 0]
    for line, theirs in zip(script.lines, octets_of(answers)):
        if line == b'1A':
            must(theirs == DONE, 'not solved: %s before number %d', theirs.hex(), number)
        if line[:2] == b'12':
            must(theirs[0] == 0, 'not released: %s at number %d', theirs.hex(), number)
            kind, note, size = theirs[1], int.from_bytes(theirs[4:6], 'big'), int.from_bytes(theirs[6:8], 'big')
            if kind != LOST:
                check_released(kind, number, int.from_bytes(theirs[2:4], 'big'), theirs[8:8 + size], packets)
                must(kind != REPAIRED - 1 or note or size == PACKET_LIMIT, 'number %d is filled with %d octets', number, size)
            counts[kind] += 1
            number += 1
    must(number == len(packets), '%d of %d numbers released', number, len(packets))
    must(theirs == DONE + b''.join(shown(count, 4) for count in counts), 'the counts are %s', theirs.hex())
    as_expected(script.answers, answers)
    return counts


def real_line(command, name, loss):
    """One recorded call; what came of it."""
    script, saved = bad_line(name, loss)
    must(saved, 'nothing is solved')
    return '%s; %d by it alone' % (counts_text(check_line(command, script, corpus(name))), saved)


def checks(command, seed=''):
    """All checks: a name, and what does it."""
    for number in range(SOLVING_SEEDS):
        name = 'losses solved of seed %s%d' % (seed, number)
        yield name, lambda n=name, s=number: compare_calls(n, command, *made_solving('%s%d' % (seed, s)))
    for name, loss in LINES:
        yield '%s, %d %% lost' % (name, 100 * loss), lambda n=name, l=loss: real_line(command, n, l)


def self_test():
    """A wrong program for each thing that is checked, and what is said of it."""
    test = Cases('solve.py')
    for name, words in (('a place filled that two solutions give differently', 'not solved: ff170000'),
                        ('nothing filled', 'not the expected one'), ('the fill cut of its zeros', 'is filled with'),
                        ('filled as a spare', ' was sent as '), ('1A: no call', 'not solved: ee')):
        wrong = Mutant(*next(row[1:] for row in SOLVE_MUTANTS if row[0] == name)).command()
        test.fails('a real line, ' + name, words, real_line, wrong, *LINES[1])
    test.fails('a number left out', 'not released: ', real_line, altered_here('calls 12 0'), *LINES[0])
    test.fails('the counts', 'the counts are ', real_line, altered_here('calls 14 9'), *LINES[0])
    test.ends('a wrong program', 1, '0 passed, 1 failed', [sys.executable, __file__, '--calls', altered('calls 14 9')])
    test.end()


def main():
    """Does each check; ends with status 1 at the first that is wrong."""
    parser = argparse.ArgumentParser(description=__doc__)
    parser.add_argument('--calls', help='shell command of the calls program under test')
    parser.add_argument('--seed', default='', help='put before the numbers of the seeds, for others than the usual ones')
    parser.add_argument('--self-test', action='store_true', help='check that wrong programs are reported')
    arguments = parser.parse_args()
    if arguments.self_test:
        self_test()
        return
    if not arguments.calls:
        parser.error('a command is needed: --calls')
    passed = 0
    for name, check in checks(arguments.calls, arguments.seed):
        try:
            remark = check()
        except (Failed, Wrong) as wrong:
            print('wrong %s: %s' % (name, wrong))
            print('%d passed, 1 failed' % passed)
            sys.exit(1)
        passed += 1
        print('ok %s%s' % (name, '; ' + remark if remark else ''), flush=True)
    print('%d passed, 0 failed' % passed)


if __name__ == '__main__':
    main()

#!/usr/bin/env python3
# check: behind
# self-test: beside
# needs: calls receive
# arguments: --calls 'bin/run calls' --program 'bin/run receive'
# says: calls or receive answers otherwise than the independent program
"""Compares programs under test with the independent program, over stored cases and over scripts made from seeds (rules 18.1 to 18.11, 25.1
to 25.36 and 6.26)."""

import argparse
import concurrent.futures
import os
import pathlib
import sys

sys.path[0] = str(pathlib.Path(__file__).resolve().parents[1])  # the folder tests/

from support import running
from support.comparing import Failed, compare_calls, compare_program, comparisons, made_calls, made_lines, never_longer, stored
from support.failing import Cases, altered, independent
from support.running import described, difference, expected_answers, expected_results, left_out


def compare_all(arguments, out):
    """Does each comparison that has a command, as many at a time as there are processors; how many passed, and whether all did."""
    passed = 0
    with concurrent.futures.ThreadPoolExecutor(os.cpu_count()) as pool:
        begun = [(name, pool.submit(lambda n=name, c=command, f=compare, m=make: f(n, c, *m())))
                 for name, command, compare, make in comparisons(arguments) if command is not None]
        for name, comparison in begun:
            try:
                comparison.result()
            except Failed as failed:
                pool.shutdown(cancel_futures=True)
                print(failed, file=out)
                print('%d passed, 1 failed' % passed, file=out)
                return passed, False
            passed += 1
            print('ok', name, file=out, flush=True)
    for line in left_out(arguments):
        print(line, file=out)
    print('%d passed, 0 failed' % passed, file=out)
    return passed, True


def check_independent():
    """The independent program against the stored answers, before anything is compared with it."""
    for name, given, expected in stored('.calls', '.answers'):
        check_stored(name, expected, expected_answers(given))
    for name, given, expected in stored('.lines', '.results'):
        check_stored(name, expected, expected_results(given))


def check_stored(name, expected, written):
    """One stored case against the independent program."""
    at = difference(expected, written)
    if at is not None:
        sys.exit('\n'.join(['the independent program differs from stored %s: answer %d' % (name, at + 1)]
                           + described(expected, written, at)))


def self_test():
    """A wrong program for each thing that is checked, and what is said of it."""
    test = Cases('compare.py')
    for name, compare, right, made in (('calls', compare_calls, independent(), made_calls),
                                       ('program', compare_program, independent('program'), made_lines)):
        given, expected = made('self-test')
        place = 'differs self-test: script line' if compare is compare_calls else 'differs self-test: result line'
        for wrong, how, words in (('a character altered', " | sed '700s/.$/x/'", place),
                                  ('status 3', '; exit 3', 'are right, but status 3')):
            test.fails('%s, %s' % (name, wrong), words, compare, 'self-test', right + how, given, expected)
    running.PATIENCE, patience = 1, running.PATIENCE
    test.fails('no end', 'no end within 1 seconds', compare_program, 'self-test', 'exec sleep 60', given, expected)
    running.PATIENCE = patience
    test.fails('a stored answer altered', 'the independent program differs from stored one: answer 2',
               check_stored, 'one', b'00\n01\n', b'00\n02\n')
    test.fails('a packet longer than before', 'longer one: 060001', never_longer, 'one', [b'10', b'0600010002020202000000000000000A'],
               [b'00', b'000005C002202000'])
    test.ends('a wrong program', 1, '1 passed, 1 failed', [sys.executable, __file__, '--calls', altered('calls 03 -1')])
    test.end()


def main():
    """Compares, and ends with status 1 at the first difference."""
    parser = argparse.ArgumentParser(description=__doc__)
    parser.add_argument('--calls', help='shell command of the calls program under test')
    parser.add_argument('--program', help='shell command of the program under test')
    parser.add_argument('--seed', default='', help='put before the numbers of the seeds, for others than the usual ones')
    parser.add_argument('--long', action='store_true', help='also the program at 1,000,000 numbers')
    parser.add_argument('--self-test', action='store_true', help='check that an altered answer is reported')
    arguments = parser.parse_args()
    check_independent()
    if arguments.self_test:
        self_test()
        return
    if not (arguments.calls or arguments.program):
        parser.error('a command is needed: --calls, --program or both')
    if not compare_all(arguments, sys.stdout)[1]:
        sys.exit(1)


if __name__ == '__main__':
    main()

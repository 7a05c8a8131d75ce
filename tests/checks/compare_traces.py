#!/usr/bin/env python3
# check: after
# self-test: beside
# needs: compare
# arguments: --compare ./compare --program 'bin/run compare'
# says: compare shows other differences than the independent program
"""The script ./compare (rules 22.1 to 22.16 and 22.20): two traces side by side, as a table that a person reads.

Its status is 0 if nothing differs, 1 if something does, 2 for a refusal. Each number that differs has a row, with the lines of both traces
and what differs; for a differing packet both texts follow. A refusal names trace, line and place."""

import argparse
import pathlib
import re
import shlex
import subprocess
import sys
import tempfile

sys.path[0] = str(pathlib.Path(__file__).resolve().parents[1])  # the folder tests/

from independent.comparing import LINES_LIMIT, Uncompared, compare, datagrams_of, partners_of
from independent.datagrams import read_datagram
from independent.program import lines_of, octets_of
from making.script import UNLIMITED, Script
from making.traces import altered, line_of, reads, sent, with_empty
from support.failing import Cases, python
from support.real import Wrong, corpus, must
from support.running import PATIENCE, text_of

# All that is known of the script's words: a row begins with its number, in hexadecimal too or not, and its lines; what differs behind them;
# a packet with its first differing octet marked; a refusal; a trace cut into parts.
MARKED = '{before}[{octet}]{after}'
NUMBER, LINE = r'\W*{number}\b( \({number:04X}\))?', r'\D*\b{line}\b'
DIFFERS = {1: 'only in the first', 2: 'only in the second', 3: 'packet', 4: 'spares', 5: 'parity'}
REFUSED = r'(?s)\b{trace}\b.*\bline {line}\b.*'
PLACED = r'octet {place}\b'
PARTS = 'part'
TRACES = {1: 'first', 2: 'second'}
NONE_DIFFER, SOME_DIFFER, REFUSAL = range(3)
RECORDED, SEEDS = ('tt_v17_ecm_v0.a2b.k3', 'tt_v17_ecm_v0.a2b.n3m2'), 8


def ran(command, first, second):
    """The script over two traces in files: its status, what it writes, and all that it says."""
    with tempfile.TemporaryDirectory() as folder:
        paths = [pathlib.Path(folder, name) for name in ('one.hex', 'other.hex')]
        for path, text in zip(paths, (first, second)):
            path.write_bytes(text)
        ended = subprocess.run('%s %s %s' % (command, *(shlex.quote(str(path)) for path in paths)), shell=True, stdout=subprocess.PIPE,
                               stderr=subprocess.PIPE, timeout=PATIENCE)
    written = ended.stdout.decode('utf-8', 'backslashreplace')
    return ended.returncode, written, written + ended.stderr.decode('utf-8', 'backslashreplace')


def rows_told(first, second):
    """What each row must have: number, lines from 1 (none where it is not), what differs; and the two packets where they differ."""
    numbered = [[(at, read_datagram(octets_of(line))) for at, line in enumerate(lines_of(text), 1) if line] for text in (first, second)]
    firsts, seconds = ([one for _, one in trace] for trace in numbered)
    partners = partners_of(firsts, seconds)
    for (line, one), at in zip(numbered[0], partners):
        if at is None:
            yield one.number, [line], {1}, ()
        elif one != seconds[at]:
            other_line, other = numbered[1][at]
            what = {difference for number, difference in compare(text_of([line_text(one)]), text_of([line_text(other)]), 6)}
            yield one.number, [line, other_line], what, (one.packet, other.packet) if 3 in what else ()
    for at, (line, one) in enumerate(numbered[1]):
        if at not in partners:
            yield one.number, [line], {2}, ()


def line_text(given):
    """A datagram as a line."""
    return line_of(Script('0', UNLIMITED).random, given)


def marked(packet, packets):
    """A packet as it is shown beside another: the first octet in which they differ is marked, or where it would be."""
    same = next((at for at, (one, other) in enumerate(zip(*packets)) if one != other), min(map(len, packets)))
    shown = packet.hex().upper()
    return MARKED.format(before=shown[:2 * same], octet=shown[2 * same:2 * same + 2], after=shown[2 * same + 2:])


def check_table(name, written, first, second):
    """Each row is there, in order; both packets follow a row that needs them."""
    lines, at = written.splitlines(), 0
    for number, places, what, packets in rows_told(first, second):
        begins = NUMBER.format(number=number) + ''.join(LINE.format(line=line) for line in places)
        found = next((i for i in range(at, len(lines)) if re.match(begins, lines[i])), None)
        must(found is not None, '%s: no row for number %d, lines %s', name, number, places)
        for one in what:
            must(DIFFERS[one] in lines[found], '%s: it is not said that %s: %s', name, DIFFERS[one], lines[found])
        for one in set(DIFFERS) - what:
            must(DIFFERS[one] not in lines[found], '%s: it is said that %s: %s', name, DIFFERS[one], lines[found])
        behind = ''.join(lines[found:found + 8]).replace(' ', '').upper()
        for packet in packets:
            must(marked(packet, packets) in behind, '%s: packet %s of number %d is not shown', name, packet.hex(), number)
        at = found + 1


def check(command, name, first, second):
    """The script over two traces; what its status was."""
    status, written, all_said = ran(command, first, second)
    try:
        entries = compare(first, second, UNLIMITED)
    except Uncompared as refusal:
        must(status == REFUSAL, '%s: status %d for a refusal', name, status)
        must(re.search(REFUSED.format(trace=TRACES[refusal.trace], line=refusal.line), all_said), '%s: trace and line are not said: %s',
             name, all_said)
        must(not refusal.place or re.search(PLACED.format(place=refusal.place), all_said), '%s: the place is not said: %s', name, all_said)
        return status
    must(status == (SOME_DIFFER if entries else NONE_DIFFER), '%s: status %d, and %d entries', name, status, len(entries))
    check_table(name, written, first, second)
    return status


def check_long(command, name, lines, at):
    """A trace longer than a call takes, against itself and against itself with one packet changed: cut into parts, which is said."""
    first = text_of(lines)
    status, _, all_said = ran(command, first, first)
    must(status == NONE_DIFFER, '%s: status %d for equal traces', name, status)
    must(PARTS in all_said, '%s: nothing is said of parts', name)
    other = lines[:at] + [lines[at][:-2] + b'%02X' % (int(lines[at][-2:], 16) ^ 1)] + lines[at + 1:]
    must(reads(other[at]), '%s: line %d does not read', name, at)
    status, written, _ = ran(command, first, text_of(other))
    must(status == SOME_DIFFER, '%s: status %d for a line that differs', name, status)
    number = read_datagram(octets_of(lines[at])).number
    must(re.search(r'(?m)^\W*%d\b' % number, written), '%s: no row for number %d', name, number)


def long_trace():
    """A trace longer than a call takes."""
    return [b'%04X010600010107' % number for number in range(LINES_LIMIT + 100)]


def inputs():
    """Names and pairs of traces: recorded, made, and such as do not read."""
    script = Script('two traces', UNLIMITED)
    r = script.random
    for name in RECORDED:
        lines = [octets.hex().upper().encode() for octets in corpus(name)]
        yield name, text_of(lines), text_of(lines)
        yield name + ', some lost', text_of(lines), text_of(line for line in lines if r.random() < 0.9)
    yield 'both recordings', *(text_of(octets.hex().encode() for octets in corpus(name)[:40]) for name in RECORDED)
    for seed in range(SEEDS):
        given = sent(r, 12)
        other = [altered(r, one)[0] for one in given if r.random() < 0.8]
        yield 'made %d' % seed, text_of(with_empty(r, [line_of(r, one) for one in given])), text_of(line_of(r, one) for one in other)
    one = b'000001060000\n'
    yield 'an empty trace', one, b''
    yield 'a first that does not read', b'\n' + one + b'00000106000000\n', one
    yield 'a second that does not read', one, one + b'\n\n0000\n'
    yield 'no digits', one, one + b'zz\n'


def stand_in(how, first, second):
    """A script that is wrong in one way, for the self-test."""
    first, second = (pathlib.Path(path).read_bytes() for path in (first, second))
    long_ones = max(map(len, (lines_of(first), lines_of(second)))) > LINES_LIMIT
    try:
        for trace, text in enumerate((first, second), 1):
            datagrams_of(lines_of(text), trace)
    except Uncompared as refusal:
        line, place = refusal.line + (how == 'line'), '' if how == 'place' else ' at octet %d' % refusal.place
        print('%s trace, line %d: refused with %d%s' % (TRACES[refusal.trace], line, refusal.number, place), file=sys.stderr)
        sys.exit(1 if how == 'refusal' else REFUSAL)
    if long_ones and how != 'parts':
        print('compared in 2 parts')
    rows = list(rows_told(first, second))
    for number, lines, what, packets in rows[how == 'row':]:
        words = ', '.join(DIFFERS[one] for one in sorted(what | {5} if how == 'what' else what))
        print('%5d %s  %s' % (number, ' '.join(map(str, lines)), words[:7] if how == 'less' else words))
        for packet in packets:
            print('      ', packet.hex().upper() if how == 'mark' else marked(packet, packets))
    sys.exit(0 if how == 'zero' else 1 if how == 'one' else bool(rows))


def self_test():
    """A wrong script for each thing that is checked, and what is said of it."""
    test = Cases('compare_traces.py')
    made = {name: pair for name, *pair in inputs()}
    for how, words in (('parts', 'nothing is said of parts'), ('one', 'status 1 for equal traces'), ('zero', 'status 0 for a line')):
        test.fails('a long one, ' + how, words, check_long, python('checks/compare_traces.py', '--stand-in', how), 'long', long_trace(), 600)
    for how, name, words in (
            ('zero', 'made 0', 'status 0, and'), ('row', 'made 0', 'no row for number'), ('what', 'made 0', 'it is said that parity'),
            ('less', 'an empty trace', 'it is not said that only in the first'), ('mark', 'made 1', ' is not shown'),
            ('refusal', 'no digits', 'status 1 for a refusal'), ('line', 'no digits', 'trace and line are not said'),
            ('place', 'a second that does not read', 'the place is not said')):
        test.fails('wrong in ' + how, words, check, python('checks/compare_traces.py', '--stand-in', how), name, *made[name])
    test.ends('a wrong script', 1, '0 passed, 1 failed', [sys.executable, __file__, '--compare', 'exit 3;'])
    test.end()


def main():
    """Checks the script; ends with status 1 if it is wrong."""
    parser = argparse.ArgumentParser(description=__doc__)
    parser.add_argument('--compare', help='shell command of the script compare')
    parser.add_argument('--program', help='shell command of the program compare, so that the script proves it over the first pair alone')
    parser.add_argument('--self-test', action='store_true', help='check that wrong scripts are reported')
    parser.add_argument('--stand-in', nargs=3, metavar=('HOW', 'FIRST', 'SECOND'), help='replace the script, for the self-test')
    arguments = parser.parse_args()
    if arguments.stand_in:
        stand_in(*arguments.stand_in)
    if arguments.self_test:
        self_test()
        return
    if not arguments.compare:
        parser.error('a command is needed: --compare')
    passed, command = 0, arguments.compare
    try:
        for name, *pair in inputs():
            print('ok compare, %s; status %d' % (name, check(command, name, *pair)), flush=True)
            passed += 1
            command = '%s --compare %s' % (arguments.compare, shlex.quote(arguments.program)) if arguments.program else command
        check_long(command, 'a long trace', long_trace(), 600)
    except Wrong as wrong:
        print('wrong compare: %s' % wrong)
        print('%d passed, 1 failed' % passed)
        sys.exit(1)
    print('ok compare, a long trace')
    print('%d passed, 0 failed' % (passed + 1))


if __name__ == '__main__':
    main()

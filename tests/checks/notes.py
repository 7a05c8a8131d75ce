#!/usr/bin/env python3
# check: behind
# self-test: beside
# needs: notes
# arguments: --notes 'bin/run notes'
# says: notes writes another report than the independent program
"""The program notes (rules 19.1 to 19.3 and 19.8): a line for each result of the program, with the datagram that saved the number, and a
table of distances.

It must write what the independent program writes. In that, the lines must fit the results of the program, and the table the lines."""

import argparse
import pathlib
import random
import re
import sys

sys.path[0] = str(pathlib.Path(__file__).resolve().parents[1])  # the folder tests/

from independent.datagrams import DATAGRAM_LIMIT, PARITY, SPARES
from independent.notes import Notes, report_of
from independent.program import Program, results_of
from making.lines import Recording, program_lines
from mutants.notes import REPORT_MUTANTS
from support.comparing import CASES, LINES_EACH, stored
from support.failing import Cases, independent
from support.real import REPLAYED, Wrong, corpus, must
from support.released import worse_line
from support.running import around, described, difference, lines_of, run, text_of
from support.within import Mutant

# The words of the program: of a number that has left, of a refused line, of the table.
NUMBER = re.compile(rb'number (?P<number>[0-9]+): (?P<kind>received|lost|spare, from|repaired, with)( datagram (?P<note>[0-9]+))?')
REFUSED = re.compile(rb'line (?P<line>[0-9]+): refused with (?P<number>[0-9]+)( at octet (?P<place>[0-9]+))?')
TOTAL = re.compile(rb'saved by spares (?P<spares>[0-9]+), by parity (?P<parity>[0-9]+)')
ROW = re.compile(rb'(?P<name>distance (?P<distance>[0-9]+)|behind): spares (?P<spares>[0-9]+), parity (?P<parity>[0-9]+)')
KINDS = b'received', b'spare, from', b'repaired, with', b'lost'
SEEDS, WRAP, LIMIT = 3, 65536 - 20, 1000000 - 50


def late_line(name, loss):
    """Recorded datagrams, some lost, many late; an empty line for each number that is waited for too long."""
    r, datagrams, recording = random.Random(name + str(loss)), corpus(name), Recording(name)
    row = sorted((number + r.choice((0, 0, 0, 2, 7, 15)), octets) for number, octets in enumerate(datagrams) if r.random() >= loss)
    for place, octets in row:
        recording.add_datagram(octets)
        while place - recording.base() > 20:
            recording.add(b'')
    while recording.base() < len(datagrams):
        recording.add(b'')
    return recording.lines


def across_the_wrap():
    """Lines from 20 numbers before 65,535 on, half of the datagrams lost, with spares and parity in turn, so that both reach over it."""
    recording = Recording('wrap', WRAP)
    for at in range(60):
        octets = recording.sender.send(bytes([at]), *((SPARES, 8, 0), (PARITY, 3, 2))[at // 3 % 2], DATAGRAM_LIMIT)
        if recording.random.random() < 0.5:
            recording.add_datagram(octets)
        while recording.waiting() > 20:
            recording.add(b'')
    return recording.lines


def after_give_ups(given_up, lines):
    """Lines behind that many empty ones, with the report and the results; the give-ups are not done one by one."""
    notes, program = Notes(given_up), Program(given_up)
    report = [b'number %d: lost' % (number % 65536) for number in range(given_up)]
    results = [b'03%04X' % (number % 65536) for number in range(given_up)]
    report += [words for line in lines for words in notes.results(line)] + notes.table()
    return b'\n' * given_up + text_of(lines), text_of(report), results + [result for line in lines for result in program.results(line)]


def inputs(whole=False):
    """Names, and what makes the program's input, the report that is expected, and the results that it goes with."""
    for name, given, _ in stored('.lines', '.results'):
        yield 'stored ' + name, lambda n=name, g=given: as_stored(n, *with_report(g))
    for seed in range(SEEDS):
        yield 'lines of seed %d' % seed, lambda s=seed: with_report(program_lines(str(s), LINES_EACH))
    for name, loss in REPLAYED:
        yield '%s, %d %% lost' % (name, 100 * loss), lambda n=name, l=loss: with_report(text_of(worse_line(n, l)[0].lines))
        yield '%s, %d %% lost, many late' % (name, 100 * loss), lambda n=name, l=loss: with_report(text_of(late_line(n, l)))
    yield 'across the wrap', lambda: after_give_ups(WRAP, across_the_wrap())
    if whole:
        numbers = [number % 65536 for number in range(LIMIT, LIMIT + 70)]
        yield 'at the limit', lambda: after_give_ups(LIMIT, [b'%04X01060000' % number if number % 7 else b'' for number in numbers])


def as_stored(name, given, report, results):
    """A stored case; its report is the one derived by hand, if there is one."""
    path = (CASES / name).with_suffix('.notes')
    must(not path.exists() or path.read_bytes() == report, 'the independent program differs from stored %s', path.name)
    return given, report, results


def with_report(given):
    """An input, its report and its results."""
    return given, text_of(report_of(lines_of(given))), results_of(lines_of(given))


def goes_with(report, results):
    """Each line of a report goes with a result, and its table with the lines; how many numbers spares and parity have saved."""
    lines = lines_of(report)
    must(b'' in lines, 'no empty line before the table')
    written, table = lines[:lines.index(b'')], lines[lines.index(b'') + 1:]
    must(len(written) == len(results), '%d lines for %d results', len(written), len(results))
    saved = {}
    for words, result in zip(written, results):
        number, refused = NUMBER.fullmatch(words), REFUSED.fullmatch(words)
        meant = b''
        if refused:
            meant = b'FF%02X%04X' % (int(refused['number']), int(refused['place'] or 0))
        elif number and (b',' in number['kind']) == (number['note'] is not None):
            meant = b'%02X%04X' % (KINDS.index(number['kind']), int(number['number']))
        must(meant and result.startswith(meant), 'reported for %s: %s', around(result, 0), around(words, 0))
        if not refused and number['note']:
            distance = (int(number['note']) - int(number['number'])) % 65536
            row = saved.setdefault(distance if 1 <= distance <= 32 else 33, [0, 0])
            row[result[:2] == b'02'] += 1
    total = [sum(row[kind] for row in saved.values()) for kind in (0, 1)]
    rows = [(b'distance %d' % distance if distance <= 32 else b'behind', *saved[distance]) for distance in sorted(saved)]
    expected = [b'saved by spares %d, by parity %d' % tuple(total)] + [b'%s: spares %d, parity %d' % row for row in rows]
    must(table == expected, 'the table is %s, and the lines have %s', table, expected)
    return total


def check(command, given, report, results):
    """One input through the program; what was saved."""
    saved = goes_with(report, results)
    written, remark = run(command, given)
    must(not remark, 'it does not end well: %s', remark)
    at = difference(report, written)
    if at is not None:
        raise Wrong('\n'.join(['line %d of the report is not the expected one' % (at + 1)] + described(report, written, at)))
    return '%d by spares, %d by parity' % tuple(saved)


def every_kind(reports):
    """The reports have every kind of line: kinds, refusals with a place and without, rows."""
    lines = b'\n' + b''.join(reports)
    every = [b'received', b'spare, from', b'repaired, with', b'lost', b'behind'] + [b'\ndistance %d:' % row for row in (*range(1, 16), 31)]
    every += [b'with %d at octet' % number for number in (1, 3, 4, 5, 6)] + [b'with %d\n' % number for number in (2, 7, 8, 9, 15)]
    missing = [words.strip().decode() for words in every if words not in lines]
    must(not missing, 'in no report: %s', ', '.join(missing))


def behind_give_ups(given, report):
    """How many numbers are given up first, and an input without them, if they are many: one by one they take long."""
    given_up = len(given) - len(given.lstrip(b'\n'))
    if given_up < LINES_EACH:
        return 0, given, report
    return given_up, given[given_up:], text_of(lines_of(report)[given_up:])


def found(mutant, made):
    """Whether an input finds a wrong independent program."""
    return any(mutant.differs(['notes', str(given_up)], given, report) for given_up, given, report in made)


def self_test():
    """A wrong report for each thing that is checked, and each wrong program of a table; what is said of each."""
    test = Cases('notes.py')
    made = [make() for _, make in inputs()]
    given, report, results = with_report(dict((name, text) for name, text, _ in stored('.lines', '.results'))['request-8-program.lines']
                                         + b'0\n0009\n')
    count = len(list(stored('.lines', '.results')))
    test.fails('the stored inputs alone', 'distance 14:, distance 15:', every_kind, [report for _, report, _ in made[:count]])
    test.fails('a stored report altered', 'differs from stored whole-case.notes', as_stored, 'whole-case.lines', given, report, results)
    for name, old, new, words in (
            ('another kind', b'number 7: spare, from', b'number 7: repaired, with', 'reported for 01000747: number 7: repaired'),
            ('another place', b'at octet 2', b'at octet 3', 'reported for FF010002: line 10'),
            ('no empty line', b'\n\n', b'\n', 'no empty line before the table'),
            ('a line less', b'number 6: lost\n', b'', '12 lines for 13 results'),
            ('another row', b'distance 2:', b'distance 3:', 'the table is ')):
        assert report.count(old) == 1, (name, report)
        test.fails(name, words, goes_with, report.replace(old, new), results)
    right = independent('notes')
    for name, command, words in (
            ('status 3', right + '; exit 3', 'it does not end well: status 3'),
            ('a line number', right + " | sed 's/^line 9/line 8/'", 'line 12 of the report is not the expected one')):
        test.fails('the program, ' + name, words, check, command, given, report, results)
    short = [behind_give_ups(given, report) for given, report, _ in made]
    for name, *edit in REPORT_MUTANTS:
        test.says('a wrong program, ' + name, 'True', str(found(Mutant(*edit), short)))
    test.ends('a wrong program', 1, '0 passed, 1 failed', [sys.executable, __file__, '--notes', right + ' | tac'])
    test.end()


def main():
    """Checks the program; ends with status 1 if it is wrong."""
    parser = argparse.ArgumentParser(description=__doc__)
    parser.add_argument('--notes', help='shell command of the program notes')
    parser.add_argument('--long', action='store_true', help='also at 1,000,000 numbers')
    parser.add_argument('--self-test', action='store_true', help='check that wrong reports are reported')
    arguments = parser.parse_args()
    if arguments.self_test:
        self_test()
        return
    if not arguments.notes:
        parser.error('a command is needed: --notes')
    passed, reports = 0, []
    for name, make in [*inputs(arguments.long), ('every kind of line', None)]:
        try:
            if make:
                given, report, results = make()
                reports.append(report)
                print('ok %s; %s' % (name, check(arguments.notes, given, report, results)), flush=True)
            else:
                every_kind(reports)
                print('ok', name)
        except Wrong as wrong:
            print('wrong %s: %s' % (name, wrong))
            print('%d passed, 1 failed' % passed)
            sys.exit(1)
        passed += 1
    print('%d passed, 0 failed' % passed)


if __name__ == '__main__':
    main()

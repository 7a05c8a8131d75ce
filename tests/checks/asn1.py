#!/usr/bin/env python3
# check: behind
# self-test: beside
# needs: calls
# arguments: --calls 'bin/run calls'
# says: a packet is not read or written as an ASN.1 compiler reads it
"""Packets decoded by an ASN.1 compiler: both readers must accept, refuse and read each as the compiler's decoder does (rules 28.3, 8.2, 6.1
to 6.17 and 7.3 to 7.9).

What is read must be written back as the same octets. The lines are in corpus/asn1-98.txt for the old edition and in corpus/asn1-02.txt for
the new one; corpus/README.md has their form."""

import argparse
import functools
import pathlib
import sys
from typing import NamedTuple, Optional

sys.path[0] = str(pathlib.Path(__file__).resolve().parents[1])  # the folder tests/

from independent.arguments import shown, sized
from independent.calls import answer_all
from independent.editions import DATA_PACKET, INDICATOR, NEW, OLD, data_misplaced
from independent.packets import Packet
from mutants.edition import EDITION_MUTANTS
from mutants.format import PACKET_MUTANTS
from mutants.pencil import PENCIL_MUTANTS
from support.failing import Cases, altered, altered_here, independent, independent_here
from support.places import CORPUS
from support.real import Wrong, as_expected, must, written_by
from support.running import around
from support.within import Mutant

EDITIONS = {'asn1-98.txt': OLD, 'asn1-02.txt': NEW}
LINES = 400
READERS = 5, 7
KINDS = {'ind': INDICATOR, 'dat': DATA_PACKET}
NOT_DECODED = (b'FF01', b'FF03', b'FF04', b'FF05', b'FF0C', b'FF0E')
OTHER_OCTETS, NO_COUNT, UNLAWFUL, UNKNOWN = (b'FF05',), (b'FF03', b'FF04'), (b'FF0E',), (b'FF0C',)
WRONG_IN_THE_NEW = ('a four-bit header in the new edition', 'six bits from one', 'the zero bit not checked',
                    'v34rate without data refused', '07: six bits from one', '07: a four-bit header in the new edition')
WRONG_PROGRAMS = ('a header read on an octet of its own', 'a header written on an octet of its own', 'padding at the end not checked',
                  'a low half lost after a field with data', '07: align skips an octet at an edge', '07: 6 for 5 in padding',
                  ) + WRONG_IN_THE_NEW
PAST_THE_LAST = 1000  # replaces a number behind a plus: an added value that the decoder does not know


class Decoded(NamedTuple):
    """A line: the packet, whether 01 accepts it, the decoder's verdict and what it read, and the octets of that if they are others."""

    octets: bytes
    accepted: bool
    verdict: str
    said: Optional[Packet]
    others: bytes


def decoded(line):
    """One line taken apart; nothing is said if it does not decode, or has a count of fields and none, and its value is known."""
    octets, accepted, verdict, *rest = line.split()
    octets, others = bytes.fromhex(octets), b''
    if verdict == 'TR':
        others = octets[:-int(rest.pop(0))]
    elif verdict == 'NC':
        others = bytes.fromhex(rest.pop(0))
    said = None
    if rest and (rest[2:] != ['.'] or number(rest[1]) >= PAST_THE_LAST):
        fields = (field.partition('=') for field in ','.join(rest[2:]).replace('.', '').split(',') if field)
        said = Packet(KINDS[rest[0]], number(rest[1]), tuple((number(kind), bytes.fromhex(data)) for kind, _, data in fields))
    return Decoded(octets, accepted == 'A', verdict, said, others)


def number(text):
    """A value or a field type."""
    return PAST_THE_LAST if text.startswith('+') else int(text)


def unlawful(said):
    """What 01 does not allow though the ASN.1 does, the first as it is read: a value or type past the last, an indicator with fields,
    data where none may be or none where it must; nothing if there is none."""
    if said.value >= PAST_THE_LAST:
        return UNKNOWN
    if said.kind == INDICATOR and said.fields:
        return UNLAWFUL
    wrong = (UNKNOWN if kind >= PAST_THE_LAST else UNLAWFUL if data_misplaced(kind, data != b'') else () for kind, data in said.fields)
    return next(filter(None, wrong), ())


def refusals(given):
    """The refusals that a line leaves open, 6 with its place; a verdict that leaves none is that of a packet to be accepted."""
    if given.verdict == 'ER':
        return NOT_DECODED
    if given.said is None:
        return NO_COUNT
    left_over = (b'FF06%04X' % len(given.others),)
    dirty = OTHER_OCTETS if given.verdict == 'NC' else ()
    return unlawful(given.said) + dirty or {'OK': (), 'TR': left_over}[given.verdict]


def read_as(edition, octets, ending, *answers):
    """A packet read by both readers (05, 07), and what the answers may begin with."""
    return [((bytes([reader, edition, ending]) + octets).hex().upper().encode(), answers) for reader in READERS]


def read_and_written(edition, octets, said):
    """A packet read by both readers, of either ending, and written (06): five calls with the answers that there must be."""
    data = [data for _, data in said.fields]
    reading = bytes([0, said.kind, said.value, len(data)]) + b''.join(shown(kind, 1) + sized(one) for kind, one in said.fields)
    writing = bytes([6, edition, said.kind, said.value, len(data)] + [kind for kind, _ in said.fields] + [len(data)])
    writing += b''.join(shown(len(one), 2) for one in data) + sized(b''.join(data)) + shown(len(octets), 2)
    reading = reading.hex().upper().encode() + b'\n'
    return read_as(edition, octets, 0, reading) + read_as(edition, octets, 1, reading) + [
        (writing.hex().upper().encode(), ((b'\x00' + sized(octets)).hex().upper().encode() + b'\n',))]


@functools.lru_cache(None)
def calls_of(edition, line):
    """The calls that a line gives rise to, each with what its answer, with its line feed, may begin with."""
    given = decoded(line)
    if given.accepted:
        return read_and_written(edition, given.octets, given.said)
    calls = read_as(edition, given.octets, 0, *refusals(given)) + read_as(edition, given.octets, 1, b'')
    if given.others and given.said is not None and not unlawful(given.said):
        calls += read_and_written(edition, given.others, given.said)
    return calls


def read_alike(script, answers):
    """What the second reader (07) answers is what the first (05) answers, whose call comes before."""
    for call, first, second in zip(script[1:], answers, answers[1:]):
        must(not call.startswith(b'07') or second == first, '%s is answered %s, and by 05 %s', around(call, 0), around(second, 0),
             around(first, 0))


@functools.lru_cache(None)
def answers_to(script):
    """The independent program's answers."""
    return answer_all(script)


def check(command, edition, lines):
    """All lines of an edition by one program: what each says, and every answer the independent program's; how many packets are accepted."""
    calls = [(number, *call) for number, line in enumerate(lines, 1) for call in calls_of(edition, line)]
    script = [call for _, call, _ in calls]
    expected = answers_to(tuple(script))
    answers = written_by(command, script, expected)
    for (number, call, allowed), answer in zip(calls, answers):
        must((answer + b'\n').startswith(allowed), 'line %d: %s is answered %s, and not %s', number, around(call, 0), around(answer, 0),
             around(b' or '.join(allowed).replace(b'\n', b''), 0) or 'refused')
    read_alike(script, answers)
    as_expected(expected, answers)
    must(len(lines) == LINES, '%d lines in place of %d', len(lines), LINES)
    accepted = sum(decoded(line).accepted for line in lines)
    return '%d packets accepted, %d refused, %d calls' % (accepted, len(lines) - accepted, len(calls))


def lines_in(name):
    """The lines of a file."""
    return (CORPUS / name).read_text().splitlines()


def self_test():
    """Wrong programs, and a wrong line for each thing that a line says; and what is said of each."""
    test, right = Cases('asn1.py'), independent_here()
    old, new = lines_in('asn1-98.txt'), lines_in('asn1-02.txt')
    test.fails('a packet read otherwise', 'is answered 0001040', check, altered_here('calls 05 -1'), OLD, old)
    test.fails('two readers that differ', '07000048 is answered 00010400, and by 05 FF010001', read_alike, [b'05000048', b'07000048'],
               [b'FF010001', b'00010400'])
    test.fails('a packet written otherwise', 'line 2: 06000104', check, altered_here('calls 06 -1'), OLD, old)
    for name in WRONG_PROGRAMS:
        edit = next(row[1:] for row in PACKET_MUTANTS + PENCIL_MUTANTS + EDITION_MUTANTS if row[0] == name)
        edition, lines = (NEW, new) if name in WRONG_IN_THE_NEW else (OLD, old)
        test.fails(name, ' is answered ', check, Mutant(*edit).command(), edition, lines)
    for name, edition, line, words in (
            ('one to be accepted', OLD, 'C8 A OK dat 4', 'line 1: 050000C8 is answered FF010001, and not 00010400'),
            ('one to be refused', OLD, '48 R OK dat 4', 'line 1: 05000048 is answered 00010400, and not refused'),
            ('octets left over', OLD, 'C60223 R TR 1 dat 3 2', 'line 1: 050000C60223 is answered 00010302020000030000, and not FF060002'),
            ('other fields', OLD, 'C60223 A OK dat 3 2,4',
             'line 1: 050000C60223 is answered 00010302020000030000, and not 00010302020000040000'),
            ('another value', OLD, '0E A OK ind 8', 'line 1: 0500000E is answered 00000700, and not 00000800'),
            ('an added value not known', NEW, '2180 R OK ind +6', 'line 1: 0501002180 is answered 00001600, and not FF0C')):
        test.fails('a line that says otherwise, ' + name, words, check, right, edition, [line] + old[1:])
    test.fails('a line less', '399 lines in place of 400', check, right, OLD, old[1:])
    test.ends('a wrong program', 1, '2 passed, 1 failed', [sys.executable, __file__, '--calls', altered('calls 05 -1')])
    test.end()


def main():
    """Checks the independent program, then the one under test; ends with status 1 at the first that is wrong."""
    parser = argparse.ArgumentParser(description=__doc__)
    parser.add_argument('--calls', help='shell command of the calls program under test')
    parser.add_argument('--self-test', action='store_true', help='check that wrong programs and wrong lines are reported')
    arguments = parser.parse_args()
    if arguments.self_test:
        self_test()
        return
    if not arguments.calls:
        parser.error('a command is needed: --calls')
    passed = 0
    for whose, command in (('the independent program', independent()), ('calls', arguments.calls)):
        for name, edition in EDITIONS.items():
            try:
                print('ok %s by %s; %s' % (name, whose, check(command, edition, lines_in(name))), flush=True)
            except Wrong as wrong:
                print('wrong %s by %s: %s' % (name, whose, wrong))
                print('%d passed, 1 failed' % passed)
                sys.exit(1)
            passed += 1
    print('%d passed, 0 failed' % passed)


if __name__ == '__main__':
    main()

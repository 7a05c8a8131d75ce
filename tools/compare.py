#!/usr/bin/env python3
"""In which datagrams do two recorded calls differ? A table: the number, its line in each trace, and what differs.

FIRST and SECOND have a datagram a line in hexadecimal, or are captures, of which tools/lines-of takes the busiest flow; for another flow
write its lines to a file first. Lines pair by datagram number, the first with the first, the second with the second. The program `compare`
lists what differs; of packets that differ both are shown, with the first octet that differs in brackets. The status is 0 if nothing
differs, 1 if something does, and 2 if a trace is refused or cannot be read.

The program takes traces of up to 512 lines. Longer ones are compared in parts: a part has up to 512 lines of each trace, and all lines that
pair are in the same part."""

import argparse
import collections
import os
import pathlib
import shlex
import signal
import subprocess
import sys
import tempfile
import typing

from side_by_side import LINES, ONLY_FIRST, ONLY_SECOND, PACKET, PARITY, SPARES, Line, parts_of, rows_of

TOP = pathlib.Path(__file__).resolve().parent.parent
LONGEST = 4800  # characters of a line; of a longer line, just enough is passed on to see that it is too long
WORDS = {ONLY_FIRST: 'only in the first', ONLY_SECOND: 'only in the second', PACKET: 'packet', SPARES: 'spares', PARITY: 'parity'}
CAPTURES = b'\xd4\xc3\xb2\xa1', b'\xa1\xb2\xc3\xd4', b'\x4d\x3c\xb2\xa1', b'\xa1\xb2\x3c\x4d', b'\x0a\x0d\x0d\x0a'
REFUSALS = {
    1: 'the datagram ends early', 2: 'the line has more than %d characters' % LONGEST, 3: 'a length in a form that is not allowed',
    4: 'a length or count outside the sizes', 5: 'a bit is set that must be zero', 6: 'octets are left over behind the datagram',
    15: 'not pairs of hexadecimal digits',
}
UNPLACED = 2, 15  # of these refusals there is no place


class Wrong(Exception):
    """What ends the comparison; the text says it."""


class Refused(typing.NamedTuple):
    """A refusal: its number and place, the trace, 1 or 2, and the line."""
    number: int
    place: int
    trace: int
    line: int


def lines_in(text):
    """The lines of a trace: a last one without a line feed counts unless it is empty."""
    lines = text.split(b'\n')
    return lines if lines[-1] else lines[:-1]


def read(path):
    """The lines of a trace or a capture."""
    try:
        text = path.read_bytes()
    except OSError as wrong:
        raise Wrong('%s: %s' % (path, wrong.strerror))
    if text.startswith(CAPTURES):
        made = subprocess.run([sys.executable, str(TOP / 'tools' / 'lines-of'), str(path)], stdout=subprocess.PIPE)
        if made.returncode:
            raise Wrong('%s: no trace can be made of this capture' % path)
        text = made.stdout
    return lines_in(text)


def asked(command, first, second):
    """What the proved program lists of two traces, as pairs of number and code, or why it refuses them."""
    with tempfile.TemporaryDirectory() as folder:
        paths = [os.path.join(folder, name) for name in ('first', 'second')]
        for path, lines in zip(paths, (first, second)):
            with open(path, 'wb') as trace:
                trace.write(b''.join(line[:LONGEST + 1] + b'\n' for line in lines))
        ended = subprocess.run('%s %s' % (command, ' '.join(map(shlex.quote, paths))), shell=True, stdout=subprocess.PIPE)
    answer = ended.stdout.decode('ascii', 'replace').splitlines()
    if ended.returncode:
        raise Wrong('the program compare ended with status %d' % ended.returncode)
    if answer and answer[0].startswith('refused '):
        return Refused(*map(int, answer[0].split()[1:]))
    return [(int(number, 16), int(code)) for number, code in (line.split() for line in answer)]


def refuse(refused, names):
    """A refusal in words."""
    place = '' if refused.number in UNPLACED else ', at octet %d of the datagram, from 0' % refused.place
    raise Wrong('%s, the %s trace, line %d: %s%s (refusal %d)'
                % (names[refused.trace - 1], ('first', 'second')[refused.trace - 1], refused.line,
                   REFUSALS.get(refused.number, 'it does not read'), place, refused.number))


def readable(command, traces, names):
    """Has the proved program read long traces, so many lines at a time, the first trace first."""
    for trace, lines in enumerate(traces, 1):
        for start in range(0, len(lines), LINES):
            part = lines[start:start + LINES]
            answer = asked(command, *((part, []) if trace == 1 else ([], part)))
            if isinstance(answer, Refused):
                refuse(answer._replace(line=start + answer.line), names)


def compared(command, traces, names):
    """The rows of two traces, of which the proved program lists what differs."""
    few = all(len(lines) <= LINES for lines in traces)
    if few:
        answer = asked(command, *traces)
        if isinstance(answer, Refused):
            refuse(answer, names)
    else:
        readable(command, traces, names)
    held = [[Line(place, bytes.fromhex(line.decode())) for place, line in enumerate(lines, 1) if line] for lines in traces]
    rows = rows_of(*held)
    if few:
        check(answer, rows)
        return rows
    parts = parts_of(rows)
    say('the traces have %d and %d lines: compared in %d parts of up to %d lines, each with the lines of both that pair by number'
        % (*map(len, traces), len(parts), LINES))
    for part in parts:
        check(asked(command, *([line.octets.hex().encode() for line in side if line] for side in zip(*part))), part)
    return rows


def check(answer, rows):
    """The entries of the proved program are those of the rows."""
    if answer != [(row.number, code) for row in rows for code in row.codes]:
        raise Wrong('the entries that the program compare lists do not fit the lines')


def marked(packet, other):
    """A packet in hexadecimal, with the first octet that differs in brackets."""
    at = next((i for i, (a, b) in enumerate(zip(packet, other)) if a != b), min(len(packet), len(other)))
    return '%s[%s]%s' % (packet[:at].hex().upper(), packet[at:at + 1].hex().upper(), packet[at + 1:].hex().upper())


def table(rows):
    """The rows that differ, as text."""
    yield '%-12s  %11s  %11s  %s' % ('number', 'first line', 'second line', 'what differs')
    for row in rows:
        if row.codes:
            places = [str(line.line) if line else '-' for line in row]
            yield '%5d (%04X)  %11s  %11s  %s' % (row.number, row.number, *places, ', '.join(WORDS[code] for code in row.codes))
            if PACKET in row.codes:
                yield '              first   %s' % marked(row.first.packet, row.second.packet)
                yield '              second  %s' % marked(row.second.packet, row.first.packet)


def totals(rows):
    """How much differs, in words."""
    counts = collections.Counter(code for row in rows for code in row.codes)
    pairs = sum(bool(row.first and row.second) for row in rows)
    yield '%d datagrams in the first trace, %d in the second; %d pairs, %d of them alike' % (
        *(sum(bool(line) for line in side) for side in ((row.first for row in rows), (row.second for row in rows))), pairs,
        sum(not row.codes for row in rows))
    yield 'differences: %d (%s)' % (sum(counts.values()), ', '.join('%s %d' % (WORDS[code], counts[code]) for code in WORDS))


def say(text):
    """A remark."""
    print('compare: ' + text, file=sys.stderr, flush=True)


def options():
    """The command line."""
    parser = argparse.ArgumentParser(prog='./compare', description=__doc__, formatter_class=argparse.RawDescriptionHelpFormatter,
                                     usage='./compare FIRST SECOND')
    parser.add_argument('first', metavar='FIRST', type=pathlib.Path)
    parser.add_argument('second', metavar='SECOND', type=pathlib.Path)
    parser.add_argument('--compare', metavar='COMMAND', help='of the program compare; without it that is proved and built first')
    return parser


def proved():
    """Has the program proved and built, as far as it is not; the shell command that runs it."""
    made = subprocess.run([str(TOP / 'bin' / 'prove'), 'compare', '--', os.devnull, os.devnull], stdin=subprocess.DEVNULL)
    if made.returncode:
        raise Wrong('the program compare cannot be run')
    return '%s compare' % shlex.quote(str(TOP / 'bin' / 'run'))


def main():
    """The table and the totals on standard output; the status."""
    chosen = options().parse_args()
    names = chosen.first, chosen.second
    try:
        traces = [read(path) for path in names]
        rows = compared(chosen.compare or proved(), traces, names)
    except Wrong as wrong:
        say(str(wrong))
        return 2
    differ = any(row.codes for row in rows)
    print('\n'.join([*(table(rows) if differ else []), *([''] if differ else []), *totals(rows)]))
    return int(differ)


if __name__ == '__main__':
    for ending in (signal.SIGINT, signal.SIGPIPE):
        signal.signal(ending, signal.SIG_DFL)
    sys.exit(main())

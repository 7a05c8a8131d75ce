#!/usr/bin/env python3
# check: behind
# self-test: beside
# needs: calls receive
# arguments: --calls 'bin/run calls' --program 'bin/run receive'
# says: k spares do not bring back k lost in a row
"""The line from sender to modem (rules 23.1 to 23.8): a fresh sender with k spares throughout, a fresh receiver, datagrams in order, never
more than k lost in a row, the last one arriving, releases drained after each. Every packet is released once, octet for octet, and none is
lost.

The expected answers follow from these rules alone, without the independent program; short runs are compared with it too."""

import argparse
import contextlib
import itertools
import pathlib
import queue
import random
import subprocess
import sys
import threading
from typing import Callable, NamedTuple

sys.path[0] = str(pathlib.Path(__file__).resolve().parents[1])  # the folder tests/

from support.failing import Cases, altered, independent
from support.real import Wrong, corpus, must
from support.running import around, left_out

MOST_SPARES, NUMBERS, LIMIT = 8, 65536, 1000000
REAL = 'tt_v17_ecm_v0.a2b'
BASE_UNKNOWN, NUMBERS_PASSED = b'FF0A0000', b'FF100000'
CHUNK = 1000  # lines that are written at once


class Run(NamedTuple):
    """A run: k spares, how many packets, how the line loses, how a packet is made from its number, and how many came before.

    Those before were sent as packet 06 and given up (calls 22 and 16), so that a short run passes 65,535."""

    k: int
    length: int
    loses: str
    packet: Callable = None
    before: int = 0

    @property
    def name(self):
        """In words."""
        which = ' of a real call' if self.packet else ' behind %d' % self.before if self.before else ''
        return '%d spares, %d packets%s, %s' % (self.k, self.length, which, LOSSES[self.loses])

    def source(self):
        """A random source, the same each time."""
        return random.Random('%d %d %s' % (self.k, self.length, self.loses))


LOSSES = {'none': 'none lost', 'most': 'as many lost as may be', 'some': 'some lost', 'many': 'many lost', 'over': 'one too many lost'}


def arrivals(run, r):
    """For each packet whether its datagram arrives: never more than k are lost in a row, and the last one arrives."""
    chance, in_a_row = {'none': 0, 'most': 1, 'some': 0.2, 'many': 0.7, 'over': 1}[run.loses], 0
    for number in range(run.length):
        lost = number < run.length - 1 and in_a_row < run.k + (run.loses == 'over') and r.random() < chance
        in_a_row = in_a_row + 1 if lost else 0
        yield not lost


def short_packet(r):
    """A packet of one to eight octets, zeros among them."""
    return bytes(r.choice((0, 0, r.randrange(256))) for _ in range(r.choice((1, 2, 2, 3, 8))))


def length_of(octets):
    """A length as a datagram has it."""
    return b'%02X' % len(octets) if len(octets) < 128 else b'%04X' % (0x8000 + len(octets))


def steps(run):
    """For each packet: number, packet and its datagram, both in hexadecimal, whether it arrives, and what is then released, as pairs."""
    r, last, waiting = run.source(), [b'0106'] * min(run.k, run.before), []
    for number, arrives in enumerate(arrivals(run, run.source()), run.before):
        octets = run.packet(number) if run.packet else short_packet(r)
        packet = octets.hex().upper().encode()
        sized = length_of(octets) + packet
        datagram = b'%04X' % (number % NUMBERS) + sized + b'00%02X' % len(last) + b''.join(last)
        last = [sized] + last[:run.k - 1]
        waiting.append((number, packet))
        yield number, packet, datagram, arrives, waiting if arrives else []
        if arrives:
            waiting = []


def as_calls(run):
    """The run as lines of the calls program, each with the answer that it must have; at the end the counts."""
    received = spares = 0
    if run.before:
        yield from ((first + b'%08X' % run.before, b'00') for first in (b'16', b'22'))
    for number, packet, datagram, arrives, released in steps(run):
        size = len(datagram) // 2
        yield b'21%04X' % (len(packet) // 2) + packet + b'00%02X00%04X' % (run.k, size + 1), b'00%04X' % size + datagram + b'A5'
        if not arrives:
            continue
        yield b'11' + datagram, b'00'
        for at, sent in released:
            received, spares = received + (at == number), spares + (at != number)
            length = len(sent) // 2
            answer = b'00%02X%04X%04X%04X' % (at != number, at % NUMBERS, number % NUMBERS, length)
            yield b'1200%04X' % (length + 1), answer + sent + b'A5'
        yield b'12000000', NUMBERS_PASSED if number + 1 == LIMIT else BASE_UNKNOWN
    yield b'14', b'00%08X%08X%08X%08X' % (received, spares, 0, run.before)


def one_too_many(run):
    """k and one more lost in a row: when the next arrives, the first of them is still waiting, and nothing is released."""
    for number, packet, datagram, arrives, _ in steps(run):
        size = len(datagram) // 2
        yield b'21%04X' % (len(packet) // 2) + packet + b'00%02X00%04X' % (run.k, size), b'00%04X' % size + datagram
        if arrives:
            yield b'11' + datagram, b'00'
            yield b'12000000', BASE_UNKNOWN
    yield b'14', b'00' + bytes(16).hex().encode()


def as_lines(run):
    """The run as lines of the program, each with its results as one text."""
    for number, _, datagram, arrives, released in steps(run):
        if arrives:
            yield datagram, b'\n'.join(b'%02X%04X' % (at != number, at % NUMBERS) + sent for at, sent in released)


def check(command, made, run):
    """A program over a run: what it writes is what must be, to the last character, and it ends well."""
    process, pieces, count = subprocess.Popen(command, shell=True, stdin=subprocess.PIPE, stdout=subprocess.PIPE), queue.Queue(), 0
    writer = threading.Thread(target=write_all, args=(process.stdin, made, run, pieces), daemon=True)
    writer.start()
    try:
        for piece in iter(pieces.get, None):
            expected = b''.join(answer + b'\n' for _, answer in piece)
            written = process.stdout.read(len(expected))
            if written != expected:
                differing(run.name, piece, count, written + process.stdout.readline())
            count += len(piece)
        must(not process.stdout.read(1), '%s: more is written', run.name)
        writer.join()
        must(process.wait() == 0, '%s: status %d', run.name, process.returncode)
    except Wrong:
        process.stdout.read()  # so that the program can end by itself
        raise
    finally:
        process.kill()
        process.stdout.close()
        process.wait()
    return count


def differing(name, piece, before, written):
    """Says at which line of a piece, behind the lines before it, something else is written than expected."""
    lines = iter(written.splitlines(True))
    for at, (line, answer) in enumerate(piece, before + 1):
        for one in answer.split(b'\n'):
            found = next(lines, b'')
            must(found == one + b'\n', '%s, line %d, %s: expected %s, written %s', name, at, around(line, 0), around(one, 0),
                 around(found.rstrip(b'\n'), 0) or 'nothing')


def write_all(stream, made, run, pieces):
    """Hands on all lines with their answers, in pieces, and writes each piece; None at the end."""
    lines = made(run)
    try:
        with contextlib.suppress(BrokenPipeError), stream:
            for piece in iter(lambda: list(itertools.islice(lines, CHUNK)), []):
                pieces.put(piece)
                stream.write(b''.join(line + b'\n' for line, _ in piece))
    finally:
        pieces.put(None)


def runs():
    """The short runs: some and a real call for each k."""
    real = corpus(REAL)
    for k in range(1, MOST_SPARES + 1):
        for length, loses in ((1, 'none'), (k + 1, 'most'), (2 * k + 3, 'most'), (300, 'some'), (300, 'many'), (300, 'most')):
            yield Run(k, length, loses)
        yield Run(k, len(real), 'many', real.__getitem__)


def checks(arguments):
    """All checks: a name, and what does it."""
    short, past, most = list(runs()), Run(3, NUMBERS + 1, 'many'), [Run(3, LIMIT, 'many')] * arguments.long
    behind = [Run(k, 300, loses, before=NUMBERS - 150) for k in range(1, MOST_SPARES + 1) for loses in ('many', 'most')]
    too_many = [Run(k, k + 2, 'over') for k in range(1, MOST_SPARES + 1)]
    for given, made in ((short + behind + [past] * arguments.long + most, as_calls), (too_many, one_too_many)):
        for run in given if arguments.calls else ():
            yield 'calls: ' + run.name, lambda r=run, m=made: check(arguments.calls, m, r)
    for run in short + [Run(1, NUMBERS - 1, 'many'), Run(8, NUMBERS, 'most'), past] + most if arguments.program else ():
        yield 'program: ' + run.name, lambda r=run: check(arguments.program, as_lines, r)


def self_test():
    """A wrong program for each thing that is checked, and what is said of it."""
    test, calls, line = Cases('sender_to_modem.py'), independent(), Run(3, 40, 'many')
    for how, words in (('calls 21 -1', 'line 1, 21'), ('calls 11 1', 'expected 00, written 01'), ('calls spares', 'expected 0001'),
                       ('calls 14 9', 'expected 00000000')):
        test.fails('calls, ' + how, words, check, altered(how), as_calls, line)
    test.fails('program 01 6', 'expected 0', check, altered('program 01 6'), as_lines, line)
    test.fails('one too many lost, and nothing waits', 'expected 00010000', check, calls, as_calls, Run(2, 4, 'over'))
    for how, words in ((" | sed '$d'", 'written nothing'), ('; echo 00', 'more is written'), ('; exit 3', 'status 3')):
        test.fails('calls' + how, words, check, calls + how, as_calls, line)
    test.ends('a wrong program', 1, '0 passed, 1 failed', [sys.executable, __file__, '--calls', altered('calls 14 9')])
    test.end()


def main():
    """Does each check; ends with status 1 at the first that is wrong."""
    parser = argparse.ArgumentParser(description=__doc__)
    parser.add_argument('--calls', help='shell command of the calls program under test')
    parser.add_argument('--program', help='shell command of the program under test')
    parser.add_argument('--long', action='store_true', help='also runs of 65,537 packets by calls and of 1,000,000 packets')
    parser.add_argument('--self-test', action='store_true', help='check that wrong programs are reported')
    arguments = parser.parse_args()
    if arguments.self_test:
        self_test()
        return
    if not (arguments.calls or arguments.program):
        parser.error('a command is needed: --calls, --program or both')
    passed = 0
    for name, one in checks(arguments):
        try:
            print('ok %s; %d lines' % (name, one()), flush=True)
        except Wrong as wrong:
            print('wrong %s' % wrong)
            print('%d passed, 1 failed' % passed)
            sys.exit(1)
        passed += 1
    for line in left_out(arguments):
        print(line)
    print('%d passed, 0 failed' % passed)


if __name__ == '__main__':
    main()

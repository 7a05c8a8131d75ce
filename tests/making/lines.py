"""Input for the program (rules 18.1 to 18.11): lines of hexadecimal as a recorder might write them, good and bad."""

import random

from independent.datagrams import DATAGRAM_LIMIT, PARITY, SPARES, written_datagram
from independent.program import LINE_LIMIT, Program
from independent.receiving import NUMBERS_LIMIT
from independent.sending import Sending

from . import pieces

ODD_LINES = (b'0', b'0G', b'00 01', b' ', b'\r', b'\t', b'\x00', b'\xFF\xFE', b'0x00', b'FF', b'00', b'0000',
             b'g' * LINE_LIMIT, b'g' * (LINE_LIMIT + 1), b'0' * (LINE_LIMIT - 1), b'0' * LINE_LIMIT, b'0' * (LINE_LIMIT + 1),
             b'0' * (LINE_LIMIT + 2), b'A' * LINE_LIMIT, b'z' * (LINE_LIMIT + 2000), b'F' * 20000)


class Recording:
    """The lines so far, the program after them, and an honest sender."""

    def __init__(self, seed, given_up=0):
        self.random = random.Random(seed)
        self.lines = []
        self.results = []
        self.program = Program(given_up)
        self.sender = Sending(given_up)

    def add(self, line):
        """Adds a line, and follows what the program makes of it."""
        self.lines.append(line)
        self.results.extend(self.program.results(line))

    def add_datagram(self, octets):
        """Adds a datagram's line, in either case."""
        self.add((octets.hex() if self.random.random() < 0.1 else octets.hex().upper()).encode())

    def base(self):
        """The number that the program waits for."""
        return self.program.session.base

    def waiting(self):
        """How many numbers the sender is ahead of the base; negative if it was left behind."""
        return (self.sender.sent - self.base() + 32768) % 65536 - 32768


def record(seed, count, given_up=0):
    """A recording of that many lines or a few more, behind a number of give-ups."""
    recording = Recording(seed, given_up)
    while len(recording.lines) < count:
        stretch(recording)
    assert recording.program.session.all_in_ranges(), 'the lines have led outside the ranges'
    return recording


def program_lines(seed, count):
    """So many lines as the program reads them; some inputs end without a line feed."""
    lines = record(seed, count).lines[:count]
    return b'\n'.join(lines) + (b'' if random.Random(seed).random() < 0.3 else b'\n')


def after_give_ups(given_up, lines):
    """Lines behind that many empty ones, and their results; the give-ups are not done one by one."""
    program = Program(given_up)
    lost = b''.join(b'03%04X\n' % (number % 65536) for number in range(given_up))
    results = b''.join(result + b'\n' for line in lines for result in program.results(line))
    return b'\n' * given_up + b''.join(line + b'\n' for line in lines), lost + results


def across_the_wrap(seed, count):
    """So many lines that begin some numbers before 65,535, and their results."""
    given_up = 65536 - count // 5
    return after_give_ups(given_up, record(seed, count, given_up).lines)


def at_the_limit():
    """The last numbers before 1,000,000 and some lines more: give-ups are then refused, offers are not."""
    given_up = NUMBERS_LIMIT - 50
    numbers = [number % 65536 for number in range(given_up, NUMBERS_LIMIT + 20)]
    return after_give_ups(given_up, [b'%04X01060000' % number if number % 7 else b'' for number in numbers])


def stretch(recording):
    """Some datagrams with one kind of settings over one kind of line, with empty lines as give-ups."""
    r, sender = recording.random, recording.sender
    kind = r.choice((SPARES, PARITY, 'mixed', 'dishonest'))
    k, n, m = r.randrange(9), r.randrange(1, 9), r.randrange(1, 5)
    loss, late = r.choice((0, 0.1, 0.3, 0.6)), r.choice((0, 0, 3, 20))
    small = r.choice((1.0, 0.8, 0.4))
    on_the_way = []
    for step in range(r.choice((10, 40, 100))):
        settings = (SPARES, k, 0) if kind == SPARES or kind == 'mixed' and r.random() < 0.5 else (PARITY, n, m)
        octets = sender.send(pieces.opaque(r, small), *settings, DATAGRAM_LIMIT)
        if kind == 'dishonest':
            octets = written_datagram(pieces.datagram(r, (sender.sent - 1) % 65536, small))
        if r.random() >= loss:
            on_the_way.append((step + r.randrange(late + 1), octets))
        if r.random() < 0.04:
            on_the_way.append((step + r.randrange(40), octets))
        on_the_way.sort()
        while on_the_way and on_the_way[0][0] <= step:
            recording.add_datagram(on_the_way.pop(0)[1])
        if r.random() < 0.06:
            recording.add(odd_line(r, recording.base()))
        while recording.waiting() > r.choice((12, 24, 31, 36)) or r.random() < 0.01:
            recording.add(b'')
        while recording.waiting() < 0:
            sender.send(b'\x00', SPARES, 0, 0, DATAGRAM_LIMIT)


def odd_line(r, base):
    """A line that is refused, most likely."""
    choice = r.random()
    if choice < 0.4:
        return r.choice(ODD_LINES)
    number = (base + r.choice((0, 1, 31, 32, 33, 32767, 32768, 65535))) % 65536
    if choice < 0.6:
        return written_datagram(pieces.datagram(r, number, 0.9)).hex().encode() + r.choice((b'\r', b' ', b'0', b'00'))
    if choice < 0.7:
        return written_datagram(pieces.datagram(r, (base - r.randrange(1, 70)) % 65536, 0.9)).hex().encode()
    return pieces.damaged_datagram(r, number).hex().encode()

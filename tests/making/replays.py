"""Scenes for the replay (rules 21.1 to 21.6): traces with lists of numbers to drop, and buffers near the size of what is written."""

import re

from independent.arguments import shown, sized
from independent.datagrams import DATAGRAM_LIMIT, PARITY, SPARES, written_datagram
from independent.program import LINE_LIMIT
from independent.replaying import replay
from independent.sending import Sending

from . import pieces
from .lines import record

ENOUGH = 120000
LONGEST = LINE_LIMIT + 2
EDGES = (b'', b'\n', b'\n\n', b'\r\n', b' \n', b'0', b'00', b'0000', b'000001060000', b'000001060000\n', b'000001060000\n\n',
         b'\n000001060000', b'000001060000\r\n', b'000001060000 \n000101070000', b'000001060000\n000001060000\n', b'0000010600FF\n',
         b'00000106000\n', b'000001060000\n0001010700G0\n', b'000101060000\n', b'000001060000'.ljust(LINE_LIMIT + 1, b'0') + b'\n',
         b'g' * (LINE_LIMIT + 1), b'0' * LINE_LIMIT, b'0001010600010107\n', b'0001010680010101010A\n')


def call(script, numbers, trace, cap):
    """40."""
    return script.call(0x40, shown(len(numbers), 2), b''.join(shown(number, 2) for number in numbers), sized(trace, 4), shown(cap, 4))


def played(script, numbers, lines):
    """A replay with exactly the room that it needs, or near it; its last line ends with a line feed or not."""
    r = script.random
    trace = b'\n'.join(lines) + r.choice((b'\n', b'\n', b''))
    size = len(replay(numbers, trace, ENOUGH)[1])
    for cap in r.sample((size, size, size, size + 1, size + 60, size - 1, size - 1, size - 60, size // 2, 0), 2):
        call(script, numbers, trace, max(0, cap))


def listed(r, lines):
    """Some of the numbers that the lines begin with, read or not; some twice, and some that never occur."""
    numbers = [int(line[:4], 16) for line in lines if re.match(b'[0-9A-Fa-f]{4}', line)]
    part = r.choice((0, 0.1, 0.3, 0.6, 1))
    chosen = [number for number in numbers if r.random() < part]
    chosen += r.choice(([], chosen[:3], [r.randrange(65536)], [256 * number % 65535 for number in numbers[:3]]))
    r.shuffle(chosen)
    return chosen


def recorded(script):
    """A trace as a recorder might write it, played again with other losses."""
    r = script.random
    count = r.choice((4, 12, 30))
    lines = [line for line in record(str(r.random()), count).lines if len(line) <= LONGEST][:count]
    for _ in range(2):
        played(script, listed(r, lines), lines)
    script.look(0.2)


def crowded(script):
    """A short trace in which numbers come damaged, repeated, late and too far ahead, with give-ups between; the session held stays."""
    r = script.random
    hold_something(script)
    sender, lines = Sending(), []
    settings = r.choice(((SPARES, 0, 0), (SPARES, 2, 0), (PARITY, 2, 1), (PARITY, 3, 2)))
    for _ in range(r.choice((3, 6, 10))):
        line = sender.send(pieces.opaque(r, 1.0), *settings, DATAGRAM_LIMIT).hex().upper().encode()
        lines += r.choice(([line], [line], [line, line], [odd(r, line), line], [line, odd(r, line)], [b'', line], [line, b''], [],
                           [line.lower()]))
        if script.chance(0.3):
            lines.append(r.choice(lines or [b'']))
        if script.chance(0.2):
            number = (sender.sent + r.choice((32, 33, 100, 32768, 65500))) % 65536
            lines.append(written_datagram(pieces.datagram(r, number, 1.0)).hex().upper().encode())
    if script.chance(0.4):
        r.shuffle(lines)
    for _ in range(3):
        played(script, listed(r, lines), lines)
    script.call(0x14)
    script.next()


def odd(r, line):
    """A datagram's line made unreadable, its number unchanged."""
    return r.choice((line[:-2], line[:-1], line + b'00', line + b'0', line + b'\r', line[:4] + b' ' + line[4:], line[:4] + b'00' + line[6:],
                     line[:4], line + b'0' * LINE_LIMIT))


def hold_something(script):
    """A receiving session that is not fresh, with a packet to release."""
    script.call(0x10)
    for number in range(script.random.randrange(1, 4)):
        script.offer(written_datagram(pieces.datagram(script.random, number, 1.0)))
    script.next()


def edges(script):
    """Traces of a line or none, with and without a line feed at the end, good and bad."""
    r = script.random
    for trace in r.sample(EDGES, 6):
        call(script, r.choice(([], [0], [1], [0, 0], [0, 1])), trace, r.choice((0, 7, 8, 9, 9, 18, 100)))


def no_calls(script):
    """Arguments that end early or go on, and caps and lines near the greatest."""
    r = script.random
    whole = b'40' + b'0001' + b'0000' + b'00000001' + b'0A' + b'00000007'
    odd_lines = [whole, whole[:-2], whole[:-8], whole + b'00', whole[:2], whole[:5], whole[:6], whole[:10], whole[:18], whole[:20],
                 b'400002' + whole[6:], b'40FFFF' + whole[6:], b'400000' + whole[6:], whole[:10] + b'00000002' + whole[18:],
                 whole[:10] + b'FFFFFFFF' + whole[18:], whole[:-8] + b'0001D4C1', whole[:-8] + b'FFFFFFFF', whole[:-8] + b'00010007',
                 b'41', b'3F', b'4']
    for line in r.sample(odd_lines, 8):
        script.line(line)
    if script.chance(0.5):
        script.line(r.choice((whole[:-8] + b'0001D4C0', b'03' + b'0' * 239998, b'03' + b'0' * 240000, b'0' * 240001,
                              b'40' + b'0000' + b'%08X' % 119989 + b'67' * 119989 + b'00000009')))

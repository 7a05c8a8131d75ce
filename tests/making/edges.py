"""Scenes at a session's edges (rules 9.3, 26.15, 1.10 and 15.1 to 15.13): numbers before the first, the wrap, the limit, refused datagrams,
and a sending session alone."""

from independent.arguments import shown
from independent.datagrams import DATAGRAM_LIMIT, PARITY, SPARES, written_datagram
from independent.packets import PACKET_LIMIT
from independent.receiving import NUMBERS_LIMIT

from . import pieces
from .conversations import Style, send_one, start


def damaged_offers(script):
    """Datagrams that the reader refuses, offered; the session stays unchanged."""
    r = script.random
    start(script)
    for _ in range(20):
        number = (script.receiving.base + r.randrange(32)) % 65536
        script.offer(pieces.damaged_datagram(r, number))
        script.look(0.1)
    script.offer(bytes(r.choice((DATAGRAM_LIMIT, DATAGRAM_LIMIT + 1, DATAGRAM_LIMIT + 100))))
    for distance in (31, 32, 32767, 32768, 65535):
        script.offer(written_datagram(pieces.datagram(r, (script.receiving.base + distance) % 65536, 0.95)))
    script.next(PACKET_LIMIT)


def blanks(script):
    """A fresh session, with spares and parity that reach before the first number."""
    r = script.random
    script.call(0x10)
    for _ in range(r.randrange(3)):
        script.give_up()
    numbers = list(range(8))
    r.shuffle(numbers)
    for number in numbers:
        script.offer(written_datagram(pieces.datagram(r, number, 0.95)))
        if script.chance(0.2):
            script.next(PACKET_LIMIT)
    script.look()
    for _ in range(12):
        if script.next(PACKET_LIMIT)[0] == 0xFF:
            script.give_up()
    script.look()


def skipping(script):
    """Next without leave to skip and with it, at known and unknown bases, with room, too little, and none."""
    r = script.random
    start(script)
    for distance in r.sample(range(12), 5):
        script.offer(written_datagram(pieces.datagram(r, (script.receiving.base + distance) % 65536, 0.95)))
    for _ in range(16):
        length = script.receiving.place(script.receiving.base).length
        script.next(r.choice((0, max(0, length - 1), length, length, length + 2)), script.chance(0.6))
        script.look(0.1)


def at_the_limit(script):
    """The last numbers before 1,000,000: next and give up stop there, offer goes on."""
    r = script.random
    left = r.randrange(4)
    script.call(0x16, shown(r.choice((NUMBERS_LIMIT - left, NUMBERS_LIMIT + r.randrange(3), 0xFFFFFFFF)), 4))
    script.next(PACKET_LIMIT)
    for distance in r.sample(range(32), 6) + [0, 1]:
        script.offer(written_datagram(pieces.datagram(r, (script.receiving.base + distance) % 65536, 0.95)))
    for _ in range(6):
        script.next(r.choice((0, PACKET_LIMIT)))
        if script.chance(0.5):
            script.give_up(r.choice((0, PACKET_LIMIT)))
    script.look()
    script.call(0x22, shown(r.choice((NUMBERS_LIMIT - left, NUMBERS_LIMIT + 1, 0xFFFFFFFF)), 4))
    for _ in range(5):
        settings = r.choice(((SPARES, 8, 0), (SPARES, 9, 0), (PARITY, 2, 2), (PARITY, 8, 4)))
        script.send(pieces.opaque(r), *settings, r.choice((3, DATAGRAM_LIMIT, DATAGRAM_LIMIT)))


def sending(script):
    """A sending session alone: the start with every setting, the wrap, buffers near the result."""
    r = script.random
    if script.chance(0.5):
        script.call(0x20)
    else:
        script.call(0x22, shown(r.choice((1, 5, 31, 32, 33, 65530, 65536, 65540, 131070, 999990)), 4))
    style = Style(r)
    for _ in range(30):
        send_one(script, style, [])
    script.call(0x22, shown(65536 * r.randrange(1, 15) + r.randrange(8), 4))
    for _ in range(3):
        script.send(pieces.opaque(r, 1.0), SPARES, r.choice((1, 4, 8, 8)), 0)
    wrong = r.choice(((SPARES, 9, 0), (PARITY, 0, 1), (PARITY, 1, 5), (SPARES, 8, 0)))
    script.send(pieces.octets(r, r.choice((0, PACKET_LIMIT + 1, PACKET_LIMIT + 1))), *wrong, r.choice((0, DATAGRAM_LIMIT)))

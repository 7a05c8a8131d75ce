"""Scenes about notes (rules 9.5 to 9.8): which datagram filled each number, as the view shows it and a release returns it."""

from independent.arguments import shown
from independent.datagrams import DATAGRAM_LIMIT, PARITY, SPARES
from independent.packets import PACKET_LIMIT
from independent.receiving import AFTER, BEFORE, NUMBERS_LIMIT, UNKNOWN
from independent.sending import Sending

from . import pieces
from .outside import furnish, try_all

ANY_NOTE = (0, 1, 255, 256, 32767, 32768, 65535)


def begin(script, count):
    """A receiving session, and an honest sender that is there too: at the first number, so that 65,535 is among so many, or anywhere."""
    r = script.random
    at = r.choice((0, r.randrange(40), 65536 - r.randrange(1, count), 65536 * r.randrange(1, 15) - r.randrange(1, count),
                   r.randrange(NUMBERS_LIMIT - 99)))
    script.call(0x16, shown(at, 4))
    return Sending(at)


def send(script, sender, settings):
    """The sender's next datagram, small."""
    return sender.send(pieces.octets(script.random, script.random.choice((1, 2, 3))), *settings, DATAGRAM_LIMIT)


def filled(script):
    """How many numbers in view are known."""
    return sum(place.state != UNKNOWN for place in script.receiving.places)


def watched(script, octets):
    """Offers a datagram, and shows the view if more than its own number has been filled."""
    before = filled(script)
    script.offer(octets)
    if filled(script) > before + 1:
        script.call(0x15)


def release_all(script, count):
    """So many numbers leave, known or not."""
    for _ in range(count):
        known = script.receiving.place(script.receiving.base).state != UNKNOWN
        script.next(3, not known or script.chance(0.5))


def saved(script):
    """Spares and parity save numbers, before the base too; then their own datagrams come, late, and no note of them changes."""
    r, count = script.random, script.random.choice((8, 16))
    sender = begin(script, count)
    settings = r.choice(((SPARES, r.randrange(1, 9), 0), (PARITY, r.randrange(1, 5), r.randrange(1, 5))))
    datagrams = [send(script, sender, settings) for _ in range(count)]
    late = [octets for octets in datagrams if script.chance(0.4)]
    for _ in range(r.choice((0, 0, 2))):
        script.give_up()
    early = [octets for octets in datagrams if octets not in late]
    if script.chance(0.3):
        r.shuffle(early)
    for octets in early:
        watched(script, octets)
    r.shuffle(late)
    for octets in late:
        watched(script, octets)
        if script.chance(0.2):
            script.call(0x15)
    release_all(script, len(datagrams))
    script.look(0.5)


def in_runs(script):
    """Every second datagram comes, with a message over its two neighbours; one of those sets off a run up and down, all by its offer."""
    r, count = script.random, script.random.choice((8, 12, 20))
    sender = begin(script, count)
    datagrams = [send(script, sender, (PARITY, 2, 2) if at % 2 and at > 1 else (SPARES, 0, 0)) for at in range(count)]
    waiting = datagrams[::2]
    holders = datagrams[1::2]
    r.shuffle(waiting)
    if script.chance(0.5):
        r.shuffle(holders)
    for octets in holders + waiting[:1]:
        watched(script, octets)
    for octets in waiting[1:3]:
        script.offer(octets)
    script.call(0x15)
    release_all(script, len(datagrams))


def into_view(script):
    """Filled places are taken by other numbers, which come into view unknown and without a note, and are then filled by others."""
    r, sender = script.random, begin(script, 2 * AFTER)
    for _ in range(r.choice((2, 3))):
        settings = r.choice(((SPARES, r.randrange(1, 9), 0), (PARITY, r.randrange(1, 5), r.randrange(1, 5))))
        datagrams = [send(script, sender, settings) for _ in range(AFTER)]
        for octets in datagrams:
            if script.chance(0.6):
                script.offer(octets)
        script.call(0x15)
        release_all(script, AFTER)
    script.call(0x15)


def overwritten(script):
    """For each state there is, notes as a caller could set them: 0, the number's own, one near, any; those outside are repaired."""
    r = script.random
    furnish(script)
    if script.chance(0.5):
        script.call(0x16, shown(65536 - r.randrange(1, 20), 4))
        sender = Sending(script.receiving.total())
        for octets in [send(script, sender, (SPARES, r.randrange(4), 0)) for _ in range(14)]:
            if script.chance(0.5):
                script.offer(octets)
    for state in r.sample(range(5), 5):
        held = script.receiving
        numbers = [(held.base + d) % 65536 for d in range(-BEFORE, AFTER) if held.place(held.base + d).state == state]
        for number in r.sample(numbers, min(2, len(numbers))):
            before = script.receiving.place(number).note
            others = [(number + step) % 65536 for step in (0, 1, -1, 64, 256)]
            script.overwrite(13, number, value=r.choice(ANY_NOTE + 4 * tuple(others)))
            if script.receiving.in_ranges():
                script.next(r.choice((0, PACKET_LIMIT)))
                script.call(0x15)
            else:
                try_all(script, 0.1)
                script.overwrite(13, number, value=before)
    try_all(script)

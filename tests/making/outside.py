"""Scenes with sessions outside their ranges (rules 13.1 to 13.11 and 15.13): each rule is broken alone, seen refused, then repaired or
left."""

from independent.arguments import shown
from independent.datagrams import DATAGRAM_LIMIT, PARITY, SPARES, written_datagram
from independent.packets import PACKET_LIMIT
from independent.receiving import NUMBERS_LIMIT, RECEIVED, REPAIRED, SPARE

from . import pieces
from .breaking import BREAKS, KNOWN, Session


def field_value(session, field, number=0, message=0, octet=0, **_):
    """What a field of the receiving session holds now."""
    place, mark = session.place(number), session.mark(number)
    if field == 0:
        return session.base
    if field <= 4:
        return list(session.counts.values())[field - 1]
    return {5: lambda: place.state, 6: lambda: place.length, 7: lambda: place.octets[octet], 8: lambda: mark.accepted,
            9: lambda: mark.n, 10: lambda: mark.m, 11: lambda: mark.messages[message].length,
            12: lambda: mark.messages[message].octets[octet], 13: lambda: place.note}[field]()


def furnish(script):
    """A session with something of every kind in it: given up, received, spare, repaired, parity, unknown."""
    r = script.random
    if script.chance(0.5):
        script.call(0x10)
    else:
        script.call(0x16, shown(r.choice((3, 20, 31, 32, 33, 65530, 65600, 999990)), 4))
    for _ in range(r.randrange(1, 4)):
        script.give_up()
    for distance in r.sample(range(12), 7):
        script.offer(written_datagram(pieces.datagram(r, (script.receiving.base + distance) % 65536, 0.97)))
    for _ in range(r.randrange(4)):
        script.next(PACKET_LIMIT)


def try_all(script, chance_of_view=0.2):
    """Offer, next without leave to skip and with it, and an image with little room or none, in any order."""
    r = script.random
    number = (script.receiving.base + r.randrange(14)) % 65536
    tries = [lambda: script.offer(written_datagram(pieces.datagram(r, number, 0.97))), lambda: script.image(r.choice((0, 0, 1100))),
             lambda: script.next(r.choice((PACKET_LIMIT, PACKET_LIMIT, 0))), lambda: script.give_up(r.choice((PACKET_LIMIT, 0)))]
    if script.chance(0.1):
        tries.append(lambda: script.offer(pieces.damaged_datagram(r, number)))
    r.shuffle(tries)
    for one_try in tries:
        one_try()
    script.look(chance_of_view)


def receiving_outside(script):
    """Several rules broken, each alone; the session is repaired and goes on, or a fresh one follows."""
    r = script.random
    furnish(script)
    for broken in r.sample(BREAKS, 10):
        session = Session(script)
        try:
            changes = broken(session)
        except LookupError:
            continue
        before = [(field, dict(place, value=field_value(script.receiving, field, **place))) for field, place in changes]
        for field, place in changes:
            script.overwrite(field, **place)
        try_all(script)
        if script.receiving.in_ranges():
            continue
        if script.chance(0.1):
            furnish(script)
            continue
        for field, place in reversed(before):
            script.overwrite(field, **place)
        if script.chance(0.6):
            try_all(script, 0.05)


def overwritten_inside(script):
    """Fields overwritten so that the session stays inside its ranges, though no moves have led there."""
    r = script.random
    furnish(script)
    for _ in range(8):
        held = script.receiving
        d = r.randrange(14)
        number, place, mark = (held.base + d) % 65536, held.place(held.base + d), held.mark(held.base + d)
        choice = r.randrange(8)
        if choice == 0 and place.state in KNOWN:
            state = r.choice(KNOWN)
            script.overwrite(5, number, value=state)
            if state == RECEIVED:
                script.overwrite(13, number, value=number)
        elif choice == 1 and place.length:
            script.overwrite(7, number, octet=r.randrange(place.length), value=r.randrange(256))
        elif choice == 2 and place.state in KNOWN and not mark.m:
            script.overwrite(8, number, value=1 - mark.accepted)
        elif choice == 3 and mark.m:
            script.overwrite(9, number, value=r.randrange(1, 9))
        elif choice == 4 and mark.accepted:
            script.overwrite(9, number, value=mark.n or r.randrange(1, 9))
            script.overwrite(10, number, value=max(mark.m, r.randrange(1, 5)))
        elif choice == 5 and mark.m:
            message = r.randrange(mark.m)
            script.overwrite(11, number, message, value=mark.messages[message].length + r.choice((0, 1)))
        elif choice == 6:
            counts = list(held.counts.values())
            if counts[3]:
                script.overwrite(4, value=counts[3] - 1)
                script.overwrite(r.randrange(1, 4), value=counts[0] + 1)
        elif choice == 7 and place.state in (SPARE, REPAIRED):
            script.overwrite(13, number, value=r.choice((0, number, r.randrange(65536))))
        if script.chance(0.5):
            try_all(script, 0.3)
    if not script.receiving.in_ranges():
        script.look()


def odd_overwrites(script):
    """Values that a field cannot hold and places that are not there."""
    r = script.random
    base = script.receiving.base
    script.overwrite(r.choice((0, 6, 13)), base, value=r.choice((65536, 0xFFFFFFFF)))
    script.overwrite(5, base, value=r.choice((5, 255, 256)))
    script.overwrite(7, base, octet=r.choice((PACKET_LIMIT - 1, PACKET_LIMIT, 65535)), value=0)
    script.overwrite(7, base, octet=r.randrange(PACKET_LIMIT), value=256)
    script.overwrite(r.choice((5, 6, 7, 13)), base + r.choice((32, -33, 1000)))
    script.overwrite(5, base + r.choice((-32, 31)), value=5)
    script.overwrite(8, base, value=2)
    script.overwrite(r.choice((9, 10)), base, value=256)
    script.overwrite(r.choice((8, 9, 10, 11, 12)), base + r.choice((-1, 32, 40)))
    script.overwrite(r.choice((11, 12)), base, message=r.choice((4, 255)))
    script.overwrite(12, base, message=3, octet=PACKET_LIMIT)
    script.overwrite(r.choice((14, 128, 255)), base)
    sent = script.sending.sent
    script.overwrite_sending(r.choice((1, 2)), sent + r.choice((0, 1, -33)))
    script.overwrite_sending(1, sent - 1, value=65536)
    script.overwrite_sending(2, sent - 1, octet=PACKET_LIMIT)
    script.overwrite_sending(2, sent - 1, octet=0, value=256)
    script.overwrite_sending(3, sent - 1)


def sending_changes(script):
    """One change of the sending session, mostly one that breaks a rule alone: rows of field, number, octet and value."""
    r, sent = script.random, script.sending.sent
    j = r.randrange(1, 33)
    number, item = (sent - j) % 65536, script.sending.sent_before(j)
    choice = r.randrange(6)
    if choice == 0:
        return [(0, 0, 0, r.choice((NUMBERS_LIMIT + 1, 1048576 + sent % 32, 0xFFFFFFFF, max(0, sent - 1), sent + 1, 0, sent % 32)))]
    if choice == 1:
        return [(1, number, 0, r.choice((PACKET_LIMIT + 1, PACKET_LIMIT + 1, 2 * PACKET_LIMIT, 65535)))]
    if choice == 2:
        if j > sent:
            return [(1, number, 0, 1)]
        return [(2, number, octet, 0) for octet in range(item.length)][:8] + [(1, number, 0, 0)]
    if choice == 3:
        return [(2, number, r.choice((min(item.length, PACKET_LIMIT - 1), PACKET_LIMIT - 1)), r.choice((1, 255)))]
    if choice == 4:
        return [(1, number, 0, r.randrange(PACKET_LIMIT + 1))]
    return [(2, number, 0, r.randrange(256))]


def sending_value(session, field, number, octet):
    """What a field of the sending session holds now."""
    item = session.history[number % len(session.history)]
    return session.sent if field == 0 else item.length if field == 1 else item.octets[octet]


def sending_outside(script):
    """A sending session with each rule broken alone, then repaired."""
    r = script.random
    script.call(0x22, shown(r.choice((0, 1, 20, 31, 32, 50, 65540, 999990)), 4))
    for _ in range(4):
        script.send(pieces.opaque(r, 0.9), SPARES, r.randrange(9), 0)
    for _ in range(7):
        changes = sending_changes(script)
        before = [change[:3] + (sending_value(script.sending, *change[:3]),) for change in changes]
        for change in changes:
            script.overwrite_sending(*change)
        for _ in range(2):
            settings = r.choice(((SPARES, 0, 0), (SPARES, 3, 0), (PARITY, 3, 2), (PARITY, 8, 4), (SPARES, 9, 0)))
            script.send(r.choice((b'\x06', b'', pieces.opaque(r, 0.9))), *settings, r.choice((3, DATAGRAM_LIMIT)))
        if not script.sending.in_ranges():
            for change in reversed(before):
                script.overwrite_sending(*change)
        script.send(pieces.opaque(r, 0.9), *r.choice(((SPARES, 8, 0), (PARITY, 8, 4), (PARITY, 4, 3))))

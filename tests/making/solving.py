"""Scenes for losses that no single message repairs (rules 14.1 to 14.6): sessions whose messages fix numbers only together, or contradict.

The sums of messages (`sums`) decide what each call must fill."""

from independent.arguments import shown
from independent.datagrams import PARITY, SPARES, members_of, read_datagram, written_datagram
from independent.packets import PACKET_LIMIT
from independent.receiving import AFTER, UNKNOWN

from . import pieces
from .breaking import BREAKS, Session
from .conversations import start
from .sums import VIEW, release, solve, solved_again, solved_as_sent


def settings(r, style):
    """Settings for the next datagram: mostly parity."""
    if style == 'steady few':
        return PARITY, 3, 1
    if style == 'steady':
        return PARITY, 4, 2
    return r.choice(((PARITY, r.randrange(1, 9), r.randrange(1, 5)), (PARITY, r.randrange(2, 5), r.choice((1, 1, 2))),
                     (PARITY, r.randrange(2, 9), 1), (SPARES, r.choice((0, 0, 1)), 0)))


def honest(script):
    """An honest sender on a bad line, its settings free at each; what is filled is what was sent, with zeros, and nothing contradicts."""
    r = script.random
    start(script)
    style, loss, given = r.choice(('steady', 'steady few', 'free', 'free', 'free')), r.choice((0.3, 0.45, 0.6)), {}
    small, waiting = r.choice((1.0, 0.9, 0.6)), []
    for _ in range(r.choice((8, 14, 24, 40))):
        packet = pieces.opaque(r, small)
        _, octets = script.send(packet, *settings(r, style))
        if octets is None:
            break
        given[(script.sending.sent - 1) % VIEW] = packet
        if not script.chance(loss):
            waiting.append(octets)
        if script.chance(0.1):
            r.shuffle(waiting)
        while waiting and script.chance(0.8):
            script.offer(waiting.pop(0))
        if script.chance(0.25):
            solved_as_sent(script, given)
        while script.sending.sent - script.receiving.total() > 20 or script.chance(0.1):
            if script.next(skip=script.sending.sent - script.receiving.total() > 12)[0]:
                break
    solved_as_sent(script, given)
    solved_again(script)
    release(script)


def altered(r, octets):
    """A datagram with a message or its packet altered: an octet, cut short, longer by zeros or not, empty."""
    given = read_datagram(octets)
    at = r.randrange(-1, len(given.items)) if given.items else -1
    old = given.packet if at < 0 else given.items[at]
    place = r.randrange(len(old)) if old else 0
    new = r.choice((old[:place] + bytes([(old[place] if old else 0) ^ 1 << r.randrange(8)]) + old[place + 1:], old[:-1], old[:1],
                    old + b'\0', old + b'\x01', old.ljust(PACKET_LIMIT, b'\0'), b''))[:PACKET_LIMIT]
    if at < 0:
        return written_datagram(given._replace(packet=new or b'\x01'))
    return written_datagram(given._replace(items=given.items[:at] + (new,) + given.items[at + 1:]))


def contradicting(script):
    """A sender like the honest one, but some datagrams are altered: contradictions, or fills that nobody sent."""
    r = script.random
    start(script)
    loss, wrong = r.choice((0.2, 0.4, 0.6)), r.choice((0.05, 0.2, 0.5))
    for _ in range(r.choice((6, 12, 24))):
        _, octets = script.send(pieces.opaque(r, 1.0), *settings(r, 'free'))
        if octets is None:
            break
        if not script.chance(loss):
            script.offer(altered(r, octets) if script.chance(wrong) else octets)
        if script.chance(0.3):
            solve(script)
            script.look(0.1)
        if script.chance(0.1):
            script.give_up()
    solve(script)
    script.look(0.5)
    release(script)


def any_messages(script):
    """Datagrams with parity of any octets, few of them, at numbers far apart or near, some before unknown numbers that have left."""
    r = script.random
    script.call(0x16, shown(r.choice((0, 0, 5, 31, 32, 33, 65520, 65535, 70000)), 4))
    for distance in sorted(r.sample(range(AFTER), r.choice((1, 2, 3, 5)))):
        n, m = r.randrange(1, 9), r.randrange(1, 5)
        items = tuple(r.choice((b'', b'\0', bytes([r.randrange(256)]), pieces.octets(r, r.choice((2, PACKET_LIMIT))))) for _ in range(m))
        number = (script.receiving.base + distance) % 65536
        script.offer(written_datagram(pieces.Datagram(number, pieces.opaque(r, 1.0), PARITY, n, items)))
    solve(script)
    solve(script)
    script.look(0.5)
    release(script)


def crossed(script, wrong=0.0):
    """A burst is lost, and every message behind it lacks two numbers or more, or none: only several of them together fix them.

    Some datagrams may be altered on the way."""
    r = script.random
    start(script)
    given, burst, before = {}, r.choice((3, 4, 5, 7)), r.choice((0, 2, 9))
    for at in range(before + burst + r.choice((3, 6, 12))):
        packet, lost = pieces.opaque(r, r.choice((1.0, 1.0, 0.5))), before <= at < before + burst
        chosen = (SPARES, 0, 0) if at < before + burst else mutual(r, script)
        _, octets = script.send(packet, *chosen)
        if octets is None:
            break
        given[(script.sending.sent - 1) % VIEW] = packet
        if not lost:
            script.offer(altered(r, octets) if script.chance(wrong) else octets)
    if wrong:
        solve(script)
        script.look(0.3)
    else:
        solved_as_sent(script, given)
        solved_again(script)
    release(script)


def crossed_altered(script):
    """The same with datagrams altered: messages that contradict only together, or fix what nobody sent."""
    crossed(script, script.random.choice((0.1, 0.3)))


def mutual(r, script):
    """Settings with which no message of the next datagram lacks exactly one number."""
    for _ in range(20):
        n, m = r.randrange(2, 9), r.choice((1, 1, 2, 3))
        lacking = [sum(script.receiving.place(one).state == UNKNOWN for one in members_of(script.sending.sent, i, n, m)) for i in range(m)]
        if 1 not in lacking and any(lacking):
            return PARITY, n, m
    return SPARES, 0, 0


def far_apart(script):
    """Every datagram from the 17th on with eight packets in each of four messages: equations over numbers up to 32 before."""
    r = script.random
    script.call(0x10)
    script.call(0x20)
    given = {}
    lost = set(r.sample(range(AFTER), r.choice((4, 10, 16, 20))))
    for number in range(AFTER):
        packet = pieces.opaque(r, 1.0)
        given[number] = packet
        _, octets = script.send(packet, PARITY, r.choice((2, 3, 5, 8)), r.choice((1, 2, 3, 4)))
        if number not in lost:
            script.offer(octets)
    solved_as_sent(script, given)
    solved_again(script)
    release(script)


def full_table(script):
    """Every number from the base on is accepted with four messages, or all but a burst near the end: up to 128 equations.

    Now and then one of the last messages is altered, so that only it contradicts."""
    r = script.random
    start(script)
    given, burst, m = {}, r.choice(((), (), (), (27, 28, 29), (26, 27, 28, 29))), r.choice((4, 4, 4, 3))
    wrong = r.choice((None, AFTER - 1, AFTER - 1, AFTER - 1, r.randrange(AFTER)))
    for at in range(AFTER):
        packet = pieces.opaque(r, 1.0)
        chosen = mutual(r, script) if burst and at > burst[-1] else (PARITY, r.randrange(1, 9), m)
        _, octets = script.send(packet, *chosen)
        if octets is None:
            break
        given[(script.sending.sent - 1) % VIEW] = packet
        if at not in burst:
            datagram = read_datagram(octets)
            if at == wrong and datagram.items:
                last = datagram.items[-1]
                octets = written_datagram(datagram._replace(items=datagram.items[:-1] + (bytes([(last or b'\0')[0] ^ 1]) + last[1:],)))
            script.offer(octets)
    if wrong is None:
        solved_as_sent(script, given)
    else:
        solve(script)
    release(script)


def outside(script):
    """A session outside its ranges is 17, also where its messages contradict; repaired or not, it goes on."""
    r = script.random
    any_messages(script)
    for broken in r.sample(BREAKS, 4):
        try:
            changes = broken(Session(script))
        except LookupError:
            continue
        for field, place in changes:
            script.overwrite(field, **place)
        script.call(0x1A)
        if not script.receiving.in_ranges():
            any_messages(script)


def no_calls(script):
    """Lines that are almost 1A."""
    for line in script.random.sample((b'1A00', b'1A0', b'1', b'1B', b'1a', b'1a ', b'A1'), 3):
        script.line(line)

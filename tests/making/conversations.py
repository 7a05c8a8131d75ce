"""Scenes with a receiving session (rules 10.1 to 10.7, 11.1 to 11.4 and 12.1 to 12.9), mostly with an honest sender on a line that loses,
repeats and reorders."""

from independent.arguments import shown
from independent.datagrams import DATAGRAM_LIMIT, PARITY, SPARES, Datagram, written_datagram
from independent.packets import PACKET_LIMIT
from independent.receiving import AFTER, NUMBERS_LIMIT, UNKNOWN
from independent.sending import Sending

from . import pieces


class Style:
    """How one conversation goes: settings, sizes, and how bad the line is."""

    def __init__(self, r):
        self.r = r
        self.kind = r.choice((SPARES, PARITY, PARITY, 'mixed', 'steady'))
        self.k, self.n, self.m = r.randrange(9), r.randrange(1, 9), r.randrange(1, 5)
        self.small = r.choice((1.0, 0.9, 0.5))
        self.loss = r.choice((0.05, 0.2, 0.35, 0.6))
        self.late = r.choice((0, 2, 8, 20))
        self.repeat = r.choice((0, 0.1, 0.3))
        self.release = r.choice((0.05, 0.3, 0.8))
        self.patience = r.choice((0, 4, 16, 31))

    def settings(self):
        """Kind, a and b for the next datagram."""
        r, kind = self.r, self.kind
        if kind == 'mixed':
            kind = r.choice((SPARES, PARITY))
            return (SPARES, r.randrange(9), 0) if kind == SPARES else (PARITY, r.randrange(1, 9), r.randrange(1, 5))
        if kind == 'steady':
            kind = PARITY
        return (SPARES, self.k, 0) if kind == SPARES else (PARITY, self.n, self.m)


def start(script):
    """Both sessions at the same number: at the first, near the wrap, near the limit, or anywhere."""
    r = script.random
    if script.chance(0.45):
        script.call(0x10)
        script.call(0x20)
        return
    at = r.choice((65536 - r.randrange(40), 65536 * r.randrange(1, 15) - r.randrange(40), NUMBERS_LIMIT - r.randrange(60),
                   NUMBERS_LIMIT - r.randrange(5), r.randrange(1, 40), r.randrange(NUMBERS_LIMIT)))
    script.call(0x16, shown(at, 4))
    script.call(0x22, shown(at, 4))


def honest(script):
    """An honest sender, by the script's own sending session, heard through a bad line."""
    r = script.random
    style = Style(r)
    start(script)
    on_the_way = []
    heard = []
    for _ in range(r.choice((12, 25, 50))):
        for _ in range(r.choice((1, 1, 1, 2, 5))):
            send_one(script, style, on_the_way)
        on_the_way.sort()
        while on_the_way and on_the_way[0][0] <= script.sending.sent:
            octets = on_the_way.pop(0)[1]
            script.offer(octets)
            heard.append(octets)
        disturb(script, heard)
        release_some(script, style)
        script.look(0.06)
    release_some(script, style, everything=True)
    script.look()


def send_one(script, style, on_the_way):
    """Sends one packet; the datagram is lost, or comes after some others, or twice."""
    r = script.random
    cap = DATAGRAM_LIMIT
    settings = style.settings()
    packet = pieces.opaque(r, style.small) if r.random() < 0.8 else pieces.fax_packet(r)
    if script.chance(0.12):
        cap, packet, settings = awkward(script, packet, settings)
    _, octets = script.send(packet, *settings, cap)
    if octets is None:
        return
    for _ in range(2 if script.chance(style.repeat) else 1):
        if not script.chance(style.loss):
            on_the_way.append((script.sending.sent + r.randrange(style.late + 1), octets))


def awkward(script, packet, settings):
    """Buffer sizes near the result, and packets and settings outside the sizes."""
    r = script.random
    copy = Sending()
    copy.sent, copy.history = script.sending.sent, list(script.sending.history)
    if copy.in_ranges() and copy.sent < NUMBERS_LIMIT and script.chance(0.6):
        size = len(copy.send(packet, *settings, DATAGRAM_LIMIT))
        return r.choice((0, 1, size - 1, size - 1, size, size + 1, 2600)), packet, settings
    if script.chance(0.5):
        return DATAGRAM_LIMIT, pieces.octets(r, r.choice((0, PACKET_LIMIT, PACKET_LIMIT + 1, PACKET_LIMIT + 1, 300))), settings
    return r.choice((0, DATAGRAM_LIMIT)), packet, r.choice((
        (SPARES, 9, 0), (SPARES, 255, 0), (SPARES, 8, 0), (PARITY, 0, 1), (PARITY, 9, 1), (PARITY, 8, 0), (PARITY, 1, 5), (PARITY, 0, 0),
        (PARITY, 8, 4), (PARITY, 255, 255)))


def disturb(script, heard):
    """Now and then something that must be refused: repeated, late, too far ahead, damaged."""
    r, base = script.random, script.receiving.base
    if script.chance(0.1) and heard:
        script.offer(r.choice(heard[-40:]))
    if script.chance(0.1):
        distance = r.choice((31, 32, 33, 64, 32767, 32768, 40000, 65472, 65503, 65504, 65535))
        script.offer(written_datagram(pieces.datagram(r, (base + distance) % 65536, 0.9)))
    if script.chance(0.1):
        script.offer(pieces.damaged_datagram(r, (base + r.randrange(40)) % 65536))


def release_some(script, style, everything=False):
    """Releases what can be released; gives up when enough have come behind the gap."""
    r = script.random
    if not everything and not script.chance(style.release):
        return
    for _ in range(70):
        session = script.receiving
        if session.place(session.base).state != UNKNOWN:
            length = session.place(session.base).length
            cap = r.choice(4 * (PACKET_LIMIT,) + (length, length, max(0, length - 1), length + 1, 0))
            answer = script.next(cap, script.chance(0.3))
            if answer[0] == 0xFF and answer[1] != 13:
                return
        else:
            if script.chance(0.2):
                script.next(r.choice((0, PACKET_LIMIT)))
            behind = sum(session.mark(session.base + d).accepted for d in range(AFTER))
            if not (everything or behind > style.patience) or behind == 0 and script.chance(0.7):
                return
            if script.give_up(r.choice((0, 0, 1, PACKET_LIMIT)))[0] == 0xFF:
                return


def dishonest(script):
    """Parity of any length and any octets, and spares that contradict; little is lost, much is repaired wrongly."""
    r = script.random
    style = Style(r)
    start(script)
    row = list(range(r.choice((8, 16, 32))))
    for _ in range(r.choice((1, 2, 3))):
        r.shuffle(row)
        for distance in row[:r.choice((4, 8, 20))]:
            number = (script.receiving.base + distance) % 65536
            script.offer(written_datagram(pieces.datagram(r, number, 0.95)))
            if script.chance(0.1):
                script.next(PACKET_LIMIT)
            if script.chance(0.08):
                script.give_up(r.choice((0, 1, PACKET_LIMIT)))
        script.look(0.7)
        release_some(script, style, everything=True)
    script.look(0.5)


def sparse_parity(script):
    """Few packets and messages over many members, so that repairs wait for one another and then run in a row."""
    r = script.random
    start(script)
    n, m = r.randrange(1, 9), r.randrange(1, 5)
    sender = Sending(script.sending.sent)
    datagrams = []
    for _ in range(40):
        if sender.sent < NUMBERS_LIMIT:
            settings = (PARITY, n, m) if script.chance(0.8) else (PARITY, r.randrange(1, 9), r.randrange(1, 5))
            datagrams.append(sender.send(pieces.opaque(r, 0.95), *settings, DATAGRAM_LIMIT))
    kept = [octets for octets in datagrams[:32] if script.chance(r.choice((0.3, 0.5, 0.7)))]
    order = r.choice(('forward', 'backward', 'shuffled'))
    if order == 'backward':
        kept.reverse()
    elif order == 'shuffled':
        r.shuffle(kept)
    given_up = r.choice((0, 0, 0, 3, 10))
    for _ in range(given_up):
        script.give_up()
    for octets in kept:
        script.offer(octets)
        script.look(0.05)
    script.look()
    for _ in range(r.randrange(1, 40)):
        if script.next(PACKET_LIMIT)[0] == 0xFF:
            script.give_up()
    for octets in datagrams[32:]:
        script.offer(octets)
    script.look()
    script.next(PACKET_LIMIT)


def contested(script):
    """Messages that contradict each other over the same few unknown numbers: which fills first can be seen."""
    r = script.random
    for _ in range(2):
        script.call(0x10)
        others = list(range(14))
        for number in r.sample(range(10), r.choice((3, 4, 5))):
            others.remove(number)
        r.shuffle(others)
        for number in others:
            messages = tuple(pieces.octets(r, r.choice((1, 1, 1, 2))) for _ in range(r.randrange(2, 5)))
            if script.chance(0.4):
                script.offer(written_datagram(Datagram(number, pieces.octets(r, 1), SPARES, 0, ())))
            else:
                script.offer(written_datagram(Datagram(number, pieces.octets(r, 1), PARITY, r.randrange(1, 5), messages)))
        script.look()

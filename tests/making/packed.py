"""Scenes for packed field headers (rule 5.6): packets with runs of fields without data, read and written in each edition."""

from independent.editions import DATA_PACKET, EDITIONS, NEW, WITH_DATA, WITHOUT_DATA
from independent.packets import FIELDS_LIMIT, PACKET_LIMIT, Packet, written_packet
from independent.receiving import LOST, RECEIVED, REPAIRED

from . import pieces
from .frames import ADDED_TOO, DROPPING, frame, packets_of

NEAR_THE_LIMIT = (PACKET_LIMIT - 1,) + 3 * (PACKET_LIMIT,) + (PACKET_LIMIT + 1, PACKET_LIMIT + 2)


def bare_fields(r, named, count):
    """So many fields without data, of types that an edition has."""
    bare = [one for one in range(EDITIONS[named].types.last + 1) if one not in WITH_DATA]
    return tuple((r.choice(bare), b'') for _ in range(count))


def packet_in_runs(r, named, sizes=(1, 1, 2, 5)):
    """A data packet: runs of fields without data, odd and even, before, between and after fields with data, or alone."""
    laden = [one for one in range(EDITIONS[named].types.last + 1) if one not in WITHOUT_DATA]
    fields = bare_fields(r, named, r.choice((0, 1, 2, 3, 4, 5)))
    for _ in range(r.choice((0, 1, 1, 2, 3))):
        fields += ((r.choice(laden), pieces.octets(r, r.choice(sizes))),) + bare_fields(r, named, r.choice((0, 0, 1, 1, 2, 3, 4)))
    return Packet(DATA_PACKET, pieces.assigned(r, EDITIONS[named].values[DATA_PACKET]), fields[:FIELDS_LIMIT])


def packet_of_size(r, named, size):
    """A packet in runs whose last data makes it that many octets long, over the limit too."""
    given = packet_in_runs(r, named)
    fields = list(given.fields[:FIELDS_LIMIT - 2])
    fields.insert(r.randrange(len(fields) + 1), (r.choice((0, 6)), b'\x01'))
    given = given._replace(fields=tuple(fields))
    at = max(at for at, (_, data) in enumerate(fields) if data)
    fields[at] = fields[at][0], fields[at][1] + pieces.octets(r, size - len(written_packet(named, given)))
    return given._replace(fields=tuple(fields))


def read(script, named, given, ending=None):
    """A packet read by both readers, of either ending."""
    return script.read(named, given, script.random.randrange(2) if ending is None else ending)


def runs_read(script):
    """Packets in runs, right; as repaired now and then with zeros behind, as received too; now and then in the other edition."""
    r = script.random
    for _ in range(8):
        named = pieces.edition(r)
        given = packet_in_runs(r, named)
        read(script, named, written_packet(named, given) + bytes(r.choice((0, 0, 0, 1, 4))))
        read(script, named, pieces.damaged(r, pieces.packet_items(named, given)))
        if script.chance(0.2):
            read(script, 1 - named, written_packet(named, given))


def runs_written(script):
    """Packets in runs, written at buffer sizes near the result, where the rest of the buffer can be seen, and read again."""
    r = script.random
    for _ in range(5):
        named = pieces.edition(r)
        given = packet_in_runs(r, named)
        size = len(written_packet(named, given))
        for step in r.sample((-1, 0, 0, 1, 3), 2):
            _, octets = script.write(named, given, size + step)
        if octets is not None:
            read(script, named, octets)
        if script.chance(0.2):
            script.write(1 - named, given, size)


def padding_damaged(script):
    """One padding of a packet has a bit set; behind it the packet is whole, cut, wrong in another way, or goes on."""
    r = script.random
    for _ in range(8):
        named = pieces.edition(r)
        row = pieces.packet_items(named, packet_in_runs(r, named))
        at = r.choice([at for at, (role, _) in enumerate(row) if role == 'padding'])
        size = len(row[at][1])
        row[at] = 'padding', '{:0{}b}'.format(r.choice((1, 1 << size - 1, 1 << r.randrange(size), r.randrange(1, 1 << size))), size)
        if script.chance(0.3):
            row = row[:at + 1]
        elif script.chance(0.3):
            wrong = r.randrange(len(row))
            row[wrong] = row[wrong][0], pieces.changed(r, *row[wrong])
        whole = pieces.octets_of(pieces.joined(row)) + bytes(r.choice((0, 0, 0, 1))) + r.choice((b'', b'', b'\x01'))
        read(script, named, whole)
        read(script, named, whole, 1)


def counts_off(script):
    """A count one too many or too few: what is then a header, padding or left over; also headers on an octet each."""
    r = script.random
    for _ in range(6):
        named = pieces.edition(r)
        given = packet_in_runs(r, named)
        if not given.fields:
            continue
        row = pieces.packet_items(named, given)
        at = next(at for at, (role, _) in enumerate(row) if role == 'count')
        other = row[:at] + [('count', '{:08b}'.format(len(given.fields) + r.choice((1, 1, 1, -1))))] + row[at + 1:]
        read(script, named, pieces.octets_of(pieces.joined(other)) + bytes(r.choice((0, 0, 0, 2))))
        text = ''
        for role, item in row:
            text += item if role != 'padding' or len(text) % 8 else ''
            text += '0' * (-len(text) % 8) if role == 'header' else ''
        read(script, named, pieces.octets_of(text))


def near_the_limit(script):
    """Packets of the limit, one octet less, and one and two more, with runs before and after their data, read and written."""
    r = script.random
    for size in r.sample(NEAR_THE_LIMIT, 4):
        named = pieces.edition(r)
        given = packet_of_size(r, named, size)
        whole = written_packet(named, given)
        read(script, named, whole)
        script.write(named, given, r.choice((0, PACKET_LIMIT - 1, PACKET_LIMIT, 400)))
        if script.chance(0.5):
            read(script, named, whole.ljust(r.choice((PACKET_LIMIT, PACKET_LIMIT + 1)), b'\0'), 1)
        if script.chance(0.5) and len(given.fields) < FIELDS_LIMIT:
            more = given._replace(fields=given.fields + bare_fields(r, named, 1))
            script.write(named, more, r.choice((PACKET_LIMIT, 400)))


def carried(script):
    """Frames, several of them in one packet, written, sent, some lost, released, read and joined."""
    r = script.random
    script.call(0x10)
    script.call(0x20)
    script.call(0x30)
    named = pieces.edition(r)
    fields = [field for _ in range(r.choice((4, 8))) for field in frame(r, 1.0, ADDED_TOO if named == NEW else DROPPING)]
    kind, a, b = r.choice(((0x00, 1, 0), (0x80, 2, 1), (0x80, 3, 2)))
    for row in packets_of(r, fields):
        value = pieces.assigned(r, EDITIONS[named].values[DATA_PACKET])
        _, packet = script.write(named, Packet(DATA_PACKET, value, tuple(row)), PACKET_LIMIT)
        _, datagram = script.send(packet, kind, a, b)
        if not script.chance(0.25):
            script.offer(datagram)
    for _ in range(script.sending.sent):
        answer = script.next(skip=script.chance(0.5))
        if answer[0] != 0:
            answer = script.give_up()
        if answer[1] == LOST - RECEIVED:
            script.lost()
            continue
        packet = answer[8:8 + int.from_bytes(answer[6:8], 'big')]
        answer = read(script, named, packet, answer[1] == REPAIRED - RECEIVED)
        at = 4
        while at < len(answer):
            size = int.from_bytes(answer[at + 1:at + 3], 'big')
            script.field(answer[at], answer[at + 3:at + 3 + size], 40)
            at += 3 + size
    script.look_at_joiner()

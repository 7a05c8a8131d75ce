"""Scenes for the calls without a session (rules 3.1 to 3.8, 4.1 to 4.19 and 6.1 to 6.23): lengths, datagrams, packets, and lines that are
no calls."""

from independent.arguments import shown, sized
from independent.datagrams import DATAGRAM_LIMIT, PARITY, write_datagram, written_datagram
from independent.editions import DATA_PACKET, INDICATOR
from independent.packets import PACKET_LIMIT, write_packet, written_packet
from independent.refusals import Refusal

from . import pieces

LENGTH_EDGES = (0, 1, 126, 127, 128, 129, 255, PACKET_LIMIT, PACKET_LIMIT + 1, 16382, 16383, 16384, 32768, 65535)
GREAT_ROOM = 2600
NO_EDITIONS = (2, 3, 0x10, 0x7F, 0x80, 0x81, 0xFE, 0xFF)
ADDED_FIRST = (0x20, 0x21, 0x2F, 0x30, 0x60, 0x61, 0x70, 0xA0, 0xA1, 0xE0, 0xE1, 0xF0)  # an extension bit, with or without a zero bit


def caps_near(r, size):
    """Some buffer sizes near a result's size."""
    near = [max(0, size + step) for step in (-2, -1, 0, 0, 0, 1, 2)] + [0, 1, GREAT_ROOM]
    return r.sample(near, 3)


def size_of(call):
    """The size of what a writer would write with room enough; 0 if it refuses."""
    try:
        return len(call(GREAT_ROOM))
    except Refusal:
        return 0


def lengths(script):
    """Lengths read and written."""
    r = script.random
    for _ in range(6):
        front = r.choice(pieces.LENGTH_FORMS + (b'', bytes([r.randrange(256)]), pieces.octets(r, 2)))
        script.call(0x01, front, pieces.octets(r, r.choice((0, 0, 1, 5))))
    script.call(0x01, r.choice((b'', b'\x80', b'\xBF')))
    for _ in range(6):
        value = r.choice(LENGTH_EDGES) if r.random() < 0.7 else r.randrange(16384)
        script.call(0x02, shown(value, 2), shown(r.choice((0, 1, 1, 2, 2, 3, 3)), 2))


def datagrams_read(script):
    """Datagrams read, whole and damaged."""
    r = script.random
    for _ in range(8):
        script.call(0x03, written_datagram(pieces.datagram(r, r.randrange(65536), 0.5)))
    for _ in range(10):
        script.call(0x03, pieces.damaged_datagram(r, r.randrange(65536)))
    script.call(0x03, bytes(r.choice((0, 1, 2, DATAGRAM_LIMIT, DATAGRAM_LIMIT + 1))))


def datagrams_written(script):
    """Datagrams written, their arguments right or wrong in one or two ways, at several buffer sizes."""
    r = script.random
    for _ in range(6):
        given = pieces.datagram(r, r.randrange(65536), 0.5)
        packet, kind, n, lengths, data = given.packet, given.kind, given.n, [len(i) for i in given.items], b''.join(given.items)
        for wrong in r.sample(range(5), r.choice((0, 0, 1, 1, 2, 2, 3))):
            if wrong == 0:
                packet = pieces.octets(r, r.choice((0, 0, PACKET_LIMIT, PACKET_LIMIT + 1, 300)))
            elif wrong == 1 and kind == PARITY:
                n = r.choice((0, 8, 9, 128, 255))
            elif wrong == 2:
                lengths = [1] * r.choice((0, 4, 5, 8, 9, 255))
                data = bytes(len(lengths))
            elif wrong == 3 and lengths:
                size = r.choice((0, 255, PACKET_LIMIT, PACKET_LIMIT + 1, 300))
                lengths[-1] = size
                data = pieces.octets(r, sum(lengths)) if sum(lengths) < 2000 else data
            elif wrong == 4:
                data = r.choice((data + b'\x01', data[:-1], b''))
        if r.random() < 0.1:
            lengths, data = r.choice((([65535, 1], b''), ([65535, 2], b'\x01'), ([0], b''), ([0, 0], b'')))
        size = size_of(lambda room: write_datagram(given.number, packet, kind, n, lengths, data, room))
        for cap in caps_near(r, size):
            script.call(0x04, shown(given.number, 2), sized(packet), bytes([kind, n, len(lengths)]),
                        b''.join(shown(one, 2) for one in lengths), sized(data), shown(cap, 2))


def packets_read(script):
    """Packets of each edition read by both readers, received and repaired, whole and damaged; now and then in the other edition."""
    r = script.random
    for _ in range(10):
        zeros, named = bytes(r.choice((0, 0, 0, 1, 5))), pieces.edition(r)
        read_in = named if script.chance(0.9) else 1 - named
        script.read(read_in, pieces.fax_packet(r, named) + zeros, r.choice((0, 0, 1, 1, 1)) if zeros else r.randrange(2))
    for _ in range(14):
        named = pieces.edition(r)
        script.read(named, pieces.damaged(r, pieces.packet_items(named, pieces.packet(r, named))), r.randrange(2))
    named = pieces.edition(r)
    whole = pieces.fax_packet(r, named).ljust(r.choice((PACKET_LIMIT - 1, PACKET_LIMIT, PACKET_LIMIT + 1, PACKET_LIMIT + 2, 400)), b'\0')
    script.read(named, whole, 1)
    for _ in range(3):
        named = pieces.edition(r)
        script.read(named, bytes([r.randrange(256)]) + pieces.octets(r, r.choice((0, 1, 2))), r.randrange(2))
        script.read(named, bytes([r.choice(ADDED_FIRST)]) + pieces.octets(r, r.choice((0, 0, 1, 1, 2))), r.randrange(2))
        script.read(named, b'\xC0' + r.choice(pieces.LENGTH_FORMS) + pieces.octets(r, r.choice((0, 1, 16))), r.randrange(2))
    script.read(r.choice(NO_EDITIONS), r.choice((whole, pieces.fax_packet(r), b'', b'\x01', bytes(PACKET_LIMIT + 1))), r.randrange(2))


def packets_written(script):
    """Packets written, their arguments right or wrong in one or two ways, at several buffer sizes."""
    r = script.random
    for _ in range(7):
        named = pieces.edition(r)
        kind, value, fields = pieces.packet(r, named)
        types, lengths, data = [t for t, _ in fields], [len(d) for _, d in fields], b''.join(d for _, d in fields)
        for wrong in r.sample(range(7), r.choice((0, 0, 1, 1, 2, 2, 3))):
            if wrong == 0:
                value = r.choice((8, 9, 14, 15, 16, 22, 23, 128, 255))
            elif wrong == 1 and types:
                types[r.randrange(len(types))] = r.choice((0, 1, 5, 6, 7, 8, 9, 10, 11, 11, 12, 128, 255))
            elif wrong == 2:
                types = types + [r.randrange(1, 6)] * r.choice((1, 12, 16, 17, 200))
                lengths = (lengths + [0] * 255)[:len(types)]
                types = types[:255]
                lengths = lengths[:r.choice((len(types), len(types), len(types) - 1))]
            elif wrong == 3:
                lengths = lengths + [0] if r.random() < 0.5 else lengths[:-1]
            elif wrong == 4:
                data = r.choice((data + b'\x01', data[:-1], b''))
            elif wrong == 5:
                kind = r.choice((INDICATOR, DATA_PACKET))
            elif wrong == 6:
                size = r.choice((0, 1, PACKET_LIMIT - 5, PACKET_LIMIT - 4, PACKET_LIMIT, PACKET_LIMIT + 1, 300))
                types, lengths, data = [r.choice((0, 6, 7, 3, 8, 9, 10, 11))], [size], pieces.octets(r, size)
        if r.random() < 0.05:
            types, lengths, data = [0, 0], [65535, 1], b''
        named = named if script.chance(0.9) else r.choice((1 - named,) + NO_EDITIONS)
        size = size_of(lambda room: write_packet(named, kind, value, types, lengths, data, room))
        for cap in caps_near(r, size):
            script.call(0x06, bytes([named, kind, value, len(types)] + types + [len(lengths)]),
                        b''.join(shown(one, 2) for one in lengths), sized(data), shown(cap, 2))


def many_fields(script):
    """Packets written with 15 to 18 types and lengths, the two counts alike or not."""
    r = script.random
    for _ in range(6):
        types = [r.randrange(1, 6) if script.chance(0.95) else r.choice((0, 7, 8, 11)) for _ in range(r.choice((15, 16, 16, 17, 18)))]
        count, named = r.choice((len(types), len(types), 15, 16, 17, 18)), r.choice((0, 0, 0, 0, 1, 1, 1, 1, 2))
        script.call(0x06, bytes([named, r.choice((0, 1, 1, 1)), r.choice((0, 8, 9)), len(types)] + types + [count]), bytes(2 * count + 2),
                    shown(r.choice((0, 17, 18, PACKET_LIMIT)), 2))


def round_trips(script):
    """What a writer has written is read, and what a reader has read is written."""
    r = script.random
    for _ in range(3):
        given = pieces.datagram(r, r.randrange(65536), 0.4)
        script.call(0x03, written_datagram(given))
        script.call(0x04, shown(given.number, 2), sized(given.packet), bytes([given.kind, given.n, len(given.items)]),
                    b''.join(shown(len(i), 2) for i in given.items), sized(b''.join(given.items)), shown(DATAGRAM_LIMIT, 2))
    for _ in range(3):
        named = pieces.edition(r)
        given = pieces.packet(r, named)
        script.read(named, written_packet(named, given), 0)
        script.write(named, given, PACKET_LIMIT)


def no_calls(script):
    """Lines that are no calls, empty lines, and lines near the greatest length."""
    r = script.random
    odd = [b'0', b'00', b'08', b'18', b'FF', b'EE', b'G0', b'0x', b'1 0', b' 10', b'10 ', b'10\r', b'1000', b'02', b'0200', b'0200000A29',
           b'02000100', b'0200010001', b'12', b'1200', b'120000', b'12000A29', b'12010A28', b'1201000000', b'12020000', b'12FF0000', b'13',
           b'1300', b'1400', b'1500', b'16000000', b'1600000000FF', b'170000000000000000', b'1700000000000000000000', b'2000', b'21',
           b'210001068001', b'2100010600000100FF', b'21000106010000FFFF', b'210001060000000A29', b'220000', b'2300000000000000', b'05',
           b'0500', b'050002', b'0502', b'07', b'0701', b'070002', b'070103', b'060002000000000000', b'060000000000000000',
           b'04000000010600010000000100', b'0400000001060000000000000A29',
           b'04000000010640000000000100', b'3', b'3000', b'31', b'3100', b'310000', b'31000000',
           b'3100000100', b'310000010000', b'31000001FF0A29', b'310200000A28', b'31020000000000', b'3102FFFF0000', b'3200', b'3300', b'34',
           b'3400000000', b'34000000000000', b'340000000002', b'3402012C00', b'3402012C0000', b'35', b'3F', b'\xE9\xE9', b'\x00\x00',
           b'10\x00', b'', b'', b'03' + b'0' * 15998, b'03' + b'0' * 16000, b'050000' + b'F' * 15995, b'070101' + b'0' * 16000]
    for line in r.sample(odd, 12):
        script.line(line)
    for _ in range(2):
        line = r.choice([line for line in script.lines[-200:] if 0 < len(line) < 400])
        script.line(r.choice((line[:-1], line[:-2], line + b'0', line + b'00', line[1:])))

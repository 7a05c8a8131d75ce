"""Packets and datagrams of every shape and edge, whole and damaged; each is drawn from a random source r."""

from independent.arguments import shown
from independent.datagrams import DATAGRAM_LIMIT, PARITY, SPARES, Datagram
from independent.editions import DATA_PACKET, EDITIONS, INDICATOR, WITH_DATA, WITHOUT_DATA
from independent.lengths import written_length
from independent.packets import PACKET_LIMIT, Packet, in_bits, to_edge, written_packet, written_value

EDGES = (1, 2, 3, 126, 127, 128, 129, 160, 161, PACKET_LIMIT - 2, PACKET_LIMIT - 1, PACKET_LIMIT)  # 160 is the limit of images of version 01
LENGTH_FORMS = tuple(bytes.fromhex(text) for text in (
    '00', '01', '03', '04', '05', '07', '08', '09', '10', '11', '7F', '80', '8000', '807F', '8080', '80A0', '80A1', 'BFFF', 'C0', 'C101',
    'FF')) + tuple(written_length(PACKET_LIMIT + step) for step in (-1, 0, 1))


def octets(r, length):
    """So many octets; often with zeros before or behind."""
    drawn = bytes(r.randrange(256) for _ in range(length))
    zeros = r.randrange(length + 1)
    return r.choice((drawn, drawn, drawn, drawn[zeros:] + bytes(zeros), bytes(zeros) + drawn[zeros:], bytes(length)))


def length(r, small=0.6):
    """A packet's length, small with this chance, else at an edge or anywhere."""
    if r.random() < small:
        return r.randrange(1, 9)
    return r.choice(EDGES) if r.random() < 0.5 else r.randrange(1, PACKET_LIMIT + 1)


def opaque(r, small=0.6):
    """A packet of any octets: sessions and datagrams do not read inside."""
    return octets(r, length(r, small))


def edition(r):
    """An edition, the old or the new."""
    return r.choice(tuple(EDITIONS))


def assigned(r, values):
    """One of the values that are assigned; half of the time an added one, if there is any."""
    return r.randrange(values.last_of_root + 1, values.last + 1) if values.extended and r.random() < 0.5 else r.randrange(values.last + 1)


def may_have_data(r, field_type):
    """Whether a field of this type has data: if it must, and half of the time if it may."""
    return field_type in WITH_DATA or field_type not in WITHOUT_DATA and r.random() < 0.5


def packet(r, named):
    """A packet within the rules of the edition that is named."""
    values, types = EDITIONS[named]
    if r.random() < 0.25:
        return Packet(INDICATOR, assigned(r, values[INDICATOR]), ())
    given = Packet(DATA_PACKET, assigned(r, values[DATA_PACKET]), ())
    for _ in range(r.choice((0, 1, 1, 1, 2, 2, 3, 4, 8, 15, 16))):
        kind = assigned(r, types)
        has_data = may_have_data(r, kind)
        room = PACKET_LIMIT - len(written_packet(named, with_field(given, kind, bytes(has_data))))
        if room < 0:
            break
        most = min(room, r.choice((2, 8, PACKET_LIMIT)))
        size = r.choice((0, most, r.randrange(most + 1)))
        given = with_field(given, kind, octets(r, size + 1) if has_data else b'')
    return given


def with_field(given, kind, data):
    """A packet with a field more."""
    return given._replace(fields=given.fields + ((kind, data),))


def fax_packet(r, named=None):
    """The octets of a packet within the rules of an edition, of either if none is named."""
    named = edition(r) if named is None else named
    return written_packet(named, packet(r, named))


def datagram(r, number, small=0.6, packet_of=opaque):
    """A datagram within the sizes, its spares and messages of any octets."""
    if r.random() < 0.5:
        count = r.choice((0, 1, 2, 3, 7, 8))
        return Datagram(number, packet_of(r), SPARES, 0, tuple(opaque(r, small) for _ in range(count)))
    messages = tuple(message(r, small) for _ in range(r.randrange(1, 5)))
    return Datagram(number, packet_of(r), PARITY, r.randrange(1, 9), messages)


def message(r, small=0.6):
    """A parity message of any length, now and then empty."""
    return b'' if r.random() < 0.15 else opaque(r, small)


def datagram_items(given):
    """A datagram as a row of pairs: what an item is, and its bits."""
    row = [('number', in_bits(shown(given.number, 2)))] + sized_items(given.packet) + [('kind', in_bits([given.kind]))]
    if given.kind == PARITY:
        row += [('one', in_bits([1])), ('n', in_bits([given.n]))]
    row.append(('length', in_bits(written_length(len(given.items)))))
    return row + [item for piece in given.items for item in sized_items(piece)]


def sized_items(piece):
    """A length and the octets that it promises."""
    return [('length', in_bits(written_length(len(piece)))), ('octets', in_bits(piece))]


def packet_items(named, given):
    """A packet of an edition as a row of pairs, likewise; padding, which goes to an octet's edge, is an item of its own."""
    values, types = EDITIONS[named]
    row = padded([('first', '{:b}{:b}'.format(given.fields != (), given.kind) + written_value(given.value, values[given.kind]))])
    if given.fields:
        row.append(('count', in_bits(written_length(len(given.fields)))))
    for kind, data in given.fields:
        row.append(('header', header(types, kind, data != b'')))
        if data:
            row = padded(row) + [('size', in_bits(shown(len(data) - 1, 2))), ('octets', in_bits(data))]
    return padded(row)


def header(types, field_type, has_data):
    """The bits of a field's header."""
    return '{:b}'.format(has_data) + written_value(field_type, types)


def padded(row):
    """A row with padding, if it ends within an octet."""
    left = -len(joined(row)) % 8
    return row + [('padding', '0' * left)] if left else row


def digits(given):
    """Octets as hexadecimal digits."""
    return given.hex().upper().encode()


def octets_of(bits):
    """Bits as octets; what is missing to an octet is zeros."""
    bits = to_edge(bits)
    return bytes(int(bits[at:at + 8], 2) for at in range(0, len(bits), 8))


def joined(row):
    """The bits of a row."""
    return ''.join(item for _, item in row)


def flipped(bits, *places):
    """Bits, those at these places the other way round."""
    return ''.join(str(1 - int(bit)) if at in places else bit for at, bit in enumerate(bits))


def changed(r, role, item):
    """An item's bits with something changed, mostly so that it meets an edge of its own rule."""
    if role == 'first':
        anything = ''.join(r.choice('01') for _ in item)
        return r.choice((flipped(item, r.randrange(len(item))), flipped(item, r.randrange(len(item))), flipped(item, 2), anything))
    if role == 'header':
        places = r.choice(((0,), (0,), (0,), (1,), (2,), (1, 2), range(1, len(item)), (0, r.randrange(len(item))), range(len(item))))
        other = flipped(item, *places)
        return r.choice((other, other, other, item + '0000', item + '0', item[:-1], '', flipped(item, r.randrange(len(item)))))
    if role == 'padding':
        anything = ''.join(r.choice('01') for _ in item)
        one = flipped(item, r.randrange(len(item)))
        return r.choice((flipped(item, 0), flipped(item, len(item) - 1), one, anything, '', item + '0' * 8))
    return in_bits(changed_octets(r, role, octets_of(item)))


def changed_octets(r, role, item):
    """The same of an item that is of whole octets."""
    if role == 'length':
        return r.choice(LENGTH_FORMS)
    if role == 'count':
        return r.choice(LENGTH_FORMS + (bytes([item[0] + 1]), bytes([item[0] - 1])) * 12)
    if role == 'kind':
        return bytes([r.choice((0x00, 0x80, 0x01, 0x40, 0x7F, 0x81, 0xC0, 0xFF))])
    if role in ('one', 'n'):
        return bytes([r.choice((0, 1, 2, 8, 9, 0x7F, 0x80, 0xC0, 0xFF))])
    if role == 'size':
        return r.choice((b'\xFF\xFF', b'\x00\x00', item[:1], bytes([item[0], (item[1] + 1) % 256]), bytes([item[0], (item[1] - 1) % 256]),
                         *(shown(PACKET_LIMIT + step, 2) for step in (-1, 0, 1))))
    return r.choice((item[:-1], item + b'\x00', item[:len(item) // 2], b''))


def damaged(r, row):
    """The octets of a row with one or two items changed, and perhaps cut short or gone on with."""
    row = list(row)
    places = r.sample(range(len(row)), min(len(row), r.choice((0, 1, 1, 1, 1, 2))))
    for at in sorted(places, reverse=True):
        row[at] = row[at][0], changed(r, *row[at])
        if r.random() < 0.2:
            row = row[:at + 1]
    bits = joined(row)
    ending = ''.join(r.choice('01') for _ in range(-len(bits) % 8)) if r.random() < 0.4 else ''
    whole = octets_of(bits + ending)
    ending = r.random()
    if ending < 0.15:
        return whole[:r.randrange(len(whole) + 1)]
    if ending < 0.25:
        return whole + r.choice((b'\x00', b'\x00' * 5, b'\x01', b'\x00\x01', octets(r, 3)))
    return whole


def damaged_datagram(r, number):
    """A datagram that is most likely refused; now and then one that is too long."""
    whole = damaged(r, datagram_items(datagram(r, number, 0.8)))
    if r.random() < 0.08:
        whole = whole.ljust(DATAGRAM_LIMIT + r.choice((-1, 0, 1, 2, DATAGRAM_LIMIT)), r.choice((b'\x00', b'\xFF')))
    return whole

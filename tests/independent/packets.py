"""The packet (rules 5.1 to 5.7 and 6.1 to 6.23): kind and value, then fields whose headers are not padded, in the edition that is named.

After a field without data the next header begins in the same octet. The count of fields, a field's length and the packet's end are aligned
to an octet edge by zero bits."""

from typing import NamedTuple, Tuple

from .editions import INDICATOR, data_misplaced, edition_of
from .lengths import Items, cut, written_length
from .refusals import DATA, LEFT_OVER, NOT_ASSIGNED, SETTINGS, SIZE, must_fit, refuse_if

PACKET_LIMIT = 256
FIELDS_LIMIT = 16


class Packet(NamedTuple):
    """A packet: indicator or data, its value, and the fields as pairs of type and data."""

    kind: int
    value: int
    fields: Tuple[Tuple[int, bytes], ...]


def read_packet(edition, octets, repaired):
    """The packet that the octets are in this edition; a repaired one may go on with zeros."""
    assigned = edition_of(edition)
    refuse_if(len(octets) > PACKET_LIMIT, SIZE)
    items = Items(octets)
    present, kind = (items.bits(count) for count in (1, 1))
    value = read_value(items, assigned.values[kind])
    items.to_edge()
    refuse_if(present and kind == INDICATOR, DATA)
    fields = ()
    if present:
        count = items.length()
        items.refuse_if(not 1 <= count <= FIELDS_LIMIT, SIZE)
        fields = tuple(read_field(items, assigned.types) for _ in range(count))
        items.to_edge()
    left = items.left_over()
    items.refuse_if(any(left) if repaired else left, LEFT_OVER)
    return Packet(kind, value, fields)


def read_value(items, assigned):
    """A value or field type: an extension bit, if there is one, and the bits of the root; or, added, a one, a zero and six bits."""
    if assigned.extensible and items.bits(1):
        items.refuse_if(not assigned.extended or items.bits(1), NOT_ASSIGNED)
        value = assigned.added(items.bits(6))
        items.refuse_if(value > assigned.last, NOT_ASSIGNED)
    else:
        value = items.bits(assigned.bits)
        items.refuse_if(value > assigned.last_of_root, NOT_ASSIGNED)
    return value


def read_field(items, assigned):
    """A field: its type and its data."""
    items.begin()
    has_data = items.bits(1)
    field_type = read_value(items, assigned)
    items.refuse_if(data_misplaced(field_type, has_data), DATA)
    if not has_data:
        return field_type, b''
    items.to_edge()
    length = int.from_bytes(items.octets(2), 'big') + 1
    items.refuse_if(length > PACKET_LIMIT, SIZE)
    return field_type, items.octets(length)


def write_packet(edition, kind, value, types, lengths, data, room):
    """The octets in this edition of a packet whose fields have these types and the data cut by the lengths."""
    assigned = edition_of(edition)
    refuse_if(len(types) > FIELDS_LIMIT, SIZE)
    refuse_if(len(lengths) != len(types) or sum(lengths) != len(data), SETTINGS)
    refuse_if(value > assigned.values[kind].last or any(t > assigned.types.last for t in types), NOT_ASSIGNED)
    refuse_if(kind == INDICATOR and types, DATA)
    refuse_if(any(data_misplaced(t, length > 0) for t, length in zip(types, lengths)), DATA)
    refuse_if(any(length > PACKET_LIMIT for length in lengths), SIZE)
    octets = written_packet(edition, Packet(kind, value, tuple(zip(types, cut(data, lengths)))))
    refuse_if(len(octets) > PACKET_LIMIT, SIZE)
    return must_fit(octets, room)


def written_packet(edition, packet):
    """The octets of a packet in this edition; a data packet with no field has the top bit clear."""
    assigned = edition_of(edition)
    bits = to_edge('{:b}{:b}'.format(packet.fields != (), packet.kind) + written_value(packet.value, assigned.values[packet.kind]))
    if packet.fields:
        bits += in_bits(written_length(len(packet.fields)))
    for field_type, data in packet.fields:
        bits += '{:b}'.format(data != b'') + written_value(field_type, assigned.types)
        if data:
            bits = to_edge(bits) + in_bits((len(data) - 1).to_bytes(2, 'big') + data)
    bits = to_edge(bits)
    return int(bits, 2).to_bytes(len(bits) // 8, 'big')


def written_value(value, assigned):
    """The bits of a value or field type, of the root or added."""
    if value > assigned.last_of_root:
        return '10{:06b}'.format(value - assigned.added(0))
    return '0' * assigned.extensible + '{:0{}b}'.format(value, assigned.bits)


def in_bits(octets):
    """Octets as a text of their bits."""
    return ''.join(map('{:08b}'.format, octets))


def to_edge(bits):
    """A text of bits with zeros up to the next octet."""
    return bits + '0' * (-len(bits) % 8)

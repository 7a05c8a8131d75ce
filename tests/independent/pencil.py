"""The second reader (rules 8.1 and 8.2): a packet read one bit at a time, with a function for each production of the ASN.1.

It shares with the first reader the sizes, the values that each edition assigns, and where data must and may be. It reads no octet as a
whole."""

from .editions import INDICATOR, data_misplaced, edition_of
from .packets import FIELDS_LIMIT, PACKET_LIMIT, Packet
from .refusals import DATA, ENDS, FORM, LEFT_OVER, NOT_ASSIGNED, SIZE, SPARE_BIT, refuse_if


class Bits:
    """Octets as a row of bits, the high bit of each octet first, the place of the bit that comes next, and that of the item's first."""

    def __init__(self, octets):
        self.row = [octet >> place & 1 for octet in octets for place in (7, 6, 5, 4, 3, 2, 1, 0)]
        self.place = 0
        self.first = 0

    def item(self):
        """An item begins with the bit that comes next; if it is refused, its place is the octet of that bit (rule 5.7)."""
        self.first = self.place

    def refuse_if(self, condition, number):
        """Refuses the item, if the condition holds."""
        refuse_if(condition, number, self.first // 8)

    def bit(self):
        """The next bit, which must come; the place advances by one."""
        self.refuse_if(self.place >= len(self.row), ENDS)
        self.place += 1
        return self.row[self.place - 1]

    def bits(self, count):
        """The next bits, as many as are given, as a number, the high bit first."""
        value = 0
        for _ in range(count):
            value = 2 * value + self.bit()
        return value

    def align(self):
        """An item: on to an octet's edge; each bit on the way must be zero, and at an edge there is none."""
        self.item()
        while self.place % 8:
            self.refuse_if(self.bit(), SPARE_BIT)


def read_by_bits(edition, octets, repaired):
    """IFPPacket: a bit that says whether the data-field is there, type-of-msg, data-field; a repaired one may go on with zeros."""
    assigned = edition_of(edition)
    refuse_if(len(octets) > PACKET_LIMIT, SIZE)
    bits = Bits(octets)
    present = bits.bit()
    kind, value = type_of_msg(bits, assigned.values)
    bits.align()
    refuse_if(present and kind == INDICATOR, DATA)
    fields = data_field(bits, assigned.types) if present else ()
    bits.align()
    bits.item()
    while bits.place < len(bits.row):
        bits.refuse_if(bits.bit() or not repaired, LEFT_OVER)
    return Packet(kind, value, fields)


def type_of_msg(bits, values):
    """Type-of-msg: a bit that chooses t30-indicator or t30-data, then its value."""
    kind = bits.bit()
    return kind, enumerated(bits, values[kind])


def enumerated(bits, assigned):
    """ENUMERATED: where there is an extension marker, a bit that says whether the value is behind it; before it, a few bits.

    Behind it the number is a small one, a zero bit and six bits, counted from the marker; the old edition has nothing there."""
    if not assigned.extensible or not bits.bit():
        value = bits.bits(assigned.bits)
        bits.refuse_if(value > assigned.last_of_root, NOT_ASSIGNED)
        return value
    bits.refuse_if(not assigned.extended, NOT_ASSIGNED)
    bits.refuse_if(bits.bit(), NOT_ASSIGNED)
    value = assigned.added(bits.bits(6))
    bits.refuse_if(value > assigned.last, NOT_ASSIGNED)
    return value


def data_field(bits, types):
    """Data-Field: a count at an octet's edge, then that many fields."""
    count = count_of_fields(bits)
    bits.refuse_if(not 1 <= count <= FIELDS_LIMIT, SIZE)
    return tuple(field(bits, types) for _ in range(count))


def count_of_fields(bits):
    """A count: a zero bit and seven bits, or one, zero and fourteen bits for 128 and more."""
    bits.item()
    if not bits.bit():
        return bits.bits(7)
    bits.refuse_if(bits.bit(), FORM)
    value = bits.bits(14)
    bits.refuse_if(value < 128, FORM)
    return value


def field(bits, types):
    """A field: a header, which is a bit that says whether field-data is there and field-type; then field-data."""
    bits.item()
    present = bits.bit()
    field_type = enumerated(bits, types)
    bits.refuse_if(data_misplaced(field_type, present), DATA)
    return field_type, field_data(bits) if present else b''


def field_data(bits):
    """field-data: at an octet's edge its length minus one in sixteen bits, then its octets."""
    bits.align()
    bits.item()
    length = bits.bits(16) + 1
    bits.refuse_if(length > PACKET_LIMIT, SIZE)
    bits.item()
    return bytes(bits.bits(8) for _ in range(length))

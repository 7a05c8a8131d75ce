"""Lengths and counts (rules 3.1 to 3.9): one rule for packets, spares, messages and counts. Also the reader of items in order."""

from .refusals import ENDS, FORM, SIZE, SPARE_BIT, must_fit, refuse_if

GREATEST_LENGTH = 16383


class Items:
    """Octets from which items are read in order; most are whole octets, some are bits. A refused item gives the octet it begins in."""

    def __init__(self, octets):
        self.all = octets
        self.bit = 0    # how many bits have been read
        self.begun = 0  # the octet in which the item begins that is being read, or was read last

    @property
    def at(self):
        """How many octets have been read, the last one wholly or in part."""
        return -(-self.bit // 8)

    def begin(self):
        """The next item begins here."""
        self.begun = self.bit // 8

    def refuse_if(self, condition, number):
        """Refuses the item that was begun last, if the condition holds."""
        refuse_if(condition, number, self.begun)

    def bits(self, count):
        """The next bits, as many as are given, as a number; they must come."""
        first = self.bit // 8
        self.refuse_if(self.bit + count > 8 * len(self.all), ENDS)
        self.bit += count
        return int.from_bytes(self.all[first:self.at], 'big') >> -self.bit % 8 & (1 << count) - 1

    def to_edge(self):
        """An item: the bits up to the next octet, which must be zero; there are none at an octet's edge."""
        self.begin()
        self.refuse_if(self.bits(-self.bit % 8), SPARE_BIT)

    def octet(self):
        """An item: the next octet, which must come."""
        return self.octets(1)[0]

    def octets(self, count):
        """An item: the next octets, as many as are given, which must come."""
        self.begin()
        self.refuse_if(self.at + count > len(self.all), ENDS)
        self.bit += 8 * count
        return bytes(self.all[self.at - count:self.at])

    def length(self):
        """An item, a length or count: one octet below 128, two from 128 to 16,383."""
        self.begin()
        first = self.bits(8)
        self.refuse_if(first >= 0xC0, FORM)
        if first < 0x80:
            return first
        value = (first - 0x80) * 256 + self.bits(8)
        self.refuse_if(value < 128, FORM)
        return value

    def sized_octets(self, least, most):
        """A length within the sizes, and the octets it promises: two items."""
        length = self.length()
        self.refuse_if(not least <= length <= most, SIZE)
        return self.octets(length)

    def left_over(self):
        """What has not been read, as an item."""
        self.begin()
        return bytes(self.all[self.at:])


def read_length(octets):
    """A length at the front of the octets, and how many octets it takes."""
    items = Items(octets)
    value = items.length()
    return value, items.at


def written_length(value):
    """The octets of a length."""
    refuse_if(value > GREATEST_LENGTH, SIZE)
    return bytes([value]) if value < 128 else bytes([0x80 + value // 256, value % 256])


def write_length(value, room):
    """The octets of a length, if there is room."""
    return must_fit(written_length(value), room)


def written_sized(octets):
    """Octets behind their length."""
    return written_length(len(octets)) + octets


def cut(data, lengths):
    """The data in pieces of the given lengths."""
    pieces, at = [], 0
    for length in lengths:
        pieces.append(data[at:at + length])
        at += length
    return pieces

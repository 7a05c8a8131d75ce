"""The answers of the calls program (rules 25.3 and 25.4): what several of its calls show."""

from .arguments import shown, sized
from .comparing import compare
from .refusals import Refusal

FILLING = b'\xA5'


def lent(cap, call, size_width=2):
    """The answer of a call with a lent buffer; the call gives what is shown before the size, and the octets written."""
    try:
        before, octets = call()
    except Refusal as refusal:
        return refusal.octets() + FILLING * cap
    return b'\x00' + before + shown(len(octets), size_width) + octets.ljust(cap, FILLING)


def compared(arguments):
    """50: the count of entries, and the lent list, all of it."""
    first, second = arguments.sized(4), arguments.sized(4)
    cap = arguments.last_cap()
    try:
        entries = compare(first, second, cap)
    except Refusal as refusal:
        return refusal.octets() + 2 * FILLING * cap
    return b'\x00' + shown(len(entries), 2) + b''.join(shown(one, 2) for entry in entries for one in entry).ljust(2 * cap, FILLING)


def stored(item):
    """A stored packet, message or frame: its length unchanged, and its octets as far as there are any."""
    return shown(item.length, 2) + item.bytes()


def shown_counts(counts):
    """The four counts."""
    return b''.join(shown(count, 4) for count in counts)


def packet_read(reader, arguments):
    """The answer of a reader of packets."""
    edition, repaired = arguments.number(1), arguments.one_of(0, 1)
    packet = reader(edition, arguments.rest(), repaired)
    return (bytes([0, packet.kind, packet.value, len(packet.fields)])
            + b''.join(shown(field_type, 1) + sized(data) for field_type, data in packet.fields))

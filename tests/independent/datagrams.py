"""The datagram (rules 4.1 to 4.19): number, newest packet, then spares or parity messages."""

from typing import NamedTuple, Tuple

from .lengths import Items, cut, written_length, written_sized
from .packets import PACKET_LIMIT
from .refusals import LEFT_OVER, OVERLONG, SETTINGS, SIZE, SPARE_BIT, must_fit, refuse_if

DATAGRAM_LIMIT = 2400
SPARES_LIMIT = 8
N_LIMIT = 8
M_LIMIT = 4
MESSAGE_LIMIT = PACKET_LIMIT
SPARES, PARITY = 0x00, 0x80


class Datagram(NamedTuple):
    """A datagram; the items are spares (n is 0) or messages."""

    number: int
    packet: bytes
    kind: int
    n: int
    items: Tuple[bytes, ...]


def read_datagram(octets):
    """The datagram that the octets are."""
    refuse_if(len(octets) > DATAGRAM_LIMIT, OVERLONG)
    items = Items(octets)
    number = int.from_bytes(items.octets(2), 'big')
    packet = items.sized_octets(1, PACKET_LIMIT)
    kind = items.octet()
    items.refuse_if(kind & 0x7F, SPARE_BIT)
    if kind == SPARES:
        n, count = 0, items.length()
        items.refuse_if(count > SPARES_LIMIT, SIZE)
        least = 1
    else:
        items.refuse_if(items.octet() != 1, SIZE)
        n = items.octet()
        items.refuse_if(not 1 <= n <= N_LIMIT, SIZE)
        count = items.length()
        items.refuse_if(not 1 <= count <= M_LIMIT, SIZE)
        least = 0
    pieces = tuple(items.sized_octets(least, MESSAGE_LIMIT) for _ in range(count))
    items.refuse_if(items.left_over(), LEFT_OVER)
    return Datagram(number, packet, kind, n, pieces)


def write_datagram(number, packet, kind, n, lengths, data, room):
    """The octets of a datagram whose spares or messages are the data cut by the lengths."""
    if kind == SPARES:
        refuse_if(len(lengths) > SPARES_LIMIT, SIZE)
    else:
        refuse_if(not 1 <= n <= N_LIMIT or not 1 <= len(lengths) <= M_LIMIT, SIZE)
    refuse_if(sum(lengths) != len(data), SETTINGS)
    least = 1 if kind == SPARES else 0
    refuse_if(not 1 <= len(packet) <= PACKET_LIMIT, SIZE)
    refuse_if(any(not least <= length <= MESSAGE_LIMIT for length in lengths), SIZE)
    return must_fit(written_datagram(Datagram(number, packet, kind, n, tuple(cut(data, lengths)))), room)


def written_datagram(datagram):
    """The octets of a datagram within the sizes."""
    head = b'' if datagram.kind == SPARES else bytes([1, datagram.n])
    return (datagram.number.to_bytes(2, 'big') + written_sized(datagram.packet) + bytes([datagram.kind])
            + head + written_length(len(datagram.items)) + b''.join(map(written_sized, datagram.items)))


def members_of(number, i, n, m):
    """The numbers that message i of a datagram covers: S+i-m, S+i-2m, and so on, n of them."""
    return [(number + i - step * m) % 65536 for step in range(1, n + 1)]


def exclusive_or(members, length):
    """The exclusive or of the members over that many octets, shorter ones padded with zeros."""
    total = 0
    for member in members:
        total ^= int.from_bytes(member[:length].ljust(length, b'\0'), 'big')
    return total.to_bytes(length, 'big')

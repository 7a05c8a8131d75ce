"""Two traces compared (rules 22.1 to 22.16): the numbers in which they differ, and how."""

from .datagrams import PARITY, SPARES, read_datagram
from .program import lines_of, octets_of
from .refusals import NO_ROOM, TOO_MANY, Refusal

LINES_LIMIT = 512
FIRST_ALONE, SECOND_ALONE, PACKET, SPARES_DIFFER, PARITY_DIFFERS = range(1, 6)
NEITHER, FIRST, SECOND = range(3)  # which trace a refusal names


class Uncompared(Refusal):
    """A refused comparison: beside number and place the trace and the line that does not read, from 1; 0 and 0 if there is none."""

    def __init__(self, number, place=0, trace=NEITHER, line=0):
        super().__init__(number, place)
        self.trace = trace
        self.line = line

    def octets(self):
        """As it is answered."""
        return super().octets() + bytes([self.trace]) + self.line.to_bytes(2, 'big')


def compare(first, second, room):
    """The entries, each a number and a difference, of two traces; the caller's list has room for `room` 16-bit numbers."""
    traces = lines_of(first), lines_of(second)
    if any(len(lines) > LINES_LIMIT for lines in traces):
        raise Uncompared(TOO_MANY)
    firsts, seconds = datagrams_of(traces[0], FIRST), datagrams_of(traces[1], SECOND)
    partners = partners_of(firsts, seconds)
    entries = [entry for datagram, at in zip(firsts, partners) for entry in differences(datagram, None if at is None else seconds[at])]
    entries += [(datagram.number, SECOND_ALONE) for at, datagram in enumerate(seconds) if at not in partners]
    if 2 * len(entries) > room:
        raise Uncompared(NO_ROOM)
    return entries


def datagrams_of(lines, trace):
    """The datagrams of a trace's lines; the empty ones are skipped, but counted."""
    datagrams = []
    for number, line in enumerate(lines, 1):
        try:
            datagrams += [read_datagram(octets_of(line))] if line else []
        except Refusal as refusal:
            raise Uncompared(refusal.number, refusal.place, trace, number)
    return datagrams


def partners_of(firsts, seconds):
    """For each datagram of the first trace the place of its partner in the second: the k-th of a number has the k-th; or None."""
    places, partners = {}, []
    for at, datagram in enumerate(seconds):
        places.setdefault(datagram.number, []).append(at)
    for datagram in firsts:
        waiting = places.get(datagram.number)
        partners.append(waiting.pop(0) if waiting else None)
    return partners


def differences(one, other):
    """The entries of a datagram of the first trace and its partner."""
    if other is None:
        return [(one.number, FIRST_ALONE)]
    kinds = {one.kind, other.kind}
    other_items = (one.kind, one.n, one.items) != (other.kind, other.n, other.items)
    applies = {PACKET: one.packet != other.packet, SPARES_DIFFER: other_items and SPARES in kinds,
               PARITY_DIFFERS: other_items and PARITY in kinds}
    return [(one.number, difference) for difference, there in applies.items() if there]

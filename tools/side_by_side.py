"""The datagrams of two traces side by side: which lines pair, and in what they differ."""

import collections
import typing

LINES = 512  # of a trace, at most
ONLY_FIRST, ONLY_SECOND, PACKET, SPARES, PARITY = range(1, 6)


class Line(typing.NamedTuple):
    """A line that holds a datagram: which it is, from 1, and the datagram's octets."""
    line: int
    octets: bytes

    @property
    def number(self):
        """The datagram's."""
        return int.from_bytes(self.octets[:2], 'big')

    @property
    def packet(self):
        """The newest packet."""
        return self.octets[self.start:self.end]

    @property
    def behind(self):
        """What stands behind it: spares or parity."""
        return self.octets[self.end:]

    @property
    def start(self):
        """Where the packet begins: behind the number and a length of one octet or two."""
        return 3 if self.octets[2] < 128 else 4

    @property
    def end(self):
        """Where it ends."""
        return self.start + (self.octets[2] if self.octets[2] < 128 else int.from_bytes(self.octets[2:4], 'big') - 0x8000)


class Row(typing.NamedTuple):
    """Two lines that pair, or one alone."""
    first: typing.Optional[Line]
    second: typing.Optional[Line]

    @property
    def number(self):
        """Of both."""
        return (self.first or self.second).number

    @property
    def codes(self):
        """What the lines differ in, to lay the entries of the proved program beside the lines; it must list the same."""
        if not self.second:
            return [ONLY_FIRST]
        if not self.first:
            return [ONLY_SECOND]
        kinds = {line.behind[:1] for line in self if self.first.behind != self.second.behind}
        found = {PACKET: self.first.packet != self.second.packet, SPARES: b'\x00' in kinds, PARITY: b'\x80' in kinds}
        return [code for code in found if found[code]]


def rows_of(first, second):
    """The lines side by side, by number: in order of the first's lines, then those only in the second."""
    waiting = collections.defaultdict(collections.deque)
    for line in second:
        waiting[line.number].append(line)
    rows = [Row(line, waiting[line.number].popleft() if waiting[line.number] else None) for line in first]
    alone = {line for lines in waiting.values() for line in lines}
    return rows + [Row(None, line) for line in second if line in alone]


def parts_of(rows):
    """The rows in parts that have no more than so many lines of each trace."""
    return [rows[start:start + LINES] for start in range(0, len(rows), LINES)]

"""The sending session (rules 15.1 to 15.13): how many packets were sent, and the last 32 of them."""

from .datagrams import M_LIMIT, N_LIMIT, SPARES, SPARES_LIMIT, Datagram, exclusive_or, members_of, written_datagram
from .packets import PACKET_LIMIT
from .receiving import NUMBERS_LIMIT
from .refusals import LIMIT, RANGES, SETTINGS, SIZE, must_fit, refuse_if
from .stored import Stored

HISTORY = 32


class Sending:
    """A sending session, fresh, or after a number of equal packets was sent."""

    def __init__(self, sent=0, packet=b'\x06'):
        self.sent = min(sent, NUMBERS_LIMIT)
        self.history = [Stored() for _ in range(HISTORY)]
        self.inside = False  # not checked yet, or overwritten since
        for j in range(1, min(self.sent, HISTORY) + 1):
            self.history[(self.sent - j) % HISTORY] = Stored(packet)

    def sent_before(self, j):
        """What was sent j numbers ago."""
        return self.history[(self.sent - j) % HISTORY]

    def in_ranges(self):
        """Whether the session is inside its ranges; sending leaves it so, and only once it is overwritten it is checked again."""
        self.inside = self.inside or self.all_in_ranges()
        return self.inside

    def all_in_ranges(self):
        """The same, everything checked."""
        return self.sent <= NUMBERS_LIMIT and all(
            self.sent_before(j).in_ranges(*((1, PACKET_LIMIT) if j <= self.sent else (0, 0)))
            for j in range(1, HISTORY + 1))

    def send(self, packet, kind, a, b, room):
        """The next datagram: with a spares, or with parity n = a, m = b."""
        refuse_if(not self.in_ranges(), RANGES)
        refuse_if(self.sent == NUMBERS_LIMIT, LIMIT)
        refuse_if(a > SPARES_LIMIT if kind == SPARES else not (1 <= a <= N_LIMIT and 1 <= b <= M_LIMIT), SETTINGS)
        refuse_if(not 1 <= len(packet) <= PACKET_LIMIT, SIZE)
        number = self.sent % 65536
        if kind == SPARES:
            datagram = Datagram(number, packet, kind, 0, self.spares(a))
        else:
            datagram = Datagram(number, packet, kind, a, tuple(self.message(i, a, b) for i in range(b)))
        octets = must_fit(written_datagram(datagram), room)
        self.history[self.sent % HISTORY] = Stored(packet)
        self.sent += 1
        return octets

    def spares(self, k):
        """The last k packets, newest first, or as many as were sent."""
        return tuple(self.sent_before(j).bytes() for j in range(1, min(k, self.sent) + 1))

    def message(self, i, n, m):
        """Message i of the next datagram, as long as the longest member."""
        members = [self.history[number % HISTORY].bytes() for number in members_of(self.sent, i, n, m)]
        return exclusive_or(members, max(map(len, members)))

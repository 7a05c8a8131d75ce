"""The receiving session (rules 9.1 to 9.11, 10.1 to 10.12, 11.1 to 11.9, 12.1 to 12.13 and 13.1 to 13.12): 64 numbers in view, 32 before
the base and 32 from it on."""

from .datagrams import M_LIMIT, MESSAGE_LIMIT, N_LIMIT, PARITY, exclusive_or, members_of, read_datagram
from .packets import PACKET_LIMIT
from .refusals import AHEAD, BASE_UNKNOWN, LATE, LIMIT, NO_ROOM, RANGES, REPEATED, refuse_if
from .stored import Stored

NUMBERS_LIMIT = 1000000
BEFORE, AFTER = 32, 32
UNKNOWN, RECEIVED, SPARE, REPAIRED, BLANK = range(5)
LOST = 4  # the fourth count and kind; the first three go by the states of released packets


class Place(Stored):
    """A number in view: its state, its packet, and as its note the datagram whose offer filled it, or 0 (rule 9.5)."""

    def __init__(self, state=UNKNOWN, octets=b'', note=0):
        super().__init__(octets)
        self.state = state
        self.note = note

    def note_in_ranges(self, number):
        """A received number's note is its own, an unknown or blank one's is 0; a spare or repaired one's may be any."""
        if self.state == RECEIVED:
            return self.note == number
        return self.note == 0 or self.state not in (UNKNOWN, BLANK)


class Mark:
    """Of a number from the base on: whether its datagram was accepted, and its parity messages."""

    def __init__(self, accepted=0, n=0, messages=()):
        self.accepted = accepted
        self.n = n
        self.m = len(messages)
        self.messages = [Stored(octets) for octets in messages] + [Stored() for _ in range(M_LIMIT - len(messages))]

    def in_ranges(self, state):
        """The rules for one mark, at a number of this state."""
        if self.accepted and state == UNKNOWN or self.m and not self.accepted:
            return False
        if not (self.n == 0 if self.m == 0 else 1 <= self.n <= N_LIMIT and self.m <= M_LIMIT):
            return False
        return all(message.in_ranges(0, MESSAGE_LIMIT if i < self.m else 0)
                   for i, message in enumerate(self.messages))


class Receiving:
    """A receiving session, fresh, or after a number of give-ups."""

    def __init__(self, given_up=0):
        lost = min(given_up, NUMBERS_LIMIT)
        self.base = lost % 65536
        self.counts = {RECEIVED: 0, SPARE: 0, REPAIRED: 0, LOST: lost}
        self.places = [Place() for _ in range(BEFORE + AFTER)]
        self.marks = [Mark() for _ in range(AFTER)]
        self.inside = False  # not checked yet, or overwritten since
        for j in range(lost + 1, BEFORE + 1):
            self.place(self.base - j).state = BLANK

    def place(self, number):
        """The place of a number in view."""
        return self.places[number % (BEFORE + AFTER)]

    def mark(self, number):
        """The mark of a number from the base on."""
        return self.marks[number % AFTER]

    def total(self):
        """The base's whole advance."""
        return sum(self.counts.values())

    def in_ranges(self):
        """Whether the session is inside its ranges; the calls leave it so, and only once it is overwritten it is checked again."""
        self.inside = self.inside or self.all_in_ranges()
        return self.inside

    def all_in_ranges(self):
        """The same, everything checked."""
        total = self.total()
        if total > NUMBERS_LIMIT or self.base != total % 65536:
            return False
        for j in range(-BEFORE, AFTER):
            place = self.place(self.base + j)
            if (place.state == BLANK) != (-j > total):
                return False
            least, most = (0, 0) if place.state in (UNKNOWN, BLANK) else (1, PACKET_LIMIT)
            if not (place.in_ranges(least, most) and place.note_in_ranges((self.base + j) % 65536)):
                return False
        return all(self.mark(self.base + j).in_ranges(self.place(self.base + j).state) for j in range(AFTER))

    def offer(self, octets):
        """Takes a datagram in: its packet, its spares, then all that can be repaired."""
        refuse_if(not self.in_ranges(), RANGES)
        datagram = read_datagram(octets)
        distance = (datagram.number - self.base) % 65536
        refuse_if(AFTER <= distance <= 32767, AHEAD)
        refuse_if(distance > 32767, LATE)
        refuse_if(self.mark(datagram.number).accepted, REPEATED)
        self.fill(datagram.number, RECEIVED, datagram.packet, datagram.number)
        if datagram.kind == PARITY:
            self.marks[datagram.number % AFTER] = Mark(1, datagram.n, datagram.items)
        else:
            self.marks[datagram.number % AFTER] = Mark(1)
            for j, spare in enumerate(datagram.items, 1):
                self.fill(datagram.number - j, SPARE, spare, datagram.number)
        while self.repair_once(datagram.number):
            pass

    def fill(self, number, state, octets, offered):
        """Makes a number known, if it is still unknown; its note is the datagram being offered."""
        if self.place(number).state == UNKNOWN:
            self.places[number % (BEFORE + AFTER)] = Place(state, octets, offered)

    def repair_once(self, offered):
        """Fills the unknown member of the first message that has exactly one; whether there was such a message."""
        for number in range(self.base, self.base + AFTER):
            mark = self.mark(number)
            if not mark.accepted:
                continue
            for i in range(mark.m):
                message = mark.messages[i]
                if not message.length:
                    continue
                members = members_of(number, i, mark.n, mark.m)
                unknown = [member for member in members if self.place(member).state == UNKNOWN]
                if len(unknown) == 1:
                    known = [self.place(member).bytes() for member in members if member != unknown[0]]
                    self.fill(unknown[0], REPAIRED, exclusive_or([message.bytes()] + known, message.length), offered)
                    return True
        return False

    def next(self, skip, room):
        """Hands out the packet at the base: its kind, number, note and octets; with leave to skip, an unknown base is booked lost."""
        refuse_if(not self.in_ranges(), RANGES)
        refuse_if(self.total() == NUMBERS_LIMIT, LIMIT)
        number, place = self.base, self.place(self.base)
        if place.state == UNKNOWN:
            refuse_if(not skip, BASE_UNKNOWN)
            self.advance(LOST)
            return LOST, number, 0, b''
        refuse_if(place.length > room, NO_ROOM)
        self.advance(place.state)
        return place.state, number, place.note, place.bytes()

    def advance(self, count):
        """The base advances by one; the number that leaves drops its mark, the one that comes into view is unknown."""
        self.counts[count] += 1
        self.marks[self.base % AFTER] = Mark()
        self.places[(self.base + AFTER) % (BEFORE + AFTER)] = Place()
        self.base = (self.base + 1) % 65536

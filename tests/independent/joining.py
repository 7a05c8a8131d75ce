"""The joiner (rules 16.1 to 16.16): fields and lost numbers in, one at a time; whole HDLC frames out."""

from .editions import EDITIONS, NEW, data_misplaced
from .refusals import DATA, FRAME, NOT_ASSIGNED, RANGES, Refusal, must_fit, refuse_if
from .stored import Stored

FRAME_LIMIT = 300
NOTHING, GOOD, BAD = range(3)
LAST_TYPE = EDITIONS[NEW].types.last  # those that the new edition adds are as 6 (rules 16.5 and 16.10)
ADDING = 0
RETURNED = {2: GOOD, 3: BAD, 4: GOOD, 5: BAD}
ENDING_A_TAINT = (1, 2, 3, 4, 5)


class Joiner:
    """A joiner, fresh or tainted, and its open frame."""

    def __init__(self, tainted=0, octets=b''):
        self.hold(tainted, octets)

    def hold(self, tainted, octets):
        """The joiner is as a new one with these octets in its open frame."""
        self.tainted = tainted
        self.frame = Stored(octets, FRAME_LIMIT)

    def in_ranges(self):
        """Whether the joiner is inside its ranges: no octets while tainted, else up to 300, and zeros past them."""
        return self.frame.in_ranges(0, 0 if self.tainted else FRAME_LIMIT)

    def field(self, field_type, data, room):
        """One field, without data if there is none; whether a frame is returned, good or bad, and its octets."""
        refuse_if(not self.in_ranges(), RANGES)
        refuse_if(field_type > LAST_TYPE, NOT_ASSIGNED)
        refuse_if(data_misplaced(field_type, data != b''), DATA)
        if self.tainted:
            if field_type in ENDING_A_TAINT:
                self.hold(0, b'')
        elif field_type == ADDING:
            self.add(data)
        elif field_type in RETURNED:
            return self.hand_out(RETURNED[field_type], room)
        else:
            self.hold(0, b'')
        return NOTHING, b''

    def add(self, data):
        """The open frame grows, or would pass the limit: then the joiner is tainted, though the field is refused."""
        whole = self.frame.bytes() + data
        if len(whole) > FRAME_LIMIT:
            self.hold(1, b'')
            raise Refusal(FRAME)
        self.hold(0, whole)

    def hand_out(self, what, room):
        """The open frame, unless it is good and empty; nothing is open after it."""
        octets = must_fit(self.frame.bytes(), room)
        if what == GOOD and not octets:
            return NOTHING, b''
        self.hold(0, b'')
        return what, octets

    def lost(self):
        """One lost number: what is open is dropped, and the joiner tainted."""
        refuse_if(not self.in_ranges(), RANGES)
        self.hold(1, b'')

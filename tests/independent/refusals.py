"""The refusals by number (rules 2.1 to 2.23), with a name for each."""

ENDS = 1            # input ends inside an item or before one that must come
OVERLONG = 2        # datagram over 2,400 octets, or line over 4,800 characters
FORM = 3            # length or count in a form not allowed
SIZE = 4            # length, count, n or m outside the sizes
SPARE_BIT = 5       # a spare bit is set
LEFT_OVER = 6       # octets left over
REPEATED = 7
AHEAD = 8
LATE = 9
BASE_UNKNOWN = 10   # 11 is retired
NOT_ASSIGNED = 12   # extension bit, or value not assigned
NO_ROOM = 13        # the result is longer than the lent buffer
DATA = 14           # data where none may be, or none where it must
SETTINGS = 15       # settings, given lengths, a line's digits, or an edition that is none
LIMIT = 16          # 1,000,000 numbers have passed
RANGES = 17         # session or joiner outside its ranges
FRAME = 18          # the frame would pass 300 octets
MISSHAPEN = 20      # an image: a line missing, extra or misshapen
OTHER_EDITION = 21  # an image of neither edition
TOO_MANY = 22       # a trace to compare has over 512 lines
CONTRADICTION = 23  # no octets satisfy all equations


class Refusal(Exception):
    """A refused call: its number, and the octet at which the refused item begins, 0 if it is not met in reading order.

    Nothing was changed, but by 18."""

    def __init__(self, number, place=0):
        super().__init__(number, place)
        self.number = number
        self.place = place

    def octets(self):
        """As it is answered: FF, the number, and the place in two octets."""
        return bytes([0xFF, self.number]) + self.place.to_bytes(2, 'big')


def refuse_if(condition, number, place=0):
    """Refuses with the number, at the place, if the condition holds."""
    if condition:
        raise Refusal(number, place)


def must_fit(result, room):
    """The result, if it is no longer than the lent buffer."""
    refuse_if(len(result) > room, NO_ROOM)
    return result

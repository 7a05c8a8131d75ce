"""Ways to bring a receiving session outside its ranges, as a caller could (rules 13.1 to 13.11): each rule broken alone, as rows of field
and place."""

from independent.packets import PACKET_LIMIT
from independent.receiving import AFTER, BEFORE, BLANK, NUMBERS_LIMIT, RECEIVED, REPAIRED, SPARE, UNKNOWN

KNOWN = (RECEIVED, SPARE, REPAIRED)
TOO_GREAT = (PACKET_LIMIT + 1, PACKET_LIMIT + 1, PACKET_LIMIT + 2, 2 * PACKET_LIMIT, PACKET_LIMIT + 256, 65535)


class Session:
    """The held receiving session, with what a caller could do to it."""

    def __init__(self, script):
        self.script = script
        self.r = script.random
        self.held = script.receiving

    def numbers(self, condition, first=-BEFORE, end=AFTER):
        """The numbers in view, counted from the base, whose place meets the condition."""
        return [(self.held.base + d) % 65536 for d in range(first, end) if condition(self.held.place(self.held.base + d))]

    def noted(self):
        """The numbers in view that are spare or repaired, with a note that is not 0 and not their own."""
        return [number for number in self.numbers(of_state(SPARE, REPAIRED)) if self.held.place(number).note not in (0, number)]

    def accepted(self, condition):
        """The numbers from the base on whose mark meets the condition."""
        return [(self.held.base + d) % 65536 for d in range(AFTER) if condition(self.held.mark(self.held.base + d))]


def one(r, numbers):
    """One of the numbers; none at all is reported by raising LookupError."""
    if not numbers:
        raise LookupError
    return r.choice(numbers)


def of_state(*states):
    """The condition that a place has one of the states."""
    return lambda place: place.state in states


def base_off(s):
    """Base is not the sum modulo 65,536."""
    return [(0, dict(value=(s.held.base + s.r.choice((1, 65535, 64, 32, 32768))) % 65536))]


def count_off(s):
    """A count is one too many or too few."""
    field = s.r.randrange(1, 5)
    old = list(s.held.counts.values())[field - 1]
    return [(field, dict(value=s.r.choice((old + 1, max(0, old - 1), old + 32, old + 1 << 16)) % (1 << 32)))]


def sum_too_great(s):
    """The sum passes 1,000,000 while base is still the sum modulo 65,536."""
    field = s.r.randrange(1, 5)
    old = list(s.held.counts.values())[field - 1]
    step = 65536 * (s.r.choice((0, 0, 1, 100)) + (NUMBERS_LIMIT - s.held.total()) // 65536 + 1)
    return [(field, dict(value=old + step))]


def sum_wraps(s):
    """The sum is the base only if sums wrap at 32 bits."""
    fields = s.r.sample(range(1, 5), 2)
    old = list(s.held.counts.values())
    return [(field, dict(value=old[field - 1] + (1 << 31))) for field in fields]


def not_blank(s):
    """A number before the first is not blank."""
    number = one(s.r, s.numbers(of_state(BLANK), end=0))
    if s.r.random() < 0.5:
        return [(5, dict(number=number, value=UNKNOWN))]
    return [(5, dict(number=number, value=s.r.choice(KNOWN))), (6, dict(number=number, value=1)), (13, dict(number=number, value=number))]


def blank_before(s):
    """A number that has left is blank."""
    return [(5, dict(number=one(s.r, s.numbers(of_state(UNKNOWN), end=0)), value=BLANK))]


def blank_ahead(s):
    """A number from the base on is blank."""
    return [(5, dict(number=one(s.r, s.numbers(of_state(UNKNOWN), first=0)), value=BLANK))]


def length_where_none(s):
    """Unknown or blank has a length."""
    number = one(s.r, s.numbers(of_state(UNKNOWN, BLANK)))
    return [(6, dict(number=number, value=s.r.choice((1, 255, PACKET_LIMIT, PACKET_LIMIT + 1, 65535))))]


def no_length(s):
    """A known packet has length 0, its octets all zero."""
    number = one(s.r, s.numbers(lambda place: place.state in KNOWN and place.length <= 3))
    octets = [(7, dict(number=number, octet=o, value=0)) for o in range(s.held.place(number).length)]
    return octets + [(6, dict(number=number, value=0))]


def length_too_great(s):
    """A known packet is longer than the limit."""
    return [(6, dict(number=one(s.r, s.numbers(of_state(*KNOWN))), value=s.r.choice(TOO_GREAT)))]


def octet_past(s):
    """An octet past a length is not zero."""
    number = one(s.r, s.numbers(lambda place: place.length < PACKET_LIMIT))
    length = s.held.place(number).length
    octet = s.r.choice((length, PACKET_LIMIT - 1, s.r.randrange(length, PACKET_LIMIT)))
    return [(7, dict(number=number, octet=octet, value=s.r.choice((1, 128, 255))))]


def accepted_unknown(s):
    """An accepted number is unknown."""
    return [(8, dict(number=one(s.r, s.numbers(of_state(UNKNOWN), first=0)), value=1))]


def messages_unaccepted(s):
    """Messages are at a number that is not accepted."""
    return [(8, dict(number=one(s.r, s.accepted(lambda mark: mark.m)), value=0))]


def messages_from_nowhere(s):
    """n and m are set at a number that is not accepted."""
    number = one(s.r, s.accepted(lambda mark: not mark.accepted))
    return [(9, dict(number=number, value=1)), (10, dict(number=number, value=1))]


def n_without_m(s):
    """n is set where there are no messages."""
    return [(9, dict(number=one(s.r, s.accepted(lambda mark: mark.m == 0)), value=s.r.choice((1, 8, 255))))]


def n_outside(s):
    """n of messages is outside the sizes."""
    return [(9, dict(number=one(s.r, s.accepted(lambda mark: mark.m)), value=s.r.choice((0, 9, 9, 128, 255))))]


def m_outside(s):
    """m is over 4."""
    return [(10, dict(number=one(s.r, s.accepted(lambda mark: mark.m)), value=s.r.choice((5, 5, 8, 255))))]


def m_without_n(s):
    """m is set where n is 0."""
    return [(10, dict(number=one(s.r, s.accepted(lambda mark: mark.accepted and mark.m == 0)), value=s.r.choice((1, 4))))]


def message_too_long(s):
    """A message is longer than the limit."""
    number = one(s.r, s.accepted(lambda mark: mark.m))
    message = s.r.randrange(s.held.mark(number).m)
    return [(11, dict(number=number, message=message, value=s.r.choice(TOO_GREAT)))]


def message_octet_past(s):
    """An octet past a message's length is not zero."""
    number = one(s.r, s.accepted(lambda mark: mark.accepted))
    message = s.r.randrange(4)
    length = s.held.mark(number).messages[message].length
    if length >= PACKET_LIMIT:
        raise LookupError
    return [(12, dict(number=number, message=message, octet=s.r.choice((length, PACKET_LIMIT - 1)), value=s.r.choice((1, 255))))]


def message_past_m(s):
    """A message place past m has a length."""
    number = one(s.r, s.accepted(lambda mark: mark.m < 4))
    message = s.r.randrange(s.held.mark(number).m, 4)
    return [(11, dict(number=number, message=message, value=s.r.choice((1, PACKET_LIMIT))))]


def message_octet_anywhere(s):
    """A message's octet is set at a number that is not accepted."""
    number = one(s.r, s.accepted(lambda mark: not mark.accepted))
    return [(12, dict(number=number, message=s.r.randrange(4), octet=s.r.choice((0, PACKET_LIMIT - 1)), value=1))]


def note_of_received(s):
    """A received number's note is not its own."""
    number = one(s.r, s.numbers(of_state(RECEIVED)))
    others = [(number + step) % 65536 for step in (1, 65535, 64, 256, 32768)] + 5 * [0] * (number != 0)
    return [(13, dict(number=number, value=s.r.choice(others)))]


def note_where_none(s):
    """Unknown or blank has a note, its own number's too."""
    number = one(s.r, s.numbers(of_state(s.r.choice((UNKNOWN, BLANK)))))
    return [(13, dict(number=number, value=s.r.choice((1, 255, 256, 32768, 65535, number or 1))))]


def received_by_another(s):
    """A spare or repaired number becomes received, and its note stays."""
    return [(5, dict(number=one(s.r, s.noted()), value=RECEIVED))]


def unknown_again(s):
    """A spare or repaired number becomes unknown, and its note stays."""
    number = one(s.r, [number for number in s.noted() if s.held.place(number).length <= 3
                       and ((number - s.held.base) % 65536 >= AFTER or not s.held.mark(number).accepted)])
    octets = [(7, dict(number=number, octet=o, value=0)) for o in range(s.held.place(number).length)]
    return octets + [(6, dict(number=number, value=0)), (5, dict(number=number, value=UNKNOWN))]


BREAKS = (base_off, count_off, sum_too_great, sum_wraps, not_blank, blank_before, blank_ahead, length_where_none, no_length,
          length_too_great, octet_past, accepted_unknown, messages_unaccepted, messages_from_nowhere, n_without_m, n_outside,
          m_outside, m_without_n, message_too_long, message_octet_past, message_past_m, message_octet_anywhere, note_of_received,
          note_where_none, note_where_none, received_by_another, unknown_again)

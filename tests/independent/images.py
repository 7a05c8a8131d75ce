"""A receiving session as an image (rules 20.1 to 20.19): lines of upper-case hexadecimal, one for the whole and one for each kept number.

Both versions of the image have one layout, each with its limit for packets and messages. The newer is written, both are read."""

import binascii
import re

from .datagrams import M_LIMIT, N_LIMIT
from .lengths import Items, written_sized
from .packets import PACKET_LIMIT
from .receiving import AFTER, BEFORE, BLANK, Mark, Place, Receiving
from .refusals import LEFT_OVER, MISSHAPEN, OTHER_EDITION, RANGES, SIZE, Refusal, must_fit, refuse_if

EDITION = 2
LIMITS = {1: 160, 2: PACKET_LIMIT}  # by the edition
LINES = 1 + BEFORE + AFTER
DIGITS = re.compile(b'([0-9A-F]{2})*')


def write_image(session, room):
    """The image of a session, if there is room."""
    refuse_if(not session.in_ranges(), RANGES)
    return must_fit(written_image(session), room)


def written_image(session):
    """The image of a session inside its ranges: its first line, then the numbers from 32 before the base upward."""
    counts = b''.join(count.to_bytes(4, 'big') for count in session.counts.values())
    lines = [bytes([EDITION]) + session.base.to_bytes(2, 'big') + counts]
    for j in range(-BEFORE, AFTER):
        number = session.base + j
        lines.append(written_number(session.place(number), session.mark(number) if j >= 0 else Mark()))
    return b''.join(line.hex().upper().encode() + b'\n' for line in lines)


def written_number(place, mark):
    """The octets of a number's line; before the base there is no mark."""
    messages = [written_sized(message.bytes()) for message in mark.messages[:mark.m]]
    return (bytes([place.state, mark.accepted]) + place.note.to_bytes(2, 'big') + written_sized(place.bytes()) + bytes([mark.n, mark.m])
            + b''.join(messages))


def read_image(text):
    """The session that a text is the image of: its edition is known, then every line has its shape, then it is inside its ranges."""
    limit = limit_of(text[:2])
    *lines, behind = text.split(b'\n')
    refuse_if(len(lines) != LINES or behind, MISSHAPEN)
    base, counts = shaped(lines[0], read_head)
    session = Receiving()
    session.base, session.counts = base, dict(zip(session.counts, counts))
    for j, line in enumerate(lines[1:], -BEFORE):
        place, mark = shaped(line, lambda items: read_number(items, limit))
        session.places[(base + j) % (BEFORE + AFTER)] = place
        if j >= 0:
            session.marks[(base + j) % AFTER] = mark
        else:
            refuse_if(mark.accepted or mark.n or mark.m, MISSHAPEN)
    refuse_if(not session.in_ranges(), RANGES)
    return session


def limit_of(digits):
    """The limit of the edition that two digits have; if they are no digits, the first line is misshapen."""
    refuse_if(not re.fullmatch(b'[0-9A-F]{2}', digits), MISSHAPEN)
    refuse_if(int(digits, 16) not in LIMITS, OTHER_EDITION)
    return LIMITS[int(digits, 16)]


def shaped(line, read):
    """What is read from a line of upper-case digits in pairs; if an item of it is refused, or something is left over, it is misshapen."""
    refuse_if(not DIGITS.fullmatch(line), MISSHAPEN)
    items = Items(binascii.unhexlify(line))
    try:
        found = read(items)
        items.refuse_if(items.left_over(), LEFT_OVER)
    except Refusal:
        raise Refusal(MISSHAPEN)
    return found


def read_head(items):
    """The first line: base and the four counts, behind the edition."""
    items.octet()
    return number(items, 2), [number(items, 4) for _ in range(4)]


def read_number(items, limit):
    """A number's line: its place and its mark; packet and messages are within the limit."""
    state, accepted, note = at_most(items, BLANK), at_most(items, 1), number(items, 2)
    place = Place(state, items.sized_octets(0, limit), note)
    n, m = at_most(items, N_LIMIT), at_most(items, M_LIMIT)
    return place, Mark(accepted, n, [items.sized_octets(0, limit) for _ in range(m)])


def number(items, width):
    """A number of that many octets, high octet first."""
    return int.from_bytes(items.octets(width), 'big')


def at_most(items, most):
    """An octet that is no greater."""
    value = items.octet()
    items.refuse_if(value > most, SIZE)
    return value

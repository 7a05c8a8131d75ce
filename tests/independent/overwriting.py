"""Lines 17, 23 and 34 (rules 25.37 to 25.39): one field of a held session or joiner is overwritten, as a caller could."""

from .arguments import call_if
from .datagrams import M_LIMIT
from .receiving import AFTER, BEFORE, BLANK, LOST, RECEIVED, REPAIRED, SPARE
from .sending import HISTORY

OCTET, TWO_OCTETS, FOUR_OCTETS = 0xFF, 0xFFFF, 0xFFFFFFFF
COUNT_FIELDS = {1: RECEIVED, 2: SPARE, 3: REPAIRED, 4: LOST}


def put_octet(item, place, value):
    """Overwrites one octet of a stored packet, message or frame."""
    call_if(place < len(item.octets) and value <= OCTET)
    item.octets[place] = value


def put_attribute(item, name, value, most):
    """Overwrites one number, if the field can hold the value."""
    call_if(value <= most)
    setattr(item, name, value)


def overwrite_receiving(session, arguments):
    """17: field, number, message, octet, value."""
    field, number, message = arguments.number(1), arguments.number(2), arguments.number(1)
    octet, value = arguments.number(2), arguments.number(4)
    arguments.end()
    session.inside = False
    if field == 0x00:
        put_attribute(session, 'base', value, TWO_OCTETS)
    elif field in COUNT_FIELDS:
        session.counts[COUNT_FIELDS[field]] = value
    elif field in (0x05, 0x06, 0x07, 0x0D):
        call_if((number - session.base + BEFORE) % 65536 < BEFORE + AFTER)
        place = session.place(number)
        if field == 0x05:
            put_attribute(place, 'state', value, BLANK)
        elif field == 0x06:
            put_attribute(place, 'length', value, TWO_OCTETS)
        elif field == 0x0D:
            put_attribute(place, 'note', value, TWO_OCTETS)
        else:
            put_octet(place, octet, value)
    else:
        call_if(field in (0x08, 0x09, 0x0A, 0x0B, 0x0C) and (number - session.base) % 65536 < AFTER)
        overwrite_mark(session.mark(number), field, message, octet, value)


def overwrite_mark(mark, field, message, octet, value):
    """Fields 08 to 0C: the accepted mark, n, m, and a message's length or octet."""
    if field == 0x08:
        put_attribute(mark, 'accepted', value, 1)
    elif field == 0x09:
        put_attribute(mark, 'n', value, OCTET)
    elif field == 0x0A:
        put_attribute(mark, 'm', value, OCTET)
    else:
        call_if(message < M_LIMIT)
        if field == 0x0B:
            put_attribute(mark.messages[message], 'length', value, TWO_OCTETS)
        else:
            put_octet(mark.messages[message], octet, value)


def overwrite_sending(session, arguments):
    """23: field, number, octet, value."""
    field, number = arguments.number(1), arguments.number(2)
    octet, value = arguments.number(2), arguments.number(4)
    arguments.end()
    session.inside = False
    if field == 0x00:
        put_attribute(session, 'sent', value, FOUR_OCTETS)
        return
    call_if(field in (0x01, 0x02) and (session.sent - 1 - number) % 65536 < HISTORY)
    item = session.history[number % HISTORY]
    if field == 0x01:
        put_attribute(item, 'length', value, TWO_OCTETS)
    else:
        put_octet(item, octet, value)


def overwrite_joiner(joiner, arguments):
    """34: field, octet, value."""
    field, octet, value = arguments.number(1), arguments.number(2), arguments.number(2)
    arguments.end()
    if field == 0x00:
        put_attribute(joiner, 'tainted', value, 1)
    elif field == 0x01:
        put_attribute(joiner.frame, 'length', value, TWO_OCTETS)
    else:
        call_if(field == 0x02)
        put_octet(joiner.frame, octet, value)

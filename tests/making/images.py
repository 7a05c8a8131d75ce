"""Scenes for images (rules 20.1 to 20.19): sessions written with room near the size, read back in both versions and used further, and
damaged images.

The items of an image decide what each damage is refused with: 21, 20, 17 or nothing. Making the script stops if the answer is another."""

import re

from independent.arguments import shown
from independent.datagrams import M_LIMIT, N_LIMIT, PARITY, SPARES, Datagram, written_datagram
from independent.images import EDITION, LIMITS
from independent.lengths import written_length
from independent.packets import PACKET_LIMIT
from independent.receiving import AFTER, BEFORE, BLANK, NUMBERS_LIMIT, RECEIVED, REPAIRED, SPARE, UNKNOWN
from independent.refusals import MISSHAPEN, OTHER_EDITION, RANGES, Refusal

from . import pieces
from .breaking import KNOWN, one
from .notes import begin, send
from .outside import furnish, try_all
from .placed import met

DONE = b'\x00'
COUNTS = ('received', 'spare', 'repaired', 'lost')
WRONG_FORMS = b'8000', b'8001', b'807F', b'C0', b'C001', b'FF'
NO_DIGITS = b' ', b'G', b'g', b'/', b':', b'@', b'\r', b'\t', b'\x00', b'\xC1', b'\n\n', b'\n'
TEXTS = (b'', b'\n', b'\n' * 65, b'\r\n' * 65, b'0', b'3', b'01', b'02', b'01\n', b'02\r\n', b'01' + b'0' * 36, b'02' + b'0' * 36 + b'\n',
         b'02' + b'0' * 36 + b'\n' * 65, b'g', b'0a', b'0a\n', b'a0', b'0G', b' 03', b'\n03', b'0\n3', b'0/', b':0', b'@3',
         (b'02' + b'0' * 36 + b'\n').ljust(999, b'0'))
NO_EDITIONS = b'00', b'03', b'03', b'04', b'0A', b'10', b'20', b'81', b'82', b'A1', b'FF'


def digits(value, octets=1):
    """A number in that many octets, as digits."""
    return pieces.digits(shown(value, octets))


def sized(octets, length=None):
    """Octets behind their length, or behind other digits in its place."""
    return (pieces.digits(written_length(len(octets))) if length is None else length) + pieces.digits(octets)


def rows_of(session, edition=EDITION):
    """A session's image as rows, each of items by their names: the head, then a row for each number in view."""
    head = dict(edition=digits(edition), base=digits(session.base, 2))
    head.update((name, digits(count, 4)) for name, count in zip(COUNTS, session.counts.values()))
    rows = [head]
    for j in range(-BEFORE, AFTER):
        place, mark = session.place(session.base + j), session.mark(session.base + j)
        row = dict(state=digits(place.state), accepted=b'00', note=digits(place.note, 2), packet=sized(place.bytes()), n=b'00', m=b'00',
                   messages=b'')
        if j >= 0:
            row.update(accepted=digits(mark.accepted), n=digits(mark.n), m=digits(mark.m),
                       messages=b''.join(sized(message.bytes()) for message in mark.messages[:mark.m]))
        rows.append(row)
    return rows


def text_of(rows):
    """The text of rows."""
    return b''.join(b''.join(row.values()) + b'\n' for row in rows)


def value(row, name):
    """The number that an item has."""
    return int(row[name], 16)


def before(rows):
    """The rows of the numbers before the base."""
    return rows[1:1 + BEFORE]


def ahead(rows):
    """The rows of the numbers from the base on."""
    return rows[1 + BEFORE:]


def in_state(rows, *states):
    """The rows whose number has one of the states."""
    return [row for row in rows if value(row, 'state') in states]


def limit(rows):
    """The limit of the rows' edition."""
    return LIMITS[value(rows[0], 'edition')]


def fits(session, edition):
    """Whether an edition can hold a session: no packet and no message is over its limit."""
    longest = max([place.length for place in session.places] + [message.length for mark in session.marks for message in mark.messages])
    return longest <= LIMITS[edition]


# Damages that are met with 20: each changes rows, or the text that they have.


def state_over(r, rows):
    """A state over 4."""
    r.choice(rows[1:])['state'] = digits(r.choice((5, 5, 6, 132, 255)))


def accepted_over(r, rows):
    """Accepted over 01."""
    one(r, in_state(ahead(rows), *r.choice((KNOWN, KNOWN, (UNKNOWN,)))))['accepted'] = r.choice((b'02', b'02', b'02', b'03', b'81', b'FF'))


def n_over(r, rows):
    """n over 8, with messages and without."""
    r.choice(ahead(rows))['n'] = digits(r.choice((N_LIMIT + 1, N_LIMIT + 1, 16, 129, 255)))


def m_over(r, rows):
    """m over 4, with as many messages, or four."""
    m = r.choice((M_LIMIT + 1, M_LIMIT + 1, 6, 8, 132, 255))
    r.choice(ahead(rows)).update(n=digits(r.randrange(1, N_LIMIT + 1)), m=digits(m),
                                messages=r.choice((m, M_LIMIT)) * b'00')


def too_long(r, rows):
    """A packet over the limit, its octets there."""
    r.choice(rows[1:])['packet'] = sized(pieces.octets(r, r.choice((limit(rows) + 1, limit(rows) + 1, 257, 400))))


def message_too_long(r, rows):
    """A message over the limit, its octets there."""
    row = one(r, [row for row in ahead(rows) if value(row, 'accepted')])
    row.update(n=b'01', m=b'01', messages=sized(pieces.octets(r, r.choice((limit(rows) + 1, limit(rows) + 1, 257, 400)))))


def length_form(r, rows):
    """A packet's length in a form not allowed."""
    row = r.choice(rows[1:])
    row['packet'] = r.choice(WRONG_FORMS) + row['packet'][2:]


def message_form(r, rows):
    """A message's length in a form not allowed."""
    row = one(r, [row for row in ahead(rows) if value(row, 'm')])
    row['messages'] = r.choice(WRONG_FORMS) + row['messages'][2:]


def two_octets(r, rows):
    """A length below 128 in two octets."""
    row = one(r, [row for row in rows[1:] if value(row, 'state') in KNOWN and row['packet'][:1] < b'8'])
    row['packet'] = b'80' + row['packet']


def accepted_before(r, rows):
    """Accepted before the base."""
    one(r, in_state(before(rows), *r.choice((KNOWN, (UNKNOWN,), (BLANK,)))))['accepted'] = b'01'


def n_before(r, rows):
    """n before the base."""
    r.choice(before(rows))['n'] = digits(r.choice((1, N_LIMIT)))


def m_before(r, rows):
    """m before the base, with its messages, with n or without, accepted or not."""
    m = r.randrange(1, M_LIMIT + 1)
    r.choice(before(rows)).update(accepted=r.choice((b'00', b'01')), n=r.choice((b'00', b'01')), m=digits(m), messages=m * b'00')


def octets_missing(r, rows):
    """A row ends early, within its items or before them all."""
    row = r.choice(rows)
    name = r.choice([name for name in row if name != 'messages' or row[name]])
    cut = 2 * r.randrange(len(row[name]) // 2)
    row[name] = row[name][:cut]
    for behind in list(row)[list(row).index(name) + 1:]:
        row[behind] = b''


def octets_left(r, rows):
    """A row goes on."""
    row = r.choice(rows)
    row[list(row)[-1]] += r.choice((b'00', b'00', b'01', b'0000', b'FF', b'06'))


def message_more(r, rows):
    """A message more than m."""
    r.choice(rows[1:])['messages'] += r.choice((b'00', b'0106'))


def line_missing(r, text):
    """A line is missing."""
    lines = text.splitlines(True)
    at = r.choice((0, 1, 33, 64, r.randrange(65)))
    return b''.join(lines[:at] + lines[at + r.choice((1, 1, 2, 64)):])


def line_extra(r, text):
    """A line more: empty, the one before it again, another."""
    lines = text.splitlines(True)
    at = r.choice((0, 0, 1, 33, 65, 65, r.randrange(66)))
    return b''.join(lines[:at] + [r.choice((b'\n', b'\n', b'\n', lines[at - 1], b'00\n', b'0' * 14 + b'\n'))] + lines[at:])


def not_ended(r, text):
    """The last line has no line feed, or something follows it."""
    return r.choice((text[:-1], text[:-1], text[:-1] + b'\r', text[:-2], text[:-3] + b'\n', text + r.choice((b'0', b'00', b' ', b'\x00'))))


def carriage_return(r, text):
    """A carriage return before one line feed, or before each."""
    lines = text.splitlines(True)
    at = r.randrange(65)
    lines[at] = lines[at][:-1] + b'\r\n'
    return r.choice((b''.join(lines), text.replace(b'\n', b'\r\n'), text.replace(b'\n', b'\r')))


def lower_case(r, text):
    """One letter is small, or all are."""
    places = [at for at, octet in enumerate(text) if octet in b'ABCDEF']
    at = one(r, places)
    return r.choice((text[:at] + text[at:at + 1].lower() + text[at + 1:], text.lower()))


def no_digit(r, text):
    """Another character in place of one."""
    at = r.randrange(len(text) - 1)
    return text[:at] + r.choice(NO_DIGITS[:-1] + NO_DIGITS[-1:] * (text[at] != 10)) + text[at + 1:]


def odd_digits(r, text):
    """A digit more or less in a line, or a space more."""
    lines = text.splitlines(True)
    at = r.randrange(65)
    place = r.randrange(len(lines[at]) - 1)
    front, back = lines[at][:place], lines[at][place:]
    return b''.join(lines[:at] + [front + r.choice((b'0' + back, b'F' + back, b' ' + back, back[1:]))] + lines[at + 1:])


# Damages that are met with 17: every line has its shape, but they are no session's.


def base_off(r, rows):
    """Base is not the sum of counts."""
    rows[0]['base'] = digits((value(rows[0], 'base') + r.choice((1, 32, 64, 64, 65536 - 64, 256, 32768, 65535))) % 65536, 2)


def count_off(r, rows):
    """A count is another, and base unchanged."""
    name = r.choice(COUNTS)
    rows[0][name] = digits((value(rows[0], name) + r.choice((1, 256, 1 << 24, 1 << 31, 0xFFFFFFFF))) % (1 << 32), 4)


def sum_too_great(r, rows):
    """The sum passes 1,000,000, and base is the sum modulo 65,536."""
    name = r.choice(COUNTS)
    past = (NUMBERS_LIMIT - sum(value(rows[0], count) for count in COUNTS)) // 65536 + 1
    rows[0][name] = digits(value(rows[0], name) + 65536 * (past + r.choice((0, 0, 1, 1000))), 4)


def sum_wraps(r, rows):
    """The sum is the base only if sums wrap at 32 bits."""
    for name in r.sample(COUNTS, 2):
        rows[0][name] = digits(value(rows[0], name) + (1 << 31), 4)


def not_blank(r, rows):
    """A number before the first is unknown or known."""
    row = one(r, in_state(before(rows), BLANK))
    row.update(r.choice((dict(state=digits(UNKNOWN)), dict(state=digits(r.choice((SPARE, REPAIRED))), packet=b'0106'))))


def blank(r, rows):
    """A number after the first is blank."""
    one(r, in_state(rows[1:], UNKNOWN))['state'] = digits(BLANK)


def packet_where_none(r, rows):
    """Unknown or blank has a packet."""
    one(r, in_state(rows[1:], UNKNOWN, BLANK))['packet'] = sized(pieces.octets(r, r.choice((1, 2, limit(rows)))))


def no_packet(r, rows):
    """A known number has no packet."""
    one(r, in_state(rows[1:], *KNOWN))['packet'] = b'00'


def note_of_received(r, rows):
    """A received number's note is not its own."""
    row = one(r, in_state(rows[1:], RECEIVED))
    row['note'] = digits((value(row, 'note') + r.choice((1, 64, 256, 32768, 65535))) % 65536, 2)


def note_where_none(r, rows):
    """Unknown or blank has a note."""
    one(r, in_state(rows[1:], r.choice((UNKNOWN, BLANK))))['note'] = digits(r.choice((1, 255, 256, 65535)), 2)


def accepted_unknown(r, rows):
    """Unknown and accepted."""
    one(r, in_state(ahead(rows), UNKNOWN))['accepted'] = b'01'


def messages_unaccepted(r, rows):
    """Messages at a number that is not accepted, known or not."""
    row = one(r, [row for row in ahead(rows) if not value(row, 'accepted')])
    m = r.randrange(1, M_LIMIT + 1)
    row.update(n=digits(r.randrange(1, N_LIMIT + 1)), m=digits(m), messages=m * r.choice((b'00', b'0101')))


def n_without_m(r, rows):
    """n without m, accepted or not."""
    one(r, [row for row in ahead(rows) if not value(row, 'm')])['n'] = digits(r.randrange(1, N_LIMIT + 1))


def m_without_n(r, rows):
    """m without n."""
    row = one(r, [row for row in ahead(rows) if value(row, 'accepted')])
    row['n'] = b'00'
    if not value(row, 'm'):
        row.update(m=b'01', messages=b'00')


# Changes that leave an image of another session.


def another_note(r, rows):
    """A spare or repaired number has another note."""
    one(r, in_state(rows[1:], SPARE, REPAIRED))['note'] = digits(r.choice((0, 1, 65535, r.randrange(65536))), 2)


def another_kind(r, rows):
    """Received becomes spare or repaired."""
    one(r, in_state(rows[1:], RECEIVED))['state'] = digits(r.choice((SPARE, REPAIRED)))


def another_packet(r, rows):
    """A known number has another packet, of any length up to the limit."""
    one(r, in_state(rows[1:], *KNOWN))['packet'] = sized(pieces.octets(r, r.choice((1, 2, 127, 128, limit(rows) - 1, limit(rows)))))


def known_before(r, rows):
    """An unknown number before the base becomes known."""
    one(r, in_state(before(rows), UNKNOWN)).update(state=digits(r.choice((SPARE, REPAIRED))), packet=b'0106')


def acceptance_off(r, rows):
    """An accepted number without messages is no more accepted, or the other way round."""
    row = one(r, [row for row in in_state(ahead(rows), *KNOWN) if not value(row, 'm')])
    row['accepted'] = digits(1 - value(row, 'accepted'))


def other_messages(r, rows):
    """An accepted number has other messages, up to the limit and empty ones too."""
    row, m = one(r, [row for row in ahead(rows) if value(row, 'accepted')]), r.choice((1, 2, M_LIMIT, M_LIMIT))
    lengths = [r.choice((0, 1, 2, 127, 128, limit(rows) - 1, limit(rows))) for _ in range(m)]
    row.update(n=digits(r.choice((1, 2, N_LIMIT))), m=digits(m), messages=b''.join(sized(pieces.octets(r, length)) for length in lengths))


def counts_moved(r, rows):
    """A number more in one count, and one less in another."""
    name, other = r.choice([name for name in COUNTS if value(rows[0], name)] or COUNTS), r.choice(COUNTS)
    if value(rows[0], name):
        rows[0][name] = digits(value(rows[0], name) - 1, 4)
        rows[0][other] = digits(value(rows[0], other) + 1, 4)


BY_ROWS = (state_over, accepted_over, n_over, m_over, too_long, message_too_long, length_form, message_form, two_octets,
           accepted_before, n_before, m_before, octets_missing, octets_left, message_more)
BY_TEXT = (line_missing, line_extra, not_ended, carriage_return, lower_case, no_digit, odd_digits)
NO_SESSION = (base_off, count_off, sum_too_great, sum_wraps, not_blank, blank, packet_where_none, no_packet, note_of_received,
              note_where_none, accepted_unknown, messages_unaccepted, n_without_m, m_without_n)
ANOTHER = (another_note, another_kind, another_packet, known_before, acceptance_off, other_messages, counts_moved)


def any_edition(script):
    """The rows of the session that is held, in an edition that can hold it."""
    return rows_of(script.receiving, script.random.choice([edition for edition in LIMITS if fits(script.receiving, edition)]))


def changed(script, *changes):
    """The image of the session that is held, with changes; None if there is nothing that they could change."""
    rows = any_edition(script)
    try:
        for change in changes:
            if change not in BY_TEXT:
                change(script.random, rows)
        text = text_of(rows)
        for change in changes:
            if change in BY_TEXT:
                text = change(script.random, text)
    except LookupError:
        return None
    return text


def misshapen_as(text):
    """What a misshapen text is met with: 21 if it begins with an octet that is no edition, else 20."""
    return OTHER_EDITION if re.match(b'[0-9A-F]{2}', text) and int(text[:2], 16) not in LIMITS else MISSHAPEN


def restore(script, text, number=None):
    """19, which is met with the refusal of this number, or done."""
    answer = script.restore(text)
    if number is None:
        assert answer == DONE, 'answered %s, and the items say a session' % answer.hex()
    else:
        met(answer, Refusal(number))


def image(script):
    """18 with exactly the room: the image, which must be the one that the rows have."""
    text = text_of(rows_of(script.receiving))
    answer = script.image(len(text))
    assert answer == DONE + shown(len(text), 4) + text, 'answered %s, and the rows have %s' % (answer.hex(), text)
    return text


def any_session(script):
    """A session of some kind: fresh, with a bit of everything, after an honest sender, or with datagrams of every size."""
    r, choice = script.random, script.random.random()
    if choice < 0.2:
        script.call(0x10)
    elif choice < 0.6:
        furnish(script)
    else:
        sender = begin(script, 24)
        settings = r.choice(((SPARES, r.randrange(1, 9), 0), (PARITY, r.randrange(1, 5), r.randrange(1, 5))))
        for octets in [send(script, sender, settings) for _ in range(r.choice((8, 16, 24)))]:
            if not script.chance(0.35):
                script.offer(octets)
        for _ in range(r.randrange(12)):
            script.give_up(PACKET_LIMIT)


def crowd(script):
    """Two rounds of 32 numbers, with long packets and messages: the greatest image that there is, or one not far below."""
    r = script.random
    script.call(0x16, shown(r.choice((0, 65530, NUMBERS_LIMIT - AFTER)), 4))
    size = r.choice((PACKET_LIMIT, PACKET_LIMIT, LIMITS[1], 128))
    for first in (True, False):
        for at in range(AFTER):
            octets = [pieces.octets(r, size) for _ in range(1 + M_LIMIT)]
            number = (script.receiving.base + at) % 65536
            script.offer(written_datagram(Datagram(number, octets[0], PARITY, N_LIMIT, tuple(octets[1:]))))
        for _ in range(AFTER * first):
            script.next(PACKET_LIMIT)


def try_restored(script):
    """The session that is held goes on: offers, releases, and what it then holds."""
    for _ in range(script.random.choice((1, 2))):
        try_all(script, 0.3)


def written(script):
    """A session written with room near the size; it stays unchanged."""
    r = script.random
    any_session(script)
    size = len(text_of(rows_of(script.receiving)))
    for cap in r.sample((0, 1, size // 2, size - 1, size - 1, size, size, size + 1, size + 40), 3):
        script.image(cap)
    script.look(0.3)
    try_restored(script)


def read_back(script):
    """An image of either edition read back into another session: it is the same session again, has the same image, and goes on."""
    any_session(script)
    image(script)
    text, same = text_of(any_edition(script)), text_of(rows_of(script.receiving))
    if script.chance(0.7):
        any_session(script)
    restore(script, text)
    script.look(0.5)
    assert image(script) == same
    try_restored(script)


def great(script):
    """The greatest image of an edition, written and read back."""
    crowd(script)
    text = image(script)
    script.image(len(text) - 1)
    text = text_of(any_edition(script))
    script.call(0x10)
    restore(script, text)
    script.look()
    try_restored(script)


def handed_over(script):
    """An honest sender, heard by one adapter after the other; now and then an earlier image is restored, and all is heard again."""
    r = script.random
    sender = begin(script, 24)
    settings = r.choice(((SPARES, r.randrange(1, 9), 0), (PARITY, r.randrange(1, 5), r.randrange(1, 5))))
    datagrams = [send(script, sender, settings) for _ in range(24)]
    kept, at = [], 0
    while at < len(datagrams):
        if not script.chance(0.3):
            script.offer(datagrams[at])
        at += 1
        if script.chance(0.3):
            script.next(PACKET_LIMIT, script.chance(0.3))
        if script.chance(0.2):
            kept.append((image(script), at))
            if script.chance(0.5):
                script.call(0x10)
            text, again = r.choice(kept) if script.chance(0.2) else kept[-1]
            restore(script, text)
            at = max(again, at - 6)
    script.look()


def misshapen(script):
    """Images with a line missing, extra or misshapen: 20, and the session that is held stays."""
    r = script.random
    any_session(script)
    for damage in r.sample(2 * BY_ROWS + 4 * BY_TEXT, 24):
        text = changed(script, damage)
        if text is not None:
            restore(script, text, misshapen_as(text))
            script.look(0.05)
    image(script)
    try_restored(script)


def no_session(script):
    """Images whose lines have their shape, but are no session's: 17; with a misshapen line too, before it or behind, 20."""
    r = script.random
    any_session(script)
    for damage in r.sample(NO_SESSION, len(NO_SESSION)):
        text = changed(script, damage)
        if text is not None:
            restore(script, text, RANGES)
            text = changed(script, damage, r.choice(BY_ROWS + BY_TEXT))
            if text is not None:
                restore(script, text, misshapen_as(text))
            script.look(0.05)
    image(script)
    try_restored(script)


def another(script):
    """Images that have become those of other sessions, which go on."""
    r = script.random
    any_session(script)
    for change in r.sample(ANOTHER, 4):
        text = changed(script, change)
        if text is not None:
            restore(script, text)
            assert image(script)[2:] == text[2:]
            try_restored(script)


def no_edition(script):
    """Images of no edition, whole or damaged behind that octet, and their first octets: 21; then the same image in both editions."""
    r = script.random
    any_session(script)
    for _ in range(8):
        text = changed(script, *r.choice(((), (r.choice(BY_ROWS),), (r.choice(NO_SESSION),), (r.choice(NO_SESSION), r.choice(BY_ROWS)))))
        if text is not None:
            edition = r.choice(NO_EDITIONS)
            damage = r.choice((line_missing, line_extra, not_ended, carriage_return, no_digit, odd_digits))
            text = r.choice((text, damage(r, text), damage(r, text), text[:r.randrange(2, len(text))], text[:2]))
            restore(script, edition + text[2:], OTHER_EDITION)
            script.look(0.05)
    text = changed(script, r.choice((too_long, another_packet, message_too_long, other_messages)))
    for edition in LIMITS:
        if text is not None:
            script.restore(digits(edition) + text[2:])
    image(script)
    try_restored(script)


def moved(script):
    """Lines in another order, a length one off, digits that are others: whatever they then are."""
    r = script.random
    any_session(script)
    lines = text_of(rows_of(script.receiving)).splitlines(True)
    for _ in range(3):
        one_line, other = r.sample(range(1, 65), 2)
        lines[one_line], lines[other] = lines[other], lines[one_line]
        script.restore(b''.join(lines))
        lines[one_line], lines[other] = lines[other], lines[one_line]
    for _ in range(6):
        at = r.randrange(65)
        place = r.randrange(len(lines[at]) - 1)
        digit = b'%X' % r.choice((0, 1, 2, 4, 8, 15, r.randrange(16)))
        script.restore(b''.join(lines[:at] + [lines[at][:place] + digit + lines[at][place + 1:]] + lines[at + 1:]))
    image(script)


def texts(script):
    """Short texts that are no images, and lines that are no calls."""
    r = script.random
    for text in r.sample(TEXTS, 12):
        restore(script, text, misshapen_as(text))
    odd = [b'18', b'1800', b'180000', b'18000000', b'1800000000', b'180000000000', b'1800000005FF', b'180001D4C1', b'18FFFFFFFF', b'19',
           b'190', b'1901', b'190A', b'193031', b'19 ', b'1B', b'1C']
    for line in r.sample(odd, 9):
        script.line(line)
    if script.chance(0.2):
        script.line(b'180001D4C0')


def every_octet(script):
    """An image with numbers of every state and messages, each of its octets changed in turn; what is restored is shown."""
    script.call(0x10)
    for octets in ('000001060000', '00020100000106C00180000055'):
        script.offer(bytes.fromhex(octets))
    script.next()
    script.next()
    for octets in ('0005014180010201' + '0105', '0006014280010202' + '010600'):
        script.offer(bytes.fromhex(octets))
    text = image(script)
    for at, octet in enumerate(text):
        digit = b'0' if octet == 10 else b'%X' % ((int(text[at:at + 1], 16) + 1) % 16)
        if script.restore(text[:at] + digit + text[at + 1:]) == DONE:
            script.image(len(text))

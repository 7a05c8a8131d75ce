"""Scenes for the places of refusals (rules 2.27 to 2.29): each item of a datagram or packet is cut or made wrong in turn.

The row of items decides which refusal is met, and at which octet its item begins. Making the script stops if the answer is another."""

from independent.arguments import shown
from independent.datagrams import DATAGRAM_LIMIT, PARITY
from independent.editions import EDITIONS, INDICATOR, WITH_DATA, WITHOUT_DATA
from independent.lengths import written_length
from independent.packets import PACKET_LIMIT, in_bits, written_value
from independent.refusals import DATA, ENDS, FORM, LEFT_OVER, NOT_ASSIGNED, SIZE, SPARE_BIT, Refusal

from . import pieces
from .packed import packet_in_runs

WRONG_FORMS = (b'\xC0', b'\xFF', b'\x80\x00', b'\x80\x7F')
TOO_LONG = written_length(PACKET_LIMIT + 1)
FIRST_TOO_LONG = shown(PACKET_LIMIT, 2)  # where a length minus one is
UNASSIGNED_KIND = '1101001'  # data 9, in either edition


def placed(row):
    """A row of items as triples: role, bits, and how many bits come before."""
    at = 0
    for role, item in row:
        yield role, item, at
        at += len(item)


def cut(row, length):
    """The first octets of a row, and what is met there: 1 at the item that does not end within them."""
    begins = next(at for _, item, at in placed(row) if at + len(item) > 8 * length)
    return pieces.octets_of(pieces.joined(row))[:length], Refusal(ENDS, begins // 8)


def with_wrong(row, at, wrong, number):
    """The octets of a row with other bits for an item, and what is met there: the refusal of this number at its first octet."""
    before = pieces.joined(row[:at])
    return pieces.octets_of(before + wrong + pieces.joined(row[at + 1:])), Refusal(number, len(before) // 8)


def wrong_in_datagram(r, row, at, most):
    """Wrong octets for an item of a datagram, and the refusal's number. A count may be so many."""
    role = row[at][0]
    if role == 'length':
        count = sum(other == 'length' for other, _ in row[:at]) == 1
        too_great = bytes([r.choice((most + 1, 0x7F))]) if count else TOO_LONG
        return r.choice(((r.choice(WRONG_FORMS), FORM), (r.choice((too_great, b'\xBF\xFF')), SIZE)))
    if role == 'kind':
        return bytes([int(row[at][1], 2) | r.choice((0x01, 0x40, 0x7F))]), SPARE_BIT
    return bytes([r.choice((0, 2, 0x81) if role == 'one' else (0, 9, 0x80, 0xFF))]), SIZE


def wrong_in_packet(r, named, row, at):
    """Wrong bits for an item of a packet of an edition, and the refusal's number."""
    role, item = row[at]
    values, types = EDITIONS[named]
    if role == 'first':
        indicator = '10' + written_value(pieces.assigned(r, values[INDICATOR]), values[INDICATOR])
        indicator += '0' * (-len(indicator) % 8)
        added = item[:2] + not_assigned(r, values[int(item[1])])
        return r.choice(((UNASSIGNED_KIND, NOT_ASSIGNED), (indicator, DATA), (added, NOT_ASSIGNED)))
    if role == 'header':
        field_type, has_data = r.choice([(one, one in WITHOUT_DATA) for one in WITHOUT_DATA + WITH_DATA if one <= types.last])
        wrong = pieces.header(types, field_type, has_data), DATA
        return r.choice((wrong, (r.choice('01') + not_assigned(r, types), NOT_ASSIGNED))) if types.extended else wrong
    if role == 'padding':
        return '{:0{}b}'.format(r.randrange(1, 1 << len(item)), len(item)), SPARE_BIT
    octets, number = {'count': r.choice(((r.choice(WRONG_FORMS), FORM), (r.choice((b'\x00', b'\x11', b'\x80\x80')), SIZE))),
                      'size': (r.choice((FIRST_TOO_LONG, b'\xFF\xFF')), SIZE)}[role]
    return in_bits(octets), number


def not_assigned(r, values):
    """The bits of an added value that is none: in the old edition any, else with a one in place of the zero, or past the last."""
    last = values.last - values.last_of_root
    return r.choice(('11' + '{:06b}'.format(r.randrange(64)), '10{:06b}'.format(r.choice((last, last + 1, r.randrange(last, 64), 63)))))


def met(answer, refusal):
    """The answer is the refusal that the row gives."""
    assert answer == refusal.octets(), 'answered %s, and the items say %s' % (answer.hex(), refusal.octets().hex())


def datagrams(script):
    """Datagrams cut anywhere, wrong in one item, and going on; read and offered."""
    r = script.random
    script.call(0x10)
    for _ in range(3):
        given = pieces.datagram(r, r.randrange(32), 0.9)
        row = pieces.datagram_items(given)
        whole = pieces.octets_of(pieces.joined(row))
        tries = [cut(row, length) for length in r.sample(range(len(whole)), min(len(whole), 4))]
        places = [at for at, (role, _) in enumerate(row) if role not in ('number', 'octets')]
        for at in r.sample(places, min(len(places), 4)):
            octets, number = wrong_in_datagram(r, row, at, 4 if given.kind == PARITY else 8)
            tries.append(with_wrong(row, at, in_bits(octets), number))
        tries.append((whole + r.choice((b'\x00', b'\x01', bytes(9))), Refusal(LEFT_OVER, len(whole))))
        for octets, refusal in tries:
            if len(octets) <= DATAGRAM_LIMIT:
                met(script.call(0x03, octets), refusal)
                if script.chance(0.5):
                    met(script.offer(octets), refusal)


def packets(script):
    """The same of packets of each edition, read by both readers; a repaired one that goes on does so with zeros first."""
    r = script.random
    for _ in range(4):
        named = pieces.edition(r)
        row = pieces.packet_items(named, r.choice((packet_in_runs(r, named), packet_in_runs(r, named), pieces.packet(r, named))))
        whole = pieces.octets_of(pieces.joined(row))
        tries = [cut(row, length) for length in r.sample(range(len(whole)), min(len(whole), 3))]
        places = [at for at, (role, _) in enumerate(row) if role != 'octets']
        for at in r.sample(places, min(len(places), 4)):
            tries.append(with_wrong(row, at, *wrong_in_packet(r, named, row, at)))
        tries.append((whole + bytes(r.choice((0, 0, 1, 5))) + b'\x01', Refusal(LEFT_OVER, len(whole))))
        for octets, refusal in tries:
            if len(octets) <= PACKET_LIMIT:
                met(script.read(named, octets, r.randrange(2)), refusal)

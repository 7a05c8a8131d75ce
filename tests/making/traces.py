"""Scenes for two traces compared (rules 22.1 to 22.16): one made from the other by changes, long ones, and ones that do not read.

Where each number comes once, the changes decide every entry, and making the script stops if the answer has others."""

from independent.arguments import shown, sized
from independent.comparing import FIRST_ALONE, LINES_LIMIT, PACKET, PARITY_DIFFERS, SECOND_ALONE, SPARES_DIFFER, compare
from independent.datagrams import DATAGRAM_LIMIT, M_LIMIT, N_LIMIT, PARITY, SPARES, SPARES_LIMIT, read_datagram, written_datagram
from independent.program import LINE_LIMIT, octets_of
from independent.refusals import Refusal
from independent.sending import Sending

from . import pieces
from .lines import record

ENOUGH = 2600
EDGES = (b'', b'\n', b'\n\n', b'000001060000', b'000001060000\n', b'\n000001060000', b'000001060000\n\n', b'000001060000\n000001060000',
         b'000001060000\n000001070000\n', b'0000010680010101010A\n', b'000001068001010100\n', b'0000010600010107\n', b'0000010600020107\n',
         b'000101060000\n', b'010001060000\n', b'00000106000a\n', b'0000010600\r\n', b'000001060000 \n', b'00000106000\n', b'g',
         b'000001060000'.ljust(LINE_LIMIT + 1, b'0'), b'0' * LINE_LIMIT)


def call(script, first, second, cap):
    """50."""
    return script.call(0x50, sized(first, 4), sized(second, 4), shown(cap, 2))


def joined(r, lines):
    """Lines as a trace; the last may be without a line feed."""
    return b'\n'.join(lines) + r.choice((b'\n', b'\n', b'')) if lines else b''


def compared(script, firsts, seconds, expected=None):
    """Two traces compared both ways, with room near what the entries need; the other way 1 and 2 are exchanged, and no more."""
    r = script.random
    first, second = joined(r, firsts), joined(r, seconds)
    try:
        there, back = compare(first, second, ENOUGH), compare(second, first, ENOUGH)
    except Refusal:
        there = back = []
    exchanged = {FIRST_ALONE: SECOND_ALONE, SECOND_ALONE: FIRST_ALONE}
    assert sorted(there) == sorted((number, exchanged.get(what, what)) for number, what in back), 'not the same the other way'
    assert expected is None or expected == there, 'the entries are %s, and the changes give %s' % (there, expected)
    size = 2 * len(there)
    for cap in r.sample((size, size, size + 1, size + 5, size - 1, size - 1, size - 2, size // 2, 0, ENOUGH), 2):
        call(script, first, second, min(ENOUGH, max(0, cap)))
    if script.chance(0.5):
        call(script, second, first, min(ENOUGH, size))


def line_of(r, given):
    """A datagram's line, in either case."""
    text = written_datagram(given).hex().encode()
    return text if r.random() < 0.2 else text.upper()


def sent(r, count, numbers=None):
    """So many datagrams of an honest sender, or with these numbers; now and then its settings change."""
    sender, given = Sending(), []
    for at in range(count):
        parity = PARITY, r.randrange(1, N_LIMIT + 1), r.randrange(1, M_LIMIT + 1)
        settings = r.choice(((SPARES, r.randrange(SPARES_LIMIT + 1), 0), parity))
        one = read_datagram(sender.send(pieces.opaque(r, 1.0), *settings, DATAGRAM_LIMIT))
        given.append(one if numbers is None else one._replace(number=numbers[at]))
    return given


def other_octets(r, given):
    """Octets that differ in one place, are one more or one less; never none."""
    at = r.randrange(len(given)) if given else 0
    ways = [given[:at] + bytes([given[at] ^ 1 << r.randrange(8)]) + given[at + 1:]] if given else []
    return r.choice(ways + [given + b'\x00'] + ([given[:-1]] if len(given) > 1 else []))


def other_items(r, given):
    """A datagram with other spares or messages, and with it which differ: one changed, one more or less, another n, the other kind."""
    items, ways = list(given.items), ['kind']
    most = SPARES_LIMIT if given.kind == SPARES else M_LIMIT
    ways += ['change', 'change'] * bool(items) + ['more'] * (len(items) < most) + ['less'] * (len(items) > (given.kind == PARITY))
    ways += ['n'] * (given.kind == PARITY) + ['order'] * (len(set(items)) > 1)
    way = r.choice(ways)
    what = [SPARES_DIFFER] if given.kind == SPARES else [PARITY_DIFFERS]
    if way == 'kind':
        other = given._replace(kind=PARITY, n=1, items=tuple(items[:M_LIMIT]) or (r.choice((b'', b'\x01')),))
        if given.kind == PARITY:
            other = given._replace(kind=SPARES, n=0, items=tuple(item or b'\x01' for item in items))
        return other, [SPARES_DIFFER, PARITY_DIFFERS]
    if way == 'n':
        return given._replace(n=given.n % N_LIMIT + 1), what
    at = r.randrange(len(items)) if items else 0
    if way == 'change':
        items[at] = other_octets(r, items[at])
    elif way == 'more':
        items.insert(r.randrange(len(items) + 1), pieces.octets(r, r.choice((1, 2))) if given.kind == SPARES else r.choice((b'', b'\x01')))
    elif way == 'less':
        del items[at]
    else:
        items = items[1:] + items[:1] if len(set(items)) > 1 else items
    changed = given._replace(items=tuple(items))
    return changed, what if changed != given else []


def altered(r, given):
    """A datagram with the same number and something else, or nothing, and what differs."""
    what = []
    if r.random() < 0.6:
        given, what = given._replace(packet=other_octets(r, given.packet)), [PACKET]
    if r.random() < 0.6:
        given, more = other_items(r, given)
        what = what + more
    return given, what


def once(script):
    """Each number once: some dropped, some more, some altered; perhaps in another order, with empty lines between. All entries are known."""
    r = script.random
    count = r.choice((0, 1, 2, 5, 12, 30))
    numbers = r.sample(r.choice((range(65536), range(64), [256 * one for one in range(256)])), count)
    both = [(one, altered(r, one) if r.random() < 0.5 else (one, [])) for one in sent(r, count, r.choice((None, numbers, numbers)))]
    lacks = {at: r.choice((FIRST_ALONE, SECOND_ALONE)) for at in range(count) if r.random() < r.choice((0, 0.1, 0.5))}
    firsts = [at for at in range(count) if lacks.get(at) != SECOND_ALONE]
    seconds = [at for at in range(count) if lacks.get(at) != FIRST_ALONE]
    if script.chance(0.5):
        r.shuffle(seconds)
    if script.chance(0.3):
        r.shuffle(firsts)
    entries = [(both[at][0].number, what) for at in firsts for what in ([FIRST_ALONE] if at in lacks else both[at][1][1])]
    entries += [(both[at][0].number, SECOND_ALONE) for at in seconds if at in lacks]
    compared(script, with_empty(r, [line_of(r, both[at][0]) for at in firsts]),
             with_empty(r, [line_of(r, both[at][1][0]) for at in seconds]), entries)


def with_empty(r, lines):
    """Lines with empty ones between, now and then."""
    return [line for one in lines for line in r.choice(([one], [one], [b'', one], [one, b'', b'']))] if r.random() < 0.4 else lines


def repeated(script):
    """Few numbers, each several times, in both traces: alike, altered, in another order, some left out."""
    r = script.random
    numbers = [r.choice((0, 1, 2, 255, 256, 65535)[:r.choice((1, 2, 6))]) for _ in range(r.choice((2, 5, 12)))]
    given = sent(r, len(numbers), numbers)
    if script.chance(0.5):
        given = [r.choice(given) for _ in given]
    other = [altered(r, one)[0] if r.random() < 0.3 else one for one in given if r.random() < 0.8]
    if script.chance(0.5):
        r.shuffle(other)
    compared(script, with_empty(r, [line_of(r, one) for one in given]), with_empty(r, [line_of(r, one) for one in other]))


def recorded(script):
    """A recorded trace, its unreadable lines left out or, now and then, left in, against what is left of it."""
    r = script.random
    lines = [line for line in record(str(r.random()), r.choice((8, 20))).lines if len(line) <= LINE_LIMIT + 2]
    if script.chance(0.8):
        lines = [line for line in lines if reads(line)]
    other = [r.choice((line, line, line, line.lower())) for line in lines if r.random() < r.choice((1, 0.9))]
    compared(script, lines, other, [] if other == lines and all(map(reads, lines)) else None)


def reads(line):
    """Whether a line is empty or has a datagram."""
    try:
        return not line or bool(read_datagram(octets_of(line)))
    except Refusal:
        return False


def unreadable(script):
    """Lines that do not read in one trace or both, before and behind others, with empty lines counted."""
    r = script.random
    for _ in range(3):
        traces = []
        for _ in range(2):
            lines = [line_of(r, one) for one in sent(r, r.choice((1, 3)))]
            for _ in range(r.choice((0, 1, 1, 2))):
                wrong = r.choice((b'0', b'zz', b'0000', b'0000C0', b'00000106000000', b'000001060000 ', b'0' * (LINE_LIMIT + 1)))
                if script.chance(0.6):
                    wrong = pieces.damaged_datagram(r, r.randrange(4)).hex().encode()
                lines.insert(r.randrange(len(lines) + 1), wrong)
            traces.append(joined(r, with_empty(r, lines)))
        call(script, *traces, r.choice((0, 2, 100)))


def long_ones(script):
    """Traces of 511 to 513 lines, empty ones or not, of one number, of many; behind them what does not read."""
    for _ in range(2):
        one_long(script, script.random.choice(('empty', 'one', 'many', 'mixed')))


def one_long(script, kind):
    """One pair of them."""
    r = script.random
    made = {'empty': lambda at: b'', 'one': lambda at: b'000701060000', 'many': lambda at: b'%04X01060000' % (7 * at),
            'mixed': lambda at: b'%04X01%02X0000' % (at % 9, at % 2) if at % 5 else b''}[kind]
    counts = (LINES_LIMIT - 1, LINES_LIMIT, LINES_LIMIT, LINES_LIMIT + 1, LINES_LIMIT + 1, 1, 0)
    traces = [[made(at) for at in range(count)] for count in r.sample(counts, 2)]
    for lines in traces:
        if script.chance(0.5) and lines:
            lines[r.choice((0, -1))] = b'00'
        if script.chance(0.2) and kind != 'empty':
            lines[:] = lines[1:] + lines[:1]
    call(script, *(joined(r, lines) for lines in traces), r.choice((0, 2, 100, 1024, 2048, 2600)))


def edges(script):
    """Traces of a line or two, or none, good and bad."""
    r = script.random
    for _ in range(5):
        call(script, r.choice(EDGES), r.choice(EDGES), r.choice((0, 1, 2, 3, 4, 6, 9)))


def no_calls(script):
    """Arguments that end early or go on, and caps near the greatest."""
    r = script.random
    whole = b'50' + b'00000001' + b'0A' + b'00000000' + b'0002'
    for line in r.sample([whole, whole[:-2], whole[:-4], whole + b'00', whole[:2], whole[:9], whole[:12], b'50000000' + whole[12:],
                          b'50FFFFFFFF' + whole[10:], whole[:-4] + b'0A28', whole[:-4] + b'0A29', whole[:-4] + b'FFFF', b'51', b'4F',
                          whole[:12] + b'00000003' + whole[20:]], 6):
        script.line(line)

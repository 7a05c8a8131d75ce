"""Real packets: where they are, how they are sent over a bad line, and how the answers to a script are checked."""

import re

from independent.arguments import shown, sized
from independent.datagrams import PARITY, SPARES, read_datagram
from independent.editions import OLD
from independent.packets import PACKET_LIMIT, read_packet
from independent.receiving import AFTER, UNKNOWN
from making.script import UNLIMITED, Script
from support.places import CORPUS
from support.running import around, described, difference, lines_of, run, text_of

DATAGRAMS = {'tt_v17_ecm_v0.a2b.k3': (SPARES, 3, 0), 'tt_v17_ecm_v0.a2b.n3m2': (PARITY, 3, 2)}
REPLAYED = tuple((name, loss) for name in DATAGRAMS for loss in (0, 0.1, 0.4))


class Wrong(Exception):
    """Something that was not as it was sent; its text says what."""


def corpus(name):
    """The packets, datagrams or frames of a file."""
    return [bytes.fromhex(line) for line in (CORPUS / (name + '.hex')).read_text().split()]


def must(condition, text, *values):
    """Something is wrong unless the condition holds."""
    if not condition:
        raise Wrong(text % values)


def written_by(command, lines, expected):
    """What the program under test writes for these lines: it ends well, with as many lines of hexadecimal as are expected."""
    written, remark = run(command, text_of(lines))
    must(not remark, 'it does not end well: %s', remark)
    answers = lines_of(written)
    must(len(answers) == len(expected), '%d answers in place of %d', len(answers), len(expected))
    must(written == text_of(answers), 'the last answer has no line feed')
    for at, answer in enumerate(answers):
        must(re.fullmatch(b'([0-9A-Fa-f]{2})+', answer), 'answer %d is not of hexadecimal: %s', at + 1, around(answer, 0))
    return answers


def as_expected(expected, answers):
    """Every answer is the expected one, to the last character."""
    ours, theirs = text_of(expected), text_of(answers)
    at = difference(ours, theirs)
    if at is not None:
        raise Wrong('\n'.join(['answer %d is not the expected one' % (at + 1)] + described(ours, theirs, at)))


def octets_of(answers):
    """Answers as octets."""
    return [bytes.fromhex(answer.decode()) for answer in answers]


def settings_text(settings):
    """Settings in words."""
    return '%d spares' % settings[1] if settings[0] == SPARES else 'n = %d, m = %d' % settings[1:]


def conversation(seed, packets, settings, loss, taken=lambda script, answer: None):
    """A script in which all packets are sent, heard through a bad line, and released or given up; with each such answer, what is taken."""
    script = Script(seed, UNLIMITED)
    on_the_way = []
    for packet in packets:
        _, octets = script.send(packet, *settings)
        for _ in range(1 + (script.random.random() < 0.1)):
            if script.random.random() >= loss:
                on_the_way.append((script.sending.sent + script.random.choice((0, 0, 0, 1, 3, 9)), octets))
        on_the_way.sort()
        while on_the_way and on_the_way[0][0] <= script.sending.sent:
            script.offer(on_the_way.pop(0)[1])
        release(script, 20, taken)
    for _, octets in on_the_way:
        script.offer(octets)
    release(script, 0, taken)
    script.call(0x14)
    return script


def release(script, patience, taken):
    """Next while the base is known; with leave to skip once the sender is so far ahead of the base."""
    session = script.receiving
    while True:
        known = session.place(session.base).state != UNKNOWN
        if not known and script.sending.sent - session.total() <= min(patience, AFTER - 1):
            return
        taken(script, script.next(PACKET_LIMIT, not known))


def datagram_back(script, octets):
    """A datagram is read (03) and written again (04)."""
    given = read_datagram(octets)
    script.call(0x03, octets)
    script.call(0x04, shown(given.number, 2), sized(given.packet), bytes([given.kind, given.n, len(given.items)]),
                b''.join(shown(len(item), 2) for item in given.items), sized(b''.join(given.items)), shown(len(octets), 2))


def packet_back(script, octets, edition=OLD):
    """A packet is read by both readers (05, 07) and written again (06)."""
    script.read(edition, octets, 0)
    script.write(edition, read_packet(edition, octets, False), len(octets))

"""A script of calls while it is made: each line is answered at once, so that the next can build on the answer."""

import random

from independent.arguments import shown, sized
from independent.calls import Calls
from independent.datagrams import DATAGRAM_LIMIT
from independent.joining import FRAME_LIMIT
from independent.packets import PACKET_LIMIT

UNLIMITED = 10 ** 9  # lines of a script
LOOKS = 50           # lines from one look at all ranges to the next


class Full(Exception):
    """The script has all its lines."""


class Script:
    """The lines so far, their answers, and the sessions and the joiner in their present state."""

    def __init__(self, seed, count):
        self.random = random.Random(seed)
        self.count = count
        self.lines = []
        self.answers = []
        self.calls = Calls()

    @property
    def receiving(self):
        """The receiving session that the script has led to."""
        return self.calls.receiving

    @property
    def sending(self):
        """The sending session that the script has led to."""
        return self.calls.sending

    @property
    def joiner(self):
        """The joiner that the script has led to."""
        return self.calls.joiner

    def line(self, text):
        """Adds a line unchanged; its answer."""
        if len(self.lines) >= self.count:
            raise Full
        self.lines.append(text)
        self.answers.append(self.calls.answer(text) if text else b'')
        if len(self.lines) % LOOKS == 0:
            self.look_inside()
        return self.answers[-1]

    def look_inside(self):
        """A session that is assumed to be inside its ranges is so."""
        for session in (self.receiving, self.sending):
            assert not session.inside or session.all_in_ranges(), 'line %d has led outside the ranges' % len(self.lines)

    def call(self, first, *parts):
        """Adds a call of octets; its answer as octets. Now and then the line has small letters."""
        text = (bytes([first]) + b''.join(parts)).hex()
        text = text if self.random.random() < 0.05 else text.upper()
        return bytes.fromhex(self.line(text.encode()).decode())

    def read(self, edition, octets, ending):
        """05, and 07 with the rest of the line the same, which must be answered alike; the answer."""
        answer = self.call(0x05, bytes([edition, ending]), octets)
        line, first = self.lines[-1], self.answers[-1]
        second = self.line(b'07' + line[2:])
        assert second == first, '%s is read as %s, by 07 as %s' % (line, first, second)
        return answer

    def write(self, edition, packet, cap):
        """06: the answer, and the packet's octets if it was written."""
        kind, value, fields = packet
        answer = self.call(0x06, bytes([edition, kind, value, len(fields)] + [one for one, _ in fields] + [len(fields)]),
                           b''.join(shown(len(data), 2) for _, data in fields), sized(b''.join(data for _, data in fields)), shown(cap, 2))
        return answer, answer[3:3 + int.from_bytes(answer[1:3], 'big')] if answer[0] == 0 else None

    def offer(self, octets):
        """11."""
        return self.call(0x11, octets)

    def next(self, cap=PACKET_LIMIT, skip=False):
        """12, without leave to skip or with it."""
        return self.call(0x12, shown(skip, 1), shown(cap, 2))

    def give_up(self, cap=0):
        """12 with leave to skip."""
        return self.next(cap, True)

    def send(self, packet, kind, a, b, cap=DATAGRAM_LIMIT):
        """21: the answer, and the datagram if there is one."""
        answer = self.call(0x21, sized(packet), bytes([kind, a, b]), shown(cap, 2))
        return answer, answer[3:3 + int.from_bytes(answer[1:3], 'big')] if answer[0] == 0 else None

    def overwrite(self, field, number=0, message=0, octet=0, value=0):
        """17."""
        return self.call(0x17, shown(field, 1), shown(number % 65536, 2), shown(message, 1), shown(octet, 2), shown(value, 4))

    def image(self, cap=0):
        """18."""
        return self.call(0x18, shown(cap, 4))

    def restore(self, text):
        """19."""
        return self.call(0x19, text)

    def overwrite_sending(self, field, number=0, octet=0, value=0):
        """23."""
        return self.call(0x23, shown(field, 1), shown(number % 65536, 2), shown(octet, 2), shown(value, 4))

    def field(self, field_type, data=b'', cap=FRAME_LIMIT):
        """31."""
        return self.call(0x31, shown(field_type, 1), sized(data), shown(cap, 2))

    def lost(self):
        """32."""
        return self.call(0x32)

    def look_at_joiner(self, chance=1.0):
        """33, with this chance."""
        if self.random.random() < chance:
            self.call(0x33)

    def overwrite_joiner(self, field, octet=0, value=0):
        """34."""
        return self.call(0x34, shown(field, 1), shown(octet, 2), shown(value, 2))

    def look(self, chance=1.0):
        """Shows the counts and the view, with this chance."""
        if self.random.random() < chance:
            self.call(0x14)
            self.call(0x15)

    def chance(self, part):
        """True with this chance."""
        return self.random.random() < part

"""The calls program (rules 25.1 to 25.7): every public call on one line of hexadecimal, one answer a line."""

import binascii

from .answers import compared, lent, packet_read, shown_counts, stored
from .arguments import Arguments, NoCall, shown, sized
from .datagrams import M_LIMIT, PARITY, SPARES, read_datagram, write_datagram
from .editions import DATA_PACKET, INDICATOR
from .images import read_image, write_image
from .joining import Joiner
from .lengths import read_length, write_length
from .overwriting import overwrite_joiner, overwrite_receiving, overwrite_sending
from .packets import read_packet, write_packet
from .pencil import read_by_bits
from .receiving import AFTER, BEFORE, RECEIVED, Receiving
from .refusals import Refusal
from .replaying import replay
from .sending import Sending
from .solving import solve

LINE_LIMIT = 240000


class Calls:
    """The two sessions and the joiner that the program holds, and the calls on them; each gives its answer."""

    def __init__(self):
        self.receiving = Receiving()
        self.sending = Sending()
        self.joiner = Joiner()
        self.by_first_octet = {
            0x01: self.read_length, 0x02: self.write_length, 0x03: self.read_datagram, 0x04: self.write_datagram,
            0x05: self.read_packet, 0x06: self.write_packet, 0x07: self.read_by_bits, 0x10: self.fresh_receiving,
            0x11: self.offer, 0x12: self.next, 0x14: self.counts, 0x15: self.view, 0x16: self.many_given_up,
            0x17: self.overwrite_receiving, 0x18: self.write_image, 0x19: self.read_image, 0x1A: self.solve, 0x20: self.fresh_sending,
            0x21: self.send, 0x22: self.many_sent, 0x23: self.overwrite_sending, 0x30: self.fresh_joiner, 0x31: self.field,
            0x32: self.lost, 0x33: self.show_joiner, 0x34: self.overwrite_joiner, 0x40: self.replay,
            0x50: compared}

    def answer(self, line):
        """The answer to a line that is not empty, without its line feed."""
        try:
            return self.answer_octets(line).hex().upper().encode()
        except NoCall:
            return b'EE'

    def answer_octets(self, line):
        """The answer's octets."""
        try:
            octets = binascii.unhexlify(line) if len(line) <= LINE_LIMIT else b''
        except binascii.Error:
            raise NoCall
        arguments = Arguments(octets)
        call = self.by_first_octet.get(arguments.number(1))
        if call is None:
            raise NoCall
        try:
            return call(arguments)
        except Refusal as refusal:
            return refusal.octets()

    def read_length(self, arguments):
        """01: a length at the front of the octets."""
        value, size = read_length(arguments.rest())
        return b'\x00' + shown(value, 2) + shown(size, 1)

    def write_length(self, arguments):
        """02."""
        value = arguments.number(2)
        cap = arguments.last_cap()
        return lent(cap, lambda: (b'', write_length(value, cap)), size_width=1)

    def read_datagram(self, arguments):
        """03."""
        datagram = read_datagram(arguments.rest())
        n = b'' if datagram.kind == SPARES else shown(datagram.n, 1)
        return (b'\x00' + shown(datagram.number, 2) + sized(datagram.packet) + shown(datagram.kind, 1) + n
                + shown(len(datagram.items), 1) + b''.join(map(sized, datagram.items)))

    def write_datagram(self, arguments):
        """04."""
        number, packet = arguments.number(2), arguments.sized()
        kind = arguments.one_of(SPARES, PARITY)
        n = arguments.one_of(0) if kind == SPARES else arguments.number(1)
        lengths, data = arguments.numbers(2), arguments.sized()
        cap = arguments.last_cap()
        return lent(cap, lambda: (b'', write_datagram(number, packet, kind, n, lengths, data, cap)))

    def read_packet(self, arguments):
        """05."""
        return packet_read(read_packet, arguments)

    def read_by_bits(self, arguments):
        """07."""
        return packet_read(read_by_bits, arguments)

    def write_packet(self, arguments):
        """06."""
        edition, kind, value = arguments.number(1), arguments.one_of(INDICATOR, DATA_PACKET), arguments.number(1)
        types, lengths, data = arguments.numbers(1), arguments.numbers(2), arguments.sized()
        cap = arguments.last_cap()
        return lent(cap, lambda: (b'', write_packet(edition, kind, value, types, lengths, data, cap)))

    def fresh_receiving(self, arguments):
        """10."""
        arguments.end()
        self.receiving = Receiving()
        return b'\x00'

    def offer(self, arguments):
        """11."""
        self.receiving.offer(arguments.rest())
        return b'\x00'

    def next(self, arguments):
        """12."""
        skip, cap = arguments.one_of(0, 1), arguments.last_cap()

        def call():
            state, number, note, octets = self.receiving.next(skip, cap)
            return shown(state - RECEIVED, 1) + shown(number, 2) + shown(note, 2), octets
        return lent(cap, call)

    def counts(self, arguments):
        """14."""
        arguments.end()
        return b'\x00' + shown_counts(self.receiving.counts.values())

    def view(self, arguments):
        """15."""
        arguments.end()
        session, base = self.receiving, self.receiving.base
        answer = [b'\x00' + shown(base, 2)]
        for number in range(base - BEFORE, base + AFTER):
            place = session.place(number)
            answer.append(shown(place.state, 1) + shown(place.note, 2) + stored(place))
        for number in range(base, base + AFTER):
            mark = session.mark(number)
            answer.append(bytes([mark.accepted, mark.n, mark.m]))
            answer.extend(stored(message) for message in mark.messages[:min(mark.m, M_LIMIT)])
        return b''.join(answer)

    def many_given_up(self, arguments):
        """16: give-ups past the limit are refused and change nothing."""
        times = arguments.number(4)
        arguments.end()
        self.receiving = Receiving(times)
        return b'\x00'

    def overwrite_receiving(self, arguments):
        """17."""
        overwrite_receiving(self.receiving, arguments)
        return b'\x00'

    def write_image(self, arguments):
        """18."""
        cap = arguments.last_cap(4)
        return lent(cap, lambda: (b'', write_image(self.receiving, cap)), size_width=4)

    def read_image(self, arguments):
        """19: nothing is restored if it is refused."""
        self.receiving = read_image(arguments.rest())
        return b'\x00'

    def solve(self, arguments):
        """1A."""
        arguments.end()
        solve(self.receiving)
        return b'\x00'

    def fresh_sending(self, arguments):
        """20."""
        arguments.end()
        self.sending = Sending()
        return b'\x00'

    def send(self, arguments):
        """21."""
        packet, kind, a = arguments.sized(), arguments.one_of(SPARES, PARITY), arguments.number(1)
        b = arguments.one_of(0) if kind == SPARES else arguments.number(1)
        cap = arguments.last_cap()
        return lent(cap, lambda: (b'', self.sending.send(packet, kind, a, b, cap)))

    def many_sent(self, arguments):
        """22: sends past the limit are refused and change nothing."""
        times = arguments.number(4)
        arguments.end()
        self.sending = Sending(times, b'\x06')
        return b'\x00'

    def overwrite_sending(self, arguments):
        """23."""
        overwrite_sending(self.sending, arguments)
        return b'\x00'

    def fresh_joiner(self, arguments):
        """30."""
        arguments.end()
        self.joiner = Joiner()
        return b'\x00'

    def field(self, arguments):
        """31."""
        field_type, data = arguments.number(1), arguments.sized()
        cap = arguments.last_cap()

        def call():
            what, octets = self.joiner.field(field_type, data, cap)
            return shown(what, 1), octets
        return lent(cap, call)

    def lost(self, arguments):
        """32."""
        arguments.end()
        self.joiner.lost()
        return b'\x00'

    def show_joiner(self, arguments):
        """33."""
        arguments.end()
        return b'\x00' + shown(self.joiner.tainted, 1) + stored(self.joiner.frame)

    def overwrite_joiner(self, arguments):
        """34."""
        overwrite_joiner(self.joiner, arguments)
        return b'\x00'

    def replay(self, arguments):
        """40."""
        numbers, trace = arguments.numbers(2, 2), arguments.sized(4)
        cap = arguments.last_cap(4)

        def call():
            counts, octets = replay(numbers, trace, cap)
            return shown_counts(counts), octets
        return lent(cap, call, size_width=4)


def answer_all(lines, calls=None):
    """The answers to lines, the empty ones skipped, by one pair of sessions and one joiner."""
    calls = calls or Calls()
    return [calls.answer(line) for line in lines if line]

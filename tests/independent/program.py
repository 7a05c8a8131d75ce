"""The program (rules 18.1 to 18.11): lines of hexadecimal in, result lines out."""

import binascii

from .packets import PACKET_LIMIT
from .receiving import RECEIVED, Receiving
from .refusals import BASE_UNKNOWN, LIMIT, OVERLONG, SETTINGS, Refusal, refuse_if

LINE_LIMIT = 4800


class Program:
    """The program's session, fresh or after a number of give-ups; each line in gives result lines."""

    def __init__(self, given_up=0):
        self.session = Receiving(given_up)

    def results(self, line):
        """The result lines of one line, without their line feeds."""
        try:
            lines = self.take(line)
        except Refusal as refusal:
            lines = [refusal.octets()]
        return [octets.hex().upper().encode() for octets in lines + self.released()]

    def take(self, line):
        """Offers the line's datagram; an empty line is one give-up, which has a result line."""
        if not line:
            return [self.result(skip=True)]
        self.session.offer(octets_of(line))
        return []

    def released(self):
        """Releases all that can be released."""
        lines = []
        while True:
            try:
                lines.append(self.result(skip=False))
            except Refusal as refusal:
                assert refusal.number in (BASE_UNKNOWN, LIMIT)
                return lines

    def result(self, skip):
        """One number that leaves: its kind, number and octets."""
        state, number, _, octets = self.session.next(skip, PACKET_LIMIT)
        return bytes([state - RECEIVED]) + number.to_bytes(2, 'big') + octets


def octets_of(line):
    """The octets that a line has in hexadecimal."""
    refuse_if(len(line) > LINE_LIMIT, OVERLONG)
    try:
        return binascii.unhexlify(line)
    except binascii.Error:
        raise Refusal(SETTINGS)


def lines_of(text):
    """The lines of a text; only a line feed ends one, and a last one without it counts unless it is empty."""
    lines = text.split(b'\n')
    return lines if lines[-1] else lines[:-1]


def lines_read(stream):
    """The lines of a stream, by the same rule, each as soon as it is read."""
    for line in stream:
        yield line[:-1] if line.endswith(b'\n') else line


def results_of(lines):
    """The result lines of all lines."""
    program = Program()
    return [result for line in lines for result in program.results(line)]

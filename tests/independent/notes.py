"""The program notes (rules 19.1 to 19.3 and 19.8): which datagram saved each number, in words, and a table of how far ahead it was."""

from .packets import PACKET_LIMIT
from .program import Program
from .receiving import LOST, RECEIVED, REPAIRED, SPARE
from .refusals import ENDS, FORM, LEFT_OVER, SIZE, SPARE_BIT, Refusal

READING = (ENDS, FORM, SIZE, SPARE_BIT, LEFT_OVER)  # the refusals of a line that are met in reading order, and so have a place
FARTHEST = 32


class Notes(Program):
    """The program with other words: each line in gives lines of the report, and each number that was saved a distance for the table."""

    def __init__(self, given_up=0):
        super().__init__(given_up)
        self.line = given_up
        self.saved = {SPARE: [], REPAIRED: []}

    def results(self, line):
        """The report's lines of one line, without their line feeds."""
        self.line += 1
        try:
            words = self.take(line)
        except Refusal as refusal:
            place = ' at octet %d' % refusal.place if refusal.number in READING else ''
            words = ['line %d: refused with %d%s' % (self.line, refusal.number, place)]
        return [line.encode() for line in words + self.released()]

    def result(self, skip):
        """One number that leaves, and by which datagram."""
        state, number, note, _ = self.session.next(skip, PACKET_LIMIT)
        if state in self.saved:
            self.saved[state].append((note - number) % 65536)
        return 'number %d: %s' % (number, {RECEIVED: 'received', SPARE: 'spare, from datagram %d' % note,
                                           REPAIRED: 'repaired, with datagram %d' % note, LOST: 'lost'}[state])

    def table(self):
        """The lines at the end: an empty one, how many were saved, and a row for each distance that has saved one."""
        rows = [('distance %d' % distance, self.row(lambda d, at=distance: d == at)) for distance in range(1, FARTHEST + 1)]
        rows.append(('behind', self.row(lambda d: not 1 <= d <= FARTHEST)))
        lines = ['', 'saved by spares %d, by parity %d' % self.row(lambda d: True)]
        return [line.encode() for line in lines + ['%s: spares %d, parity %d' % (name, *counts) for name, counts in rows if any(counts)]]

    def row(self, condition):
        """How many spares and how many repaired numbers have a distance that meets the condition."""
        return tuple(sum(map(condition, distances)) for distances in self.saved.values())


def report_of(lines):
    """The report's lines of all lines."""
    notes = Notes()
    return [words for line in lines for words in notes.results(line)] + notes.table()

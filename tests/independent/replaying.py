"""The replay (rules 21.1 to 21.6): a recorded trace played again without the datagrams of chosen numbers."""

from .datagrams import read_datagram
from .program import Program, lines_of, octets_of
from .refusals import Refusal, must_fit


def is_dropped(line, numbers):
    """Whether a line has a datagram with one of the numbers; what does not read is never dropped, nor is an empty line."""
    try:
        return line != b'' and read_datagram(octets_of(line)).number in numbers
    except Refusal:
        return False


def replay(numbers, trace, room):
    """The four counts, and the result lines that the program has for the trace without what is dropped."""
    program = Program()
    kept = [line for line in lines_of(trace) if not is_dropped(line, numbers)]
    written = b''.join(result + b'\n' for line in kept for result in program.results(line))
    return list(program.session.counts.values()), must_fit(written, room)

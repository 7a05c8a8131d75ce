#!/usr/bin/env python3
"""What would a worse line have done? Replays a recorded call with 0 to 30 % of its datagrams dropped; prints a table, draws a picture.

TRACE has a datagram a line in hexadecimal, from the start of the call on; tools/lines-of makes one from a capture. Datagrams are dropped in
bursts of 1 to 5, and at least one arrives between two bursts; each step drops what the step before dropped, and more. The program
`replay` counts what was received, came from a spare copy, was repaired or was lost. Of these losses, `solved` are those that a host brings
back if it solves all parity messages together before it gives up a number; `lost` are lost even so.

A host does not wait for ever. Here it gives up a number when it has heard one that many later (--patience). Spares come within 8 numbers,
so it waits for 8; parity may come later. The program `receive`, asked line by line, shows where that is so; then `replay` plays the trace
with an empty line at each such place. Empty lines of TRACE itself, the give-ups of another host, are left out. The host that solves hears
the same, with the same patience, through the program `calls`. Its numbers leave sooner, and what comes for them later is refused: if it
loses more for that, `solved` is below 0."""

import argparse
import os
import pathlib
import random
import shlex
import signal
import subprocess
import sys
import time
import typing

from picture import percent_text, picture
from playing import COUNTS, Host, Solver, Wrong, replayed

TOP = pathlib.Path(__file__).resolve().parent.parent
WORST, BURST = 30, 5  # percent of the datagrams dropped in the last step; datagrams in a row
VIEW = 32             # numbers from the base on that a session takes
HEADS = 'received', 'spare', 'repaired', 'solved', 'lost'
LONGEST = 48          # characters of a name in the picture
QUIET = 3             # seconds without a word


class Row(typing.NamedTuple):
    """A step: how much was to be dropped, how many datagrams were, and how many numbers left in each way."""
    percent: float
    dropped: int
    counts: tuple


class Trace(typing.NamedTuple):
    """A recorded call: its lines, the number of each line's datagram or None, and the last number, counted on past 65,535."""
    lines: list
    numbers: list
    last: int


def recorded(lines, receive, patience):
    """The trace as `receive` reads it."""
    with Host(receive, patience) as host:
        numbers = [host.hear(line) for line in lines]
    first = next((number for number in numbers if number is not None), None)
    if first is None:
        raise Wrong('no line of it is a datagram in hexadecimal; tools/lines-of makes a trace of a capture')
    if VIEW <= first < 32768:
        raise Wrong('it begins with number %d, and a call with 0: it was not recorded from the start' % first)
    return Trace(lines, numbers, host.highest)


def drops(seed, count):
    """Places of datagrams, the first to be dropped first, enough for the worst step: bursts of 1 to 5, with a place between two."""
    r = random.Random(seed)
    order, taken = [], set()
    enough = round(count * WORST / 100)
    while len(order) < enough:
        start = r.randrange(count)
        burst = range(start, min(start + r.randint(1, BURST), count))
        if taken.isdisjoint(range(start - 1, burst.stop + 1)):
            taken.update(burst)
            order.extend(burst)
    return order


def played(trace, dropped, commands, patience):
    """The trace without these numbers, heard by a host to its end and played by `replay`: the four counts."""
    with Host(commands.receive, patience) as host:
        for line, number in zip(trace.lines, trace.numbers):
            if number in dropped:
                host.lines.append(line)
            else:
                host.hear(line)
        host.give_up_to(trace.last)
    return all_left(trace, 'replay', replayed(commands.replay, host.lines, sorted(dropped)))


def solved(trace, dropped, commands, patience):
    """The trace without these numbers, heard to its end by a host that solves: the four counts."""
    with Solver(commands.calls, patience) as solver:
        for line, number in zip(trace.lines, trace.numbers):
            if number is not None and number not in dropped:
                solver.hear(line, number)
        solver.give_up_to(trace.last)
        return all_left(trace, 'calls', solver.counted())


def all_left(trace, name, counts):
    """The counts of a program, if all numbers have left."""
    if sum(counts) != trace.last + 1:
        raise Wrong('%s released or lost %d numbers of %d' % (name, sum(counts), trace.last + 1))
    return counts


def counted(*played_as):
    """What is received, spare and repaired as `replay` has it, then what only solving brings back, and what is lost even so."""
    *known, lost = played(*played_as)
    lost_even_so = solved(*played_as)[-1]
    return (*known, lost - lost_even_so, lost_even_so)


def rows_of(trace, chosen):
    """The table, a row a step; on long work a word about it."""
    numbers = [number for number in dict.fromkeys(trace.numbers) if number is not None]
    order, said = drops(chosen.seed, len(numbers)), time.monotonic()
    for step in range(chosen.steps + 1):
        percent = WORST * step / chosen.steps
        dropped = {numbers[place] for place in order[:round(len(numbers) * percent / 100)]}
        yield Row(percent, sum(number in dropped for number in trace.numbers), counted(trace, dropped, chosen, chosen.patience))
        if time.monotonic() - said > QUIET:
            said = time.monotonic()
            say('%d of %d steps done' % (step + 1, chosen.steps + 1))


def table(rows):
    """The table as text."""
    width = max(len('datagrams'), len(str(sum(rows[0].counts)))) + 2
    yield '  dropped' + ''.join(head.rjust(width) for head in ('datagrams', *HEADS))
    for row in rows:
        yield percent_text(row.percent).rjust(9) + ''.join(str(count).rjust(width) for count in (row.dropped, *row.counts))


def say(text):
    """A remark."""
    print('loss: ' + text, file=sys.stderr, flush=True)


def whole(least, most):
    """A reader of whole numbers within limits."""
    def read(text):
        if not (text.isascii() and text.isdigit() and least <= int(text) <= most):
            raise argparse.ArgumentTypeError('%s is not a number from %d to %d' % (text, least, most))
        return int(text)
    return read


def options():
    """The command line."""
    parser = argparse.ArgumentParser(prog='./loss', description=__doc__, formatter_class=argparse.RawDescriptionHelpFormatter,
                                     usage='./loss [--patience NUMBERS] [--steps STEPS] [--seed SEED] [--svg FILE] TRACE')
    parser.add_argument('trace', metavar='TRACE', type=pathlib.Path)
    parser.add_argument('--patience', metavar='NUMBERS', type=whole(1, VIEW - 1), default=8, help='1 to %d; without it 8' % (VIEW - 1))
    parser.add_argument('--steps', type=whole(1, 30), default=15, help='from 0 to %d %%%% in 1 to 30 steps; without it 15' % WORST)
    parser.add_argument('--seed', default='1', help='any word: another one drops other datagrams; without it 1')
    parser.add_argument('--svg', metavar='FILE', type=pathlib.Path, help="the picture; without it TRACE's name with .svg, in this folder")
    parser.add_argument('--receive', metavar='COMMAND', help='of the program receive; without it that is proved and built first')
    parser.add_argument('--replay', metavar='COMMAND', help='of the program replay, before trace and numbers; without it likewise')
    parser.add_argument('--calls', metavar='COMMAND', help='of the program calls; without it likewise')
    return parser


def proved(name, *arguments):
    """Has a program proved and built, as far as it is not, and passes on what is said of that; the shell command that runs it."""
    command = [str(TOP / name), *arguments]
    with subprocess.Popen(command, stdin=subprocess.DEVNULL, stdout=subprocess.DEVNULL, stderr=subprocess.PIPE) as made:
        for line in made.stderr:
            if not COUNTS.fullmatch(line):  # of no trace at all
                sys.stderr.write(line.decode())
    if made.returncode:
        raise Wrong('%s cannot be run' % name)
    return '%s %s' % (shlex.quote(str(TOP / 'bin' / 'run')), name)


def remark(trace, chosen):
    """What was played."""
    count = sum(number is not None for number in trace.numbers)
    return ('%d datagrams sent, 0 to %d %% of them dropped in bursts of 1 to %d (seed %s); a number is given up when one %d later was heard'
            % (count, WORST, BURST, chosen.seed, chosen.patience))


def main():
    """The table on standard output, the picture in its file; the status."""
    chosen = options().parse_args()
    try:
        lines = [line for line in chosen.trace.read_bytes().split(b'\n') if line]
        chosen.receive = chosen.receive or proved('receive')
        chosen.replay = chosen.replay or proved('replay', os.devnull)
        chosen.calls = chosen.calls or proved('calls')
        trace = recorded(lines, chosen.receive, chosen.patience)
        rows = list(rows_of(trace, chosen))
        print('\n'.join([remark(trace, chosen), '', *table(rows)]), flush=True)
        path = chosen.svg or pathlib.Path(chosen.trace.stem + '.svg')
        path.write_text(picture('What a worse line would have done to ' + chosen.trace.name[-LONGEST:], remark(trace, chosen), rows))
    except OSError as wrong:
        say('%s: %s' % (wrong.filename, wrong.strerror))
        return 1
    except Wrong as wrong:
        say('%s: %s' % (chosen.trace, wrong))
        return 1
    say('the picture is in %s' % path)
    return 0


if __name__ == '__main__':
    signal.signal(signal.SIGINT, signal.SIG_DFL)
    sys.exit(main())

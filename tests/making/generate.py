#!/usr/bin/env python3
"""Makes a script of calls, or with --program lines for the program, from a seed."""

import argparse
import collections
import pathlib
import sys

if __name__ == '__main__':
    sys.path[0] = str(pathlib.Path(__file__).resolve().parents[1])  # the folder tests/

from making import conversations, edges, frames, images, notes, outside, packed, placed, replays, single, solving, traces
from making.lines import program_lines
from making.script import Full, Script

SINGLE = (single.lengths, single.datagrams_read, single.datagrams_written, single.packets_read, single.packets_written,
          single.packets_written, single.many_fields, single.round_trips, single.no_calls)
NOTES = (notes.saved, notes.in_runs, notes.into_view, notes.overwritten)
SESSIONS = (conversations.honest, conversations.dishonest, conversations.sparse_parity, conversations.contested,
            conversations.contested, edges.blanks, edges.damaged_offers, edges.skipping, edges.at_the_limit, edges.sending,
            outside.receiving_outside, outside.receiving_outside, outside.overwritten_inside, outside.odd_overwrites,
            outside.sending_outside, outside.sending_outside) + NOTES
FRAMES = (frames.honest_row, frames.any_fields, frames.near_the_limit, frames.tainted, frames.outside, frames.overwritten_inside,
          frames.odd_overwrites)
PACKETS = (packed.runs_read, packed.runs_written, packed.padding_damaged, packed.counts_off, packed.near_the_limit, packed.carried,
           placed.packets, single.packets_read, single.packets_written, single.many_fields)
REPLAYS = (replays.recorded, replays.crowded, replays.crowded, replays.edges, replays.no_calls)
IMAGES = (images.written, images.read_back, images.handed_over, images.misshapen, images.misshapen, images.no_session,
          images.no_session, images.another, images.no_edition, images.moved, images.texts, images.great, outside.receiving_outside)
TRACES = (traces.once, traces.once, traces.once, traces.repeated, traces.repeated, traces.recorded, traces.unreadable, traces.long_ones,
          traces.edges, traces.no_calls)
SOLVING = (solving.honest, solving.honest, solving.crossed, solving.crossed, solving.crossed, solving.crossed,
            solving.crossed_altered, solving.contradicting, solving.contradicting, solving.any_messages, solving.far_apart,
            solving.full_table, solving.outside, solving.no_calls)
SCENES = (2 * SINGLE + (placed.datagrams,) + SESSIONS + FRAMES + PACKETS[:7] + REPLAYS[:1] + REPLAYS[2:] + IMAGES[:5] + IMAGES[7:11]
          + TRACES[2:8:2] + SOLVING[5:7] + SOLVING[8:12:2])


def make_script(seed, count, scenes=SCENES):
    """A script of that many lines; the scenes come in rounds, each round in another order."""
    script = Script(seed, count)
    try:
        while True:
            for scene in script.random.sample(scenes, len(scenes)):
                scene(script)
    except Full:
        return script


def print_statistics(script, out):
    """How many of each call were done, and how many of each refusal were met."""
    table = collections.defaultdict(collections.Counter)
    for line, answer in zip(script.lines, script.answers):
        if line:
            kind = 'EE' if answer == b'EE' else 'done' if answer[:2] == b'00' else int(answer[2:4], 16)
            table['EE' if kind == 'EE' else line[:2].decode()][kind] += 1
    for call in sorted(table):
        refusals = ' '.join('%s:%d' % pair for pair in sorted(table[call].items(), key=lambda pair: (str(type(pair[0])), pair[0])))
        print('call', call, refusals, file=out)
    total = sum(sum(kinds.values()) for kinds in table.values())
    done = sum(kinds['done'] for kinds in table.values())
    print('lines %d, done %d (%d %%)' % (total, done, 100 * done // max(1, total)), file=out)


def main():
    """Writes the script or the lines to standard output."""
    parser = argparse.ArgumentParser(description=__doc__)
    parser.add_argument('seed')
    parser.add_argument('count', nargs='?', type=int, default=4000)
    parser.add_argument('--program', action='store_true', help='lines for the program instead of calls')
    parser.add_argument('--stats', action='store_true', help='print how many of each call were done or refused')
    arguments = parser.parse_args()
    if arguments.program:
        sys.stdout.buffer.write(program_lines(arguments.seed, arguments.count))
        return
    script = make_script(arguments.seed, arguments.count)
    sys.stdout.buffer.writelines(line + b'\n' for line in script.lines)
    if arguments.stats:
        print_statistics(script, sys.stderr)


if __name__ == '__main__':
    main()

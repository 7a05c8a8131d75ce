#!/usr/bin/env python3
# check: beside
# says: the comparisons do not find a mistake in the independent program
# counts: broken programs
"""The made scripts must find each wrong program: each wrong program is one edit of its text (mutants/)."""

import argparse
import functools
import itertools
import multiprocessing
import os
import pathlib
import sys

sys.path[0] = str(pathlib.Path(__file__).resolve().parents[1])  # the folder tests/

from mutants.edition import EDITION_MUTANTS
from mutants.format import DATAGRAM_MUTANTS, PACKET_MUTANTS
from mutants.image import IMAGE_MUTANTS
from mutants.joiner import JOINER_MUTANTS
from mutants.notes import NOTE_MUTANTS
from mutants.pencil import PENCIL_MUTANTS
from mutants.place import PLACE_MUTANTS
from mutants.program import PROGRAM_MUTANTS
from mutants.replay import REPLAY_MUTANTS
from mutants.session import SESSION_MUTANTS
from mutants.solve import SOLVE_MUTANTS
from mutants.traces import TRACE_MUTANTS
from support.comparing import (CALL_SEEDS, FRAME_SEEDS, IMAGE_SEEDS, PACKET_SEEDS, PROGRAM_SEEDS, REPLAY_SEEDS, SOLVING_SEEDS,
                               TRACE_SEEDS, made_calls, made_frames, made_images, made_lines, made_packets, made_replays, made_solving,
                               made_traces, stored)
from support.within import Failed, Mutant

MUTANTS = {kind: rows + PLACE_MUTANTS.get(kind, ()) + NOTE_MUTANTS.get(kind, ()) for kind, rows in (
    ('calls', DATAGRAM_MUTANTS + SESSION_MUTANTS), ('packets', PACKET_MUTANTS + PENCIL_MUTANTS + EDITION_MUTANTS),
    ('joiner', JOINER_MUTANTS), ('replays', REPLAY_MUTANTS), ('images', IMAGE_MUTANTS), ('traces', TRACE_MUTANTS),
    ('solving', SOLVE_MUTANTS), ('program', PROGRAM_MUTANTS))}
SEEDS = {'calls': CALL_SEEDS, 'packets': PACKET_SEEDS, 'joiner': FRAME_SEEDS, 'replays': REPLAY_SEEDS, 'images': IMAGE_SEEDS,
         'traces': TRACE_SEEDS, 'solving': SOLVING_SEEDS, 'program': PROGRAM_SEEDS}


@functools.lru_cache(None)
def input_at(kind, number):
    """The inputs that mutants are tried with, one after the other: a name, what is given, what is expected; None past the last."""
    name, made = {'calls': ('script', made_calls), 'packets': ('packet script', made_packets), 'joiner': ('joiner script', made_frames),
                  'replays': ('replay script', made_replays), 'images': ('image script', made_images),
                  'traces': ('trace script', made_traces), 'solving': ('solving script', made_solving),
                  'program': ('lines', made_lines)}[kind]
    cases = list(stored('.lines', '.results')) if kind == 'program' and number else []
    if 0 < number <= len(cases):
        return cases[number - 1]
    seed = number - len(cases)
    return ('%s %d' % (name, seed), *made(str(seed))) if seed < SEEDS[kind] else None


def tried(kind, *edit):
    """One wrong program: the name of the first input that finds it, or None."""
    mutant = Mutant(*edit)
    for name, given, expected in iter(map(functools.partial(input_at, kind), itertools.count()).__next__, None):
        if mutant.differs(['program'] * (kind == 'program'), given, expected):
            return name
    return None


def try_some(edits, found):
    """Tries some wrong programs, and hands on what found each, or why it was not tried."""
    for edit in edits:
        try:
            found.send((tried(*edit), ''))
        except Failed as failed:
            found.send((None, str(failed) + '\n'))


def begin(edits):
    """A process that tries some wrong programs; from what is returned, what found them can be received in turn."""
    found, finding = multiprocessing.Pipe(False)
    multiprocessing.get_context('fork').Process(target=try_some, args=(edits, finding), daemon=True).start()
    finding.close()
    return found


def try_all(mutants):
    """Tries wrong programs, tables of them by the kind of input; as many at a time as there are processors.

    Prints which input found each; status 1 if one was not found."""
    missed, edits = 0, [(name, (kind, *edit)) for kind, rows in mutants.items() for name, *edit in rows]
    for kind in mutants:
        input_at(kind, 0)
    begun = [begin([edit for _, edit in edits[at::os.cpu_count()]]) for at in range(os.cpu_count())]
    for (name, _), trying in zip(edits, itertools.cycle(begun)):
        found, remark = trying.recv()
        missed += found is None
        print('%sfound by %s: %s' % (remark, found, name) if found else '%sNOT FOUND: %s' % (remark, name), flush=True)
    print('%d passed, %d failed' % (len(edits) - missed, missed))
    if missed:
        sys.exit(1)


def main():
    """Tries all wrong programs."""
    argparse.ArgumentParser(description=__doc__).parse_args()
    try_all(MUTANTS)


if __name__ == '__main__':
    main()

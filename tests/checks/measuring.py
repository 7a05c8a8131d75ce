#!/usr/bin/env python3
# check: beside
# says: a script of tests/speed measures a wrong program, or does not say that a goal is missed
# counts: broken programs
"""The scripts of speed/, which count instructions and are not run by ./test: a failing case for each thing that they check."""

import importlib.machinery
import importlib.util
import os
import pathlib
import sys
import tempfile

sys.path[0] = str(pathlib.Path(__file__).resolve().parents[1])  # the folder tests/

from support.failing import Cases, altered, independent
from support.places import TESTS


def script_of(name):
    """A script of speed/ as a module."""
    loader = importlib.machinery.SourceFileLoader(name, str(TESTS / 'speed' / name))
    module = importlib.util.module_from_spec(importlib.util.spec_from_loader(name, loader))
    loader.exec_module(module)
    return module


def of_measure(test):
    """Wrong receivers are not measured, and what is not counted is said."""
    measure = script_of('measure')
    traces = measure.traces
    right, wrong = independent('program'), altered('program 00 5')
    test.fails('a wrong C receiver', 'differs receive.c with seed 0: result line', measure.check_receiver, wrong)
    with tempfile.TemporaryDirectory() as made:
        run_by = [(['sh', '-c', command], 0) for command in (wrong, right)]
        test.fails('a wrong program over a trace', 'differs k3: result line', measure.measure_trace, pathlib.Path(made),
                   traces.trace('k3', traces.TRACES[0][1], 0), 'k3', run_by, lambda command, path: 1)
    test.fails('the goal missed', 'takes 0.71 times the instructions of the C receiver', measure.held_to_goal, [0.71, 0.5])
    test.fails('nothing counted', 'status 0 and 0 instructions', measure.by_emulator, ['sh', '-c', 'exit 0'], os.devnull)


def of_calls(test):
    """The goals are held, and what cannot be counted is said."""
    calls, sums = script_of('calls'), script_of('sums')
    run = calls.counting.Run.__new__(calls.counting.Run)
    run.costs, run.outside, run.calls, run.called, run.chains, run.names = {}, 0, [], {}, {}, {}
    test.fails('a function that is not there', 'no function a::h ran', run.within, 'a::h')
    test.fails('no exclusive or', 'no exclusive or of 8 octets ran', sums.some, 8, 0)
    test.says('a range check over its goal', 'offer: the range check takes 7001 instructions', str(list(calls.missed('offer', 7001, 2))))
    test.says('copies over their goal', 'offer: a call copies 3.0 sessions', str(list(calls.missed('offer', 7000, 3))))
    calls.counting.whole = lambda program, lines: 5000 + len(program)
    test.fails('other code', 'takes 5012 instructions, the proved one 5005', calls.counting.same_code, 'another code', b'')


def of_replay(test):
    """A wrong replay is not counted, and the goal is held."""
    replay = script_of('replay')
    test.says('the goal missed', 'replay over k3 takes 1.31 times the instructions', str(list(replay.missed('replay', 'k3', 1.31))))
    replay.counting.RUN = 'true'
    with tempfile.TemporaryDirectory() as made:
        test.fails('a wrong replay', 'differs replay: result line 1', replay.played, b'00\n', (), pathlib.Path(made))


def main():
    """All cases."""
    test = Cases('')
    for test.of_what, cases in (('speed/measure', of_measure), ('speed/calls, sums', of_calls), ('speed/replay', of_replay)):
        cases(test)
    test.end()


if __name__ == '__main__':
    main()

"""Runs programs under test over input, and finds the first difference between their answers and the expected ones."""

import subprocess

from independent.calls import answer_all
from independent.program import lines_of, results_of

PATIENCE = 600  # seconds for one run
SHOWN = 160     # characters of a line that are shown


def run(command, given):
    """What a shell command writes when it reads the octets given, and a remark if it did not end well.

    In place of a command there may be a function that gives both."""
    if callable(command):
        return command(given)
    try:
        ended = subprocess.run(command, shell=True, input=given, stdout=subprocess.PIPE, timeout=PATIENCE)
    except subprocess.TimeoutExpired:
        return b'', 'no end within %d seconds' % PATIENCE
    return ended.stdout, 'status %d' % ended.returncode if ended.returncode else ''


def text_of(lines):
    """Lines as a program reads them."""
    return b''.join(line + b'\n' for line in lines)


def expected_answers(script):
    """What the independent program answers to a script of calls."""
    return text_of(answer_all(lines_of(script)))


def expected_results(given):
    """What the independent program writes for the program's input."""
    return text_of(results_of(lines_of(given)))


def difference(expected, written):
    """The number of the first line that differs, from 0, or None; both are whole outputs."""
    if expected == written:
        return None
    ours, theirs = expected.split(b'\n'), written.split(b'\n')
    for at, (one, other) in enumerate(zip(ours, theirs)):
        if one != other:
            return at
    return min(len(ours), len(theirs))


def line_at(text, at):
    """A line of an output, or what to say if there is none."""
    lines = text.split(b'\n')
    return lines[at] if at < len(lines) else b'(nothing)'


def around(line, at):
    """The part of a line around a place, short enough to show."""
    start = max(0, at - SHOWN // 2)
    part = line[start:start + SHOWN].decode('ascii', 'backslashreplace')
    return ('..' if start else '') + part + ('..' if start + SHOWN < len(line) else '')


def described(expected, written, at):
    """The two lines at which the outputs differ, each around the first character that does."""
    ours, theirs = line_at(expected, at), line_at(written, at)
    place = next((i for i, (one, other) in enumerate(zip(ours, theirs)) if one != other), min(len(ours), len(theirs)))
    return ['  differ at character %d' % place, '  expected %s' % around(ours, place), '  answered %s' % around(theirs, place)]


def call_of_answer(script, at):
    """Which line of a script, from 0, has the answer of this number: empty lines have none."""
    calls = [number for number, line in enumerate(lines_of(script)) if line]
    return calls[at] if at < len(calls) else len(lines_of(script))


def left_out(arguments):
    """What is not compared because its command was not given, a line for each."""
    return ['not compared: %s, since --%s was not given' % (what, option)
            for what, option in (('the calls program', 'calls'), ('the program', 'program')) if not getattr(arguments, option)]

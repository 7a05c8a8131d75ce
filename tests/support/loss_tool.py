"""The tool ./loss, run over a trace, with the traces that it gives to replay and the lines that it gives to calls. A part of
checks/loss.py."""

import pathlib
import re
import shlex
import subprocess
import sys
import tempfile
import typing

from support.places import CORPUS, TOOLS
from support.real import must
from support.running import lines_of, text_of

SPARES, PARITY = (lines_of((CORPUS / ('tt_v17_ecm_v0.a2b.%s.hex' % name)).read_bytes()) for name in ('k3', 'n3m2'))
NAME = 'a & b.hex'
PYTHON = sys.executable, '-E', '-S'  # it starts sooner so
ROW = re.compile(r' *([0-9.]+) %' + r' +(-?[0-9]+)' * 6)
# A shell command that runs another before a trace and numbers, and keeps what that was given and what it answered.
KEEPING = '''keep() {
    folder=%s; count=0; [ ! -f "$folder/count" ] || read -r count <"$folder/count"
    at=$folder/$count; echo $((count + 1)) >"$folder/count"
    trace=$1; shift; cp "$trace" "$at.trace"; echo "$@" >"$at.numbers"
    %s "$trace" "$@" >"$at.results"
    status=$?; cat "$at.results"; return $status
}
keep'''
# A shell command that runs another, and keeps what that was asked and what it answered.
LISTENING = '''folder=%s; count=0; [ ! -f "$folder/talks" ] || read -r count <"$folder/talks"
at=$folder/$count; echo $((count + 1)) >"$folder/talks"
tee "$at.asked" | (%s) | tee "$at.answered"'''


def without_progress(said):
    """What was said, but for words about long work: on a busy machine any work is long."""
    return re.sub(r'loss: [0-9]+ of [0-9]+ steps done\n', '', said)


class Call(typing.NamedTuple):
    """A call of replay: the lines that it was given, the numbers to drop, and its results."""
    lines: list
    numbers: list
    results: list


class Talk(typing.NamedTuple):
    """What calls was asked, line by line, and what it answered."""
    asked: list
    answered: list


def kept(path):
    """A call of replay, from the file with its results."""
    given, numbers = path.with_suffix('.trace').read_bytes(), path.with_suffix('.numbers').read_text()
    return Call(lines_of(given), list(map(int, numbers.split())), lines_of(path.read_bytes()))


def in_order(folder, ending):
    """The files with this ending, which have the names 0, 1, 2 .."""
    return sorted(folder.glob('*' + ending), key=lambda path: int(path.stem))


class Ran(typing.NamedTuple):
    """A run of loss: its status, its rows, all that it wrote and said, its picture, the calls of replay, and the talks with calls."""
    status: int
    rows: list
    written: str
    said: str
    picture: str
    calls: list
    talks: list


def ran_in(folder, status, written, said, calls, talks):
    """A run that has ended, its picture in this folder."""
    matches = map(ROW.fullmatch, written.splitlines())
    rows = [[float(match[1]), *map(int, match.groups()[1:])] for match in matches if match]
    picture = folder / NAME.replace('.hex', '.svg')
    return Ran(status, rows, written, without_progress(said), picture.read_text() if picture.exists() else '', calls, talks)


class Loss:
    """../loss as its parts stand in a folder, with the programs that it drives, and so many lines of the traces that it is given."""

    def __init__(self, receive, replay, calls, tools=TOOLS, most=None):
        self.receive, self.replay, self.calls, self.tools = receive, replay, calls, tools
        self.spares, self.parity = SPARES[:most], PARITY[:most]

    def ran(self, lines, *options, listens=True):
        """One run over a trace of these lines. A program calls that ends too soon is not listened to: its end would not be seen."""
        with tempfile.TemporaryDirectory() as directory:
            folder = pathlib.Path(directory)
            (folder / NAME).write_bytes(text_of(lines))
            keeping = KEEPING % (shlex.quote(directory), self.replay)
            listening = LISTENING % (shlex.quote(directory), self.calls) if listens else self.calls
            programs = '--receive', self.receive, '--replay', keeping, '--calls', listening
            command = [*PYTHON, str(self.tools / 'loss.py'), *programs, *options, NAME]
            ended = subprocess.run(command, cwd=directory, stdout=subprocess.PIPE, stderr=subprocess.PIPE, text=True)
            calls = [kept(path) for path in in_order(folder, '.results')]
            talks = [Talk(*(lines_of(path.with_suffix(end).read_bytes()) for end in ('.asked', '.answered')))
                     for path in in_order(folder, '.asked')]
            return ran_in(folder, ended.returncode, ended.stdout, ended.stderr, calls, talks)

    def table(self, lines, *options):
        """One run that must end well."""
        ran = self.ran(lines, *options)
        must(ran.status == 0, 'status %d: %s', ran.status, ran.said)
        return ran


def refused(name, loss, lines, words):
    """What cannot be played is reported, with status 1."""
    ran = loss.ran(lines, '--steps', '1', listens=False)
    right = ran.status == 1 and not ran.written and words in ran.said and ran.said.count('\n') == 1
    must(right, '%s: status %d, %s%s', name, ran.status, ran.written, ran.said)

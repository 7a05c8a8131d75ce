"""./loss run in this process, with the independent program in place of its programs. A part of checks/loss.py, for its self-test."""

import collections
import contextlib
import importlib
import io
import os
import pathlib
import subprocess
import sys
import tempfile
import traceback
import types

from independent.calls import Calls
from independent.program import Program
from support.loss_tool import NAME, Call, Loss, Talk, ran_in
from support.running import lines_of, text_of
from support.standing_in import replayed

PARTS = 'loss', 'picture', 'playing'


class Asked:
    """A program that answers in this process: what is written to it is answered at once, and can then be read line by line."""

    def __init__(self, answers):
        self.answers, self.asked, self.answered, self.unread = answers, [], [], collections.deque()
        self.stdin = self.stdout = self

    def write(self, octets):
        """Lines for it."""
        for line in lines_of(octets):
            answers = self.answers(line)
            self.asked.append(line)
            self.answered.extend(answers)
            self.unread.extend(answers)

    def readline(self):
        """The next line of its answers."""
        return self.unread.popleft() + b'\n' if self.unread else b''

    def flush(self):
        """Nothing waits."""

    close = wait = flush


class Here(Loss):
    """../loss as Loss has it. What holds of the programs' commands in a run of its own stays true of commands that are not altered."""

    def __init__(self, *given, **chosen):
        super().__init__(*given, **chosen)
        sys.path.insert(0, str(self.tools))
        for part in PARTS:
            sys.modules.pop(part, None)
        self.tool, playing = importlib.import_module('loss'), importlib.import_module('playing')
        sys.path.pop(0)
        for part in PARTS:
            sys.modules.pop(part)
        playing.subprocess = types.SimpleNamespace(Popen=self.begun, run=self.played, PIPE=subprocess.PIPE)

    def begun(self, command, **_):
        """A program is begun, receive or calls."""
        if command == 'receive':
            return Asked(Program().results)
        calls = Calls()
        self.talks.append(Asked(lambda line: [calls.answer(line)]))
        return self.talks[-1]

    def played(self, command, **_):
        """replay plays a trace without some numbers."""
        _, trace, *numbers = command.split()
        lines, dropped = lines_of(pathlib.Path(trace).read_bytes()), list(map(int, numbers))
        results, counts = replayed(lines, dropped)
        self.kept.append(Call(lines, dropped, results))
        return types.SimpleNamespace(returncode=0, stdout=text_of(results), stderr=counts.encode())

    def ran(self, lines, *options, listens=True):
        """One run over a trace of these lines."""
        self.talks, self.kept = [], []
        kept, sys.argv = sys.argv, ['loss.py', '--receive', 'receive', '--replay', 'replay', '--calls', 'calls', *options, NAME]
        with tempfile.TemporaryDirectory() as directory, contextlib.redirect_stdout(io.StringIO()) as out, \
                contextlib.redirect_stderr(io.StringIO()) as errors:
            folder, before = pathlib.Path(directory), os.getcwd()
            (folder / NAME).write_bytes(text_of(lines))
            os.chdir(directory)
            try:
                status = self.tool.main()
            except Exception:
                traceback.print_exc()
                status = 1
            finally:
                os.chdir(before)
                sys.argv = kept
            return ran_in(folder, status, out.getvalue(), errors.getvalue(), self.kept,
                           [Talk(talk.asked, talk.answered) for talk in self.talks])

"""The independent program in place of receive, replay and calls, for the self-test of checks/loss.py.

Their shell commands ask threads of this process through pipes in a folder, so no run of a program has to start Python."""

import contextlib
import os
import pathlib
import shlex
import signal
import sys
import threading

from independent.calls import Calls
from independent.datagrams import read_datagram
from independent.program import Program, lines_read
from independent.refusals import Refusal
from support.running import text_of

TALKING = '''cd %s && mkfifo $$.in $$.out && echo NAME $$ >asked
cat $$.out & cat >$$.in
wait; rm $$.in $$.out
'''
REPLAY = '''cd %s && mkfifo $$.counts && echo replay $$ "$@" >asked
read -r counts <$$.counts
cat $$.results; echo "$counts" >&2
rm $$.counts $$.results
'''


def number_of(line):
    """The number of a line's datagram, None if it does not read."""
    try:
        return read_datagram(bytes.fromhex(line.decode('ascii'))).number if line else None
    except (Refusal, ValueError):
        return None


def replayed(lines, dropped):
    """What replay writes for lines without the datagrams of these numbers, and the four counts that it reports."""
    program = Program()
    results = [result for line in lines if number_of(line) not in dropped for result in program.results(line)]
    return results, 'received %d, spare %d, repaired %d, lost %d\n' % tuple(program.session.counts.values())


class StandingIn:
    """The programs as shell commands, in a folder. This process answers them before it ends, also if it is ended by a signal."""

    def __init__(self, folder):
        signal.signal(signal.SIGTERM, lambda *_: sys.exit(1))
        self.folder = pathlib.Path(folder)
        for name, text in (('receive', TALKING), ('replay', REPLAY), ('calls', TALKING)):
            (self.folder / name).write_text((text % shlex.quote(folder)).replace('NAME', name))
        os.mkfifo(self.folder / 'asked')
        threading.Thread(target=self.answer_all, daemon=True).start()

    def commands(self):
        """The shell commands of receive, of replay and of calls."""
        return tuple('sh %s' % shlex.quote(str(self.folder / name)) for name in ('receive', 'replay', 'calls'))

    def answer_all(self):
        """Has each command answered that asks: a line with the program, the name of its pipes, and its arguments."""
        with os.fdopen(os.open(self.folder / 'asked', os.O_RDWR)) as asked:
            for line in asked:
                program, *arguments = line.split()
                answers = {'receive': self.receive, 'replay': self.replay, 'calls': self.calls}
                threading.Thread(target=answers[program], args=arguments).start()

    def receive(self, name):
        """The program's results, line by line."""
        self.talk(name, Program().results)

    def calls(self, name):
        """The answers of calls, line by line."""
        calls = Calls()
        self.talk(name, lambda line: [calls.answer(line)])

    def talk(self, name, answers):
        """Answers each line through the pipes of this name."""
        with open(self.folder / (name + '.in'), 'rb') as given, open(self.folder / (name + '.out'), 'wb', buffering=0) as out:
            with contextlib.suppress(BrokenPipeError):
                for line in lines_read(given):
                    out.write(text_of(answers(line)))

    def replay(self, name, trace, *numbers):
        """The program's lines for the trace without the datagrams of these numbers, and the four counts on standard error."""
        with open(self.folder / (name + '.counts'), 'w') as out:
            with open(trace, 'rb') as given:
                results, counts = replayed(lines_read(given), {int(number, 0) for number in numbers})
            (self.folder / (name + '.results')).write_bytes(text_of(results))
            out.write(counts)

#!/usr/bin/env python3
# check: after
# self-test: beside
# needs: receive replay calls
# arguments: --receive 'bin/run receive' --replay 'bin/run replay' --calls 'bin/run calls'
# says: the table or the picture of loss is not what replay and calls answered
"""The tool ./loss (rules 21.1 and 21.2): its table must be what the programs answered, and its picture must show the table.

Also checks what it gives to replay: the trace, the datagrams that it drops, and where it gives up."""

import argparse
import os
import pathlib
import re
import shlex
import shutil
import subprocess
import sys
import tempfile
import xml.etree.ElementTree

sys.path[0] = str(pathlib.Path(__file__).resolve().parents[1])  # the folder tests/

from independent.program import Program
from mutants.loss import EDITS
from support.desk import edited
from support.failing import Cases
from support.loss_here import Here
from support.loss_solved import solved_together, wrong_calls
from support.loss_tool import NAME, PYTHON, SPARES, Loss, refused, without_progress
from support.places import TOOLS
from support.real import Wrong, must
from support.running import text_of
from support.standing_in import StandingIn, number_of

KINDS = b'00', b'01', b'02', b'03'
WORDS = 'received', 'from a spare copy', 'repaired by parity', 'only by solving', 'lost'
HEAD = re.compile(r' +dropped +datagrams +received +spare +repaired +solved +lost\n')
SVG = '{http://www.w3.org/2000/svg}'
NO_TRACE = 'no line of it is a datagram in hexadecimal; tools/lines-of makes a trace of a capture\n'
PLAYED = 'datagrams sent, 0 to 30 % of them dropped in bursts of 1 to 5 (seed 1); a number is given up when one 8 later was heard'
MIDDLE = 'it begins with number 32, and a call with 0: it was not recorded from the start\n'


def counted(loss):
    """Each row has what the program answered, as many datagrams as were dropped, and the counts that the independent program has."""
    for name, lines in (('spares', loss.spares), ('parity', loss.parity)):
        ran = loss.table(lines, '--steps', '3')
        must(HEAD.search(ran.written), '%s: no head', name)
        percents = [row[0] for row in ran.rows]
        must(percents == [0, 10, 20, 30] and len(ran.calls) == 4, '%s: rows of %s, %d calls', name, percents, len(ran.calls))
        for (percent, dropped, *counts), call in zip(ran.rows, ran.calls):
            where = '%s, %g %%' % (name, percent)
            found = [sum(result[:2] == kind for result in call.results) for kind in KINDS]
            counts[3:] = [sum(counts[3:])]  # lost where nothing is solved
            must(counts == found, '%s: %s, answered %s', where, counts, found)
            program = Program()
            for line in call.lines:
                if number_of(line) not in call.numbers:
                    program.results(line)
            must(counts == list(program.session.counts.values()), '%s: %s is not as the independent program has it', where, counts)
            listed = sum(number_of(line) in call.numbers for line in call.lines)
            must(dropped == listed == round(len(lines) * percent / 100), '%s: %d dropped, %d listed', where, dropped, listed)
            must(sum(counts) == len(lines), '%s: %d numbers of %d left', where, sum(counts), len(lines))
    return '8 rows'


def without_options(loss):
    """As a salesman calls it: 16 rows, and what was played."""
    ran = loss.table(loss.parity)
    must([row[0] for row in ran.rows] == list(range(0, 32, 2)), 'rows of %s', [row[0] for row in ran.rows])
    first = ran.written.splitlines()[0]
    must(first == '%d %s' % (len(loss.parity), PLAYED) and first in ran.picture, 'reported as %s', first)


def nothing_dropped(loss):
    """With nothing dropped all is received and nothing lost."""
    for lines in (loss.spares, loss.parity):
        first = loss.table(lines, '--steps', '1').rows[0]
        must(first == [0, 0, len(lines), 0, 0, 0, 0], 'at 0 %%: %s', first)


def dropped_in_bursts(loss):
    """Datagrams are dropped 1 to 5 in a row, with one between two; each step drops the same and more."""
    calls = loss.table(loss.parity, '--steps', '3', '--seed', 'b').calls
    for before, call in zip([calls[0]] + calls, calls):
        must(set(before.numbers) <= set(call.numbers), 'dropped before, and then not: %s', set(before.numbers) - set(call.numbers))
    runs = ''.join('x' if number in calls[-1].numbers else ' ' for number in range(len(loss.parity))).split()
    lengths = {len(run) for run in runs}
    must({1, 5} <= lengths <= {1, 2, 3, 4, 5}, 'bursts of %s', lengths)
    return '%d bursts' % len(runs)


def given_up(loss):
    """What is played is the trace, with give-ups exactly where a number is late; at the end all numbers have left."""
    for lines, patience in ((loss.spares, 1), (loss.parity, 8), (loss.parity, 31)):
        for call in loss.table(lines, '--steps', '2', '--patience', str(patience)).calls:
            must([line for line in call.lines if line] == lines, 'another trace is played')
            last = max(at for at, line in enumerate(call.lines) if line)
            program, highest = Program(), -1
            for at, line in enumerate(call.lines):
                late = highest - program.session.total() >= patience
                must(late or line or at > last, 'patience %d, line %d: given up too early', patience, at)
                must(not (late and line), 'patience %d, line %d: given up too late', patience, at)
                if number_of(line) not in call.numbers:
                    program.results(line)
                    highest = max(highest, -1 if not line else number_of(line))
            must(program.session.total() == len(lines), 'patience %d: %d numbers left', patience, program.session.total())


def seeded(loss):
    """The same seed drops the same datagrams and gives the same table and picture, another one another."""
    one, same, other = (loss.table(loss.parity, '--steps', '1', '--seed', seed) for seed in ('one', 'one', 'two'))
    must((one.written, one.picture) == (same.written, same.picture) and one.calls[-1].numbers == same.calls[-1].numbers,
         'the same seed gives another table, or drops others')
    must(one.rows != other.rows and one.calls[-1].numbers != other.calls[-1].numbers, 'another seed gives the same table')


def pictured(loss):
    """The picture is well formed, shows each number of the table in its column, and its areas are as high as the table says."""
    ran = loss.table(loss.parity, '--steps', '2')
    must('the picture is in a & b.svg' in ran.said, 'not said where the picture is: %s', ran.said)
    try:
        svg = xml.etree.ElementTree.fromstring(ran.picture)
    except xml.etree.ElementTree.ParseError as wrong:
        raise Wrong('the picture is not well formed: %s' % wrong)
    texts = [(float(text.get('y')), float(text.get('x')), text.text) for text in svg.iter(SVG + 'text')]
    shown = [[words for y, x, words in sorted(texts) if y == height] for height in sorted({y for y, _, _ in texts})]
    heads = ('dropped by the line', 'datagrams dropped', *WORDS)
    columns = [['%g %%' % row[0] for row in ran.rows]] + [[str(row[at]) for row in ran.rows] for at in range(1, 7)]
    for head, column in zip(heads, columns):
        must([head, *column] in shown, 'not shown: %s, %s', head, column)
    must('share of all %d packets' % len(loss.parity) in (words for _, _, words in texts), 'the axis is not named')
    must(any(NAME in words for _, _, words in texts), 'the trace is not named')
    areas = [[tuple(map(float, point.split(','))) for point in area.get('points').split()] for area in svg.iter(SVG + 'polygon')]
    scale = (areas[0][-1][1] - areas[-1][0][1]) / len(loss.parity)
    for kind, area in enumerate(areas):
        for row, above, below in zip(ran.rows, area[:len(ran.rows)], reversed(area[len(ran.rows):])):
            must(abs((below[1] - above[1]) - scale * row[2 + kind]) < 0.2, 'the area of %s at %g %%: %s', WORDS[kind], row[0], area)
    must(len(areas) == 5 and scale > 1, '%d areas', len(areas))


def odd_traces(loss):
    """Lines that do not read, repeated and late datagrams, a gap, empty lines: what reads is dropped or not, and all numbers leave."""
    lines = [b'', b'no line', b'80'] + SPARES[1:60] + SPARES[20:60] + [b'', b'0002'] + SPARES[100:120] + [SPARES[0]]
    ran = loss.table(lines, '--steps', '2')
    for (_, dropped, *counts), call in zip(ran.rows, ran.calls):
        must([line for line in call.lines if line] == [line for line in lines if line], 'another trace is played')
        must(sum(counts) == 120, '%s: not 120 numbers', counts)
        must(sum(result.startswith(b'FF0F') for result in call.results) == 1, 'a line that does not read is not played')
        listed = sum(number_of(line) in call.numbers for line in lines)
        must(listed == dropped, '%d dropped, %d listed', dropped, listed)
    must(ran.rows[0][1:] == [0, 78, 4, 0, 0, 38], 'as recorded: %s', ran.rows[0])


def wrong_traces(loss):
    """Traces that are none, and a part of one."""
    for name, lines, words in (('no trace', [b'no line', b'80'], NO_TRACE), ('nothing', [], NO_TRACE),
                               ('the middle of a call', SPARES[32:], MIDDLE)):
        refused(name, loss, lines, words)


def wrong_receive(loss):
    """A program receive that ends, is not there, or does not give up."""
    for name, lines, receive, words in (
            ('receive that ends', SPARES, 'sed -u 5q | ' + loss.receive, 'receive ended before its time\n'),
            ('receive that is not there', SPARES, 'exit 3', 'receive ended before its time\n'),
            ('receive that does not give up', SPARES[8:31], loss.receive + ' | sed -u s/^03/FF/', 'receive does not give up: FF0000\n')):
        refused(name, Loss(receive, loss.replay, loss.calls, loss.tools), lines, words)


def wrong_replay(loss):
    """A program replay that fails, or whose counts, lines or numbers are wrong."""
    for name, replay, words in (
            ('replay that fails', 'echo no >&2; exit 3; ', 'replay ended with status 3: no\n'),
            ('replay that ends badly', 'f() { %s "$@"; exit 3; }; f' % loss.replay, 'status 3: received 160, spare 0, '),
            ('replay without counts', 'true', 'replay ended with status 0: \n'),
            ('other counts', loss.replay + ' /dev/null; echo 000000; true', 'replay reports other counts than its lines have\n'),
            ('too few numbers', loss.replay + ' /dev/null; true', 'replay released or lost 0 numbers of 160\n')):
        refused(name, Loss(loss.receive, replay, loss.calls, loss.tools), SPARES, words)


def proved_first(loss):
    """Without commands the programs are proved and built first; what is said of that is passed on, and no more."""
    with tempfile.TemporaryDirectory() as directory:
        folder = pathlib.Path(directory)
        shutil.copytree(loss.tools, folder / 'tools', ignore=shutil.ignore_patterns('__pycache__'))
        for name, text in (('receive', 'echo receive: 1 of 1 proved: receive >&2; exit ${RECEIVE-0}'),
                           ('replay', '[ "$*" = /dev/null ] && echo received 0, spare 0, repaired 0, lost 0 >&2'),
                           ('calls', 'echo calls: 1 of 1 proved: calls >&2'),
                           ('run', 'name=$1; shift; case $name in receive) %s ;; replay) %s "$@" ;; calls) %s ;; esac'
                            % (loss.receive, loss.replay, loss.calls))):
            path = folder / ('bin/run' if name == 'run' else name)
            path.parent.mkdir(exist_ok=True)
            path.write_text('#!/bin/sh\n%s\n' % text)
            path.chmod(0o755)
        (folder / 'a.hex').write_bytes(text_of(SPARES[:9]))
        for status, said in (('0', 'receive: 1 of 1 proved: receive\ncalls: 1 of 1 proved: calls\nloss: the picture is in a.svg\n'),
                             ('3', 'receive: 1 of 1 proved: receive\nloss: a.hex: receive cannot be run\n')):
            ended = subprocess.run([*PYTHON, 'tools/loss.py', '--steps', '1', 'a.hex'], cwd=directory, stdout=subprocess.PIPE,
                                   stderr=subprocess.PIPE, text=True, env={**os.environ, 'RECEIVE': status})
            found = without_progress(ended.stderr)
            must(found == said and ended.returncode == int(status != '0'), 'status %d, %s', ended.returncode, found)
            must(('30 %          3          6 ' in ended.stdout) == (status == '0'), 'written: %s', ended.stdout)


CHECKS = {
    'the table as replay answered': counted, 'without options': without_options, 'nothing dropped': nothing_dropped,
    'bursts': dropped_in_bursts, 'give-ups': given_up, 'the seed': seeded, 'the picture': pictured, 'odd traces': odd_traces,
    'traces that are refused': wrong_traces, 'a wrong receive': wrong_receive, 'a wrong replay': wrong_replay,
    'what only solving brings back': solved_together, 'a wrong calls': wrong_calls, 'programs proved first': proved_first}


def self_test():
    """Wrong tools, each one edit of the right one, and what is said of each; the independent program replaces the programs."""
    test = Cases('loss.py')
    with tempfile.TemporaryDirectory() as folder:
        commands = StandingIn(folder).commands()
        for name, part, old, new, check, words in EDITS:
            with tempfile.TemporaryDirectory() as directory:
                test.fails(name, words, CHECKS[check], Here(*commands, edited(directory, part, old, new), 60))
        programs = ['--receive', commands[0], '--replay', 'false', '--calls', commands[2]]
        test.ends('a wrong tool', 1, '0 passed, 1 failed', [sys.executable, __file__, *programs])
    test.end()


def main():
    """Does each check; ends with status 1 at the first that is wrong."""
    parser = argparse.ArgumentParser(description=__doc__)
    parser.add_argument('--receive', help='shell command of the program receive')
    parser.add_argument('--replay', help='shell command of the program replay, before a trace and numbers')
    parser.add_argument('--calls', help='shell command of the program calls')
    parser.add_argument('--tools', type=pathlib.Path, default=TOOLS, help='the folder of the tool under test')
    parser.add_argument('--self-test', action='store_true', help='check that wrong tools are reported')
    arguments = parser.parse_args()
    if arguments.self_test:
        self_test()
        return
    if not (arguments.receive and arguments.replay and arguments.calls):
        parser.error('three commands are needed: --receive, --replay and --calls')
    here = 'cd %s && ' % shlex.quote(os.getcwd())
    loss = Loss('(%s%s)' % (here, arguments.receive), here + arguments.replay, '(%s%s)' % (here, arguments.calls), arguments.tools)
    for passed, (name, check) in enumerate(CHECKS.items()):
        try:
            remark = check(loss)
        except Wrong as wrong:
            print('wrong %s: %s' % (name, wrong))
            print('%d passed, 1 failed' % passed)
            sys.exit(1)
        print('ok %s%s' % (name, '; ' + remark if remark else ''), flush=True)
    print('%d passed, 0 failed' % len(CHECKS))


if __name__ == '__main__':
    main()

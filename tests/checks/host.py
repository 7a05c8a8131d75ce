#!/usr/bin/env python3
# check: after
# self-test: after
# needs: host
# says: a program over the C interface answers otherwise, or a sheet is booked wrongly
"""The library in C programs (rules 24.1 to 24.17): builds it and them, and compares each program over the header with the independent
program, on every stored and generated input; then some sheets of bin/thousand, the policy and the gateway over it, the stack that each call
needs, the header in C99, its names, and the version where it is named."""

import argparse
import functools
import importlib.machinery
import importlib.util
import os
import pathlib
import re
import shlex
import subprocess
import sys
import tempfile

sys.path[0] = str(pathlib.Path(__file__).resolve().parents[1])  # the folder tests/

from mutants.header import HEADER_EDITS, MISTAKES, NO_HEADERS, POLICY_EDITS
from support.c_tools import native, toolchain, tools
from support.comparing import Failed, compare_calls, compare_program, comparisons
from support.failing import Cases, altered, independent
from support.missing import of_machines
from support.packaged import VERSIONS, header_compiles, installed, library_is_plain, named, numbers_agree, one_version
from support.places import BIN, CORPUS, TESTS, TOP
from support.policies import build_policy, compiled, edited
from support.running import expected_answers, lines_of, run, text_of

RUN = shlex.quote(str(BIN / 'run-host'))
SCRIPTS = 'stored ', 'calls of seed 0', 'calls of seed 1'
LONG = 'stored ', 'calls of seed ', 'images of seed '
# A C program of host/, with each of these arguments; the calls that it answers, none if it does what the program does; the inputs for it.
PROGRAMS = (
    ('receive', ('', ' unchecked'), (), ''),
    ('overwritten', ('',), (0x10, 0x11, 0x12, 0x14, 0x15, 0x16, 0x17, 0x20, 0x21, 0x22, 0x23), SCRIPTS),
    ('packets', ('',), (0x05, 0x06), (*SCRIPTS, 'calls on packets ')),
    ('joiner', ('',), (0x30, 0x31, 0x32, 0x33, 0x34), (*SCRIPTS, 'calls on the joiner ')),
    ('sessions', ('', ' unchecked'), (0x10, 0x11, 0x12, 0x14, 0x16, 0x18, 0x19, 0x1A, 0x20, 0x21, 0x22), ('stored ', 'images of seed 0')),
)
ALONE = ('full', 'edges', 'stack')  # C programs of host/ that look at their answers themselves
THOUSAND = '%s %%d 1 2>/dev/null' % shlex.quote(str(BIN / 'thousand'))
SHEETS, LONG_SHEETS = 40, 1000
# Switches of the gateway, how many packets each end then sends, and what each end must say once.
GATEWAY = (('-n 30 -t 1 -w 30 -l 20 -r 20 -k 3', 30, ()), ('-n 50 -t 1 -w 30 -l 30 -r 20 -p 3,2', 50, ()),
           ('-n 250 -t 1 -w 30 -l 0 -r 0 -b 150 -i 100', 250,
            ('the peer began again', 'the session moved', "frame 'line 124 of the page", 'frames 125')))
NO_SWITCHES = '-n x', '-n 0', '-l 500', '-k 9', '-p 3', '-p 3,5', '-w -1', '-n 9x', 'more'
COUNTS = re.compile(r'^(east|west): received (\d+), spare (\d+), repaired (\d+), lost (\d+),', re.MULTILINE)


@functools.lru_cache(None)
def all_inputs():
    """The comparisons of compare.py: a name, what compares, and what makes it, which is done once."""
    every = argparse.Namespace(calls='', program='', seed='', limit=False)
    return [(name, compare, functools.lru_cache(None)(make)) for name, _, compare, make in comparisons(every)]


def inputs(calls, beginnings):
    """What a program is given, and what it must answer: a script is cut to its lines that are such calls."""
    for name, compare, make in all_inputs():
        if compare is (compare_calls if calls else compare_program) and name.startswith(beginnings):
            given, expected = make()
            if calls:
                given, expected = cut_to(calls, given)
            if given or not calls:
                yield name, given, expected


@functools.lru_cache(None)
def cut_to(calls, script):
    """The lines of a script that are such calls, and the independent program's answers to these alone."""
    first = {b'%02X' % call for call in calls}
    lines = [line for line in lines_of(script) if line[:2].upper() in first]
    answers = lines_of(expected_answers(text_of(lines)))
    kept = [(line, answer) for line, answer in zip(lines, answers) if answer != b'EE']
    return text_of(line for line, _ in kept), text_of(answer for _, answer in kept)


def compared(commands, calls, beginnings):
    """A program answers each input as the independent one does, by each command; how many inputs, and how many lines."""
    count = lines = 0
    for name, given, expected in inputs(calls, beginnings):
        for command in commands:
            (compare_calls if calls else compare_program)(name, command, given, expected)
        count, lines = count + 1, lines + given.count(b'\n')
    return '%d inputs, %d lines' % (count, lines)


def sheets_booked(command):
    """Some sheets through a bad line, each number booked as it was sent, each answer as the line asks."""
    written, remark = run(command, b'')
    said = written.decode().splitlines()
    if remark or said[-1:] != ['0 booked wrongly']:
        raise Failed('sheets: %s; %s' % (remark, ''.join(said[-1:])))
    if re.search(r' 0\b', said[2]):
        raise Failed('sheets: a refusal is not met; %s' % said[2])
    return ', '.join(' '.join(pair) for pair in zip(said[0].split(), said[1].split()))


def right_alone(command):
    """A program says as its last line that nothing failed."""
    written, remark = run(command, b'')
    last = ''.join(written.decode().splitlines()[-1:])
    if remark or not re.fullmatch('[1-9][0-9]* passed, 0 failed', last):
        raise Failed('%s; %s' % (remark, written.decode()))
    return last


def page_sent(command, packets, said=()):
    """Two ends have each sent the other that many packets; each number has left, and each end has said these words once."""
    written, remark = run(command, b'')
    found = COUNTS.findall(written.decode())
    if remark or [name for name, *_ in found] != ['east', 'west']:
        raise Failed('gateway: it does not end with a line for each end; %s' % remark)
    for words in said:
        if written.decode().count(words) != 2:
            raise Failed("gateway: it says '%s' %d times" % (words, written.decode().count(words)))
    for name, *counts in found:
        if sum(map(int, counts)) != packets:
            raise Failed('gateway: %d of %d packets have left at the end %s' % (sum(map(int, counts)), packets, name))
    return '; '.join('%s received %s, spare %s, repaired %s, lost %s' % counts for counts in found)


def switches_refused(command):
    """What is no number, or outside its range, is answered with the usage and status 2."""
    for switches in NO_SWITCHES:
        ran = subprocess.run('%s %s' % (command, switches), shell=True, stdout=subprocess.PIPE, stderr=subprocess.PIPE)
        if ran.returncode != 2 or not ran.stderr.startswith(b'usage: '):
            raise Failed('gateway: %s is taken, or ends with status %d' % (switches, ran.returncode))
    return '%d refused' % len(NO_SWITCHES)


def over_symbols():
    """The calls as functions of the library, which other languages link with: host/receive.c, with no call inline."""
    status, words = compiled('tests/host/receive.c', 'symbols', ['-O0', '-DTBX_CALL=extern __inline __attribute__((gnu_inline))'])
    if status:
        raise Failed('symbols: %s' % words)
    return compared([RUN + ' symbols', RUN + ' symbols unchecked'], (), ('stored star', 'stored r'))


def checks(run_by, long=False):
    """All checks, in the long form with every script that is made and with more sheets: a name, and what does it."""
    yield 'the version', one_version
    yield 'sizes and refusals', numbers_agree
    yield 'the header compiles', header_compiles
    yield 'the library has no variables', library_is_plain
    yield 'the names', lambda: named('%s edges names' % run_by)
    yield 'make install', installed
    for program, arguments, calls, beginnings in PROGRAMS:
        given = calls, LONG + tuple(beginnings) if long and calls else beginnings
        yield program, lambda p=program, a=arguments, g=given: compared(['%s %s%s' % (run_by, p, each) for each in a], *g)
    yield 'the calls as functions of the library', over_symbols
    for name in (*ALONE, 'policy'):
        yield name, lambda n=name: right_alone('%s %s' % (run_by, n))
    yield 'sheets', lambda: sheets_booked(THOUSAND % (LONG_SHEETS if long else SHEETS))
    yield 'gateway, wrong switches', lambda: switches_refused('%s gateway' % run_by)
    for switches, *owed in GATEWAY:
        yield 'gateway ' + switches, lambda s=switches, o=owed: page_sent('%s gateway %s' % (run_by, s), *o)


def build(*sources, **settings):
    """Builds the library, if it is not built, and the programs of these sources and names."""
    ended = subprocess.run([str(BIN / 'build-host'), *sources], env={**os.environ, **settings})
    if ended.returncode:
        sys.exit(ended.returncode)


def build_all():
    """The same with every program."""
    names = ('thousand', *ALONE, *(row[0] for row in PROGRAMS))
    build('examples/gateway.c', 'gateway', *(word for name in names for word in ('tests/host/%s.c' % name, name)))
    build('tests/host/policy.c', 'policy', CFLAGS='-O2 -Iexamples')


def over_wrong_header(program, call, old, new):
    """A program over a header with an edit in one place, on the stored inputs, if it takes any."""
    text = edited((TOP / 'include/tubarexi.h').read_text(), old, new, call)
    status, words = compiled('tests/host/%s.c' % program, 'wrong', tubarexi=text)
    if status:
        sys.exit(words)
    if program in ALONE:
        right_alone(RUN + ' wrong')
    else:
        arguments, calls = next(row[1:3] for row in PROGRAMS if row[0] == program)
        compared([RUN + ' wrong' + each for each in arguments], calls, ('stored star', 'stored r'))


def linked(library, old='', new=''):
    """A program links with the library, over the header with an edit."""
    text = (TOP / 'include/tubarexi.h').read_text()
    status, words = compiled('tests/host/receive.c', 'wrong', library=library, tubarexi=edited(text, old, new) if old else text)
    if status:
        raise Failed(words)


def over_wrong_policy(*edit):
    """The scenes of host/policy.c over a policy with an edit."""
    build_policy('wrong', edit)
    right_alone(RUN + ' wrong')


def module_of(name):
    """A script as a module."""
    loader = importlib.machinery.SourceFileLoader('script', str(TESTS / name))
    module = importlib.util.module_from_spec(importlib.util.spec_from_loader('script', loader))
    loader.exec_module(module)
    return module


def self_test():
    """Wrong programs, and what is said of each; the right ones pass."""
    test = Cases('host.py')
    of_machines(test)
    calls, stored = PROGRAMS[1][2], ('stored star', 'stored both', 'stored whole', 'stored reading')
    test.passes('a right program', compared, [independent('program')], (), stored)
    test.fails('a wrong program', 'differs stored both-cases', compared, [independent('program'), altered('program 00 5')], (), stored)
    test.passes('right calls', compared, [independent()], (0x10, 0x11, 0x12), 'stored star')
    for how in ('11 -1', '12 -1', '14 9', '21 -1'):
        test.fails('wrong calls, ' + how, 'differs stored', compared, [altered('calls ' + how)], calls, stored)
    for program, name, *edit in HEADER_EDITS:
        words = 'status ' if program in ALONE else 'differs stored'
        test.fails('header, ' + name, words, over_wrong_header, program, *edit)
    for name, old, new, words in NO_HEADERS:
        test.fails('header, ' + name, words, linked, TOP / 'target/host/libtubarexi.a', old, new)
    test.fails('a library of another layout', 'tbx_layout_', linked, TOP / 'target/host/proved.a')
    for name, *edit in POLICY_EDITS:
        test.fails('policy, ' + name, 'differs: ', over_wrong_policy, *edit)
    corpus = 'cat %s/*.[ab]2[ab].hex' % shlex.quote(str(CORPUS))
    for mistake in MISTAKES:
        test.fails('sheets, ' + mistake, ' booked wrongly', sheets_booked, '%s | %s thousand 10 1 %s 2>/dev/null' % (corpus, RUN, mistake))
    test.passes('a program alone', right_alone, 'echo 3 passed, 0 failed')
    for wrong, words in (('echo 3 passed, 1 failed', '3 passed, 1 failed'), ('echo 0 passed, 0 failed', '; 0 passed'),
                         ('echo 3 passed, 0 failed; exit 3', 'status 3')):
        test.fails('a program alone, ' + wrong, words, right_alone, wrong)
    said = 'echo east: received 1, spare 2, repaired 3, lost 4, ; echo %s: received 1, spare 2, repaired 3, lost %d, '
    test.passes('gateway', page_sent, said % ('west', 4), 10)
    for name, words, command in (('another end', 'a line for each end', said % ('north', 4)),
                                 ('a packet less', '9 of 10 packets have left at the end west', said % ('west', 3)),
                                 ('status 3', 'a line for each end; status 3', said % ('west', 4) + '; exit 3')):
        test.fails('gateway, ' + name, words, page_sent, command, 10)
    test.fails('gateway, words said once', "it says 'west' 1 times", page_sent, said % ('west', 4), 10, ['west'])
    test.fails('gateway, a wrong switch taken', 'gateway: -n x is taken', switches_refused, 'true')
    test.fails('names, another one', 'names: of indicator', named, RUN + ' edges names | sed s/cng/ced/')
    test.fails('names, a refusal twice', 'names: of refusals', named, RUN + " edges names | sed 's/refusal 9 .*/refusal 9 no refusal/'")
    with tempfile.TemporaryDirectory() as directory:
        top = pathlib.Path(directory)
        (top / 'include').mkdir()
        for place, (wrong, _) in enumerate(VERSIONS):
            for name, _ in VERSIONS:
                text = (TOP / name).read_text()
                (top / name).write_text(text.replace(one_version(), '9.9.9', 1) if name == wrong else text)
            test.fails('another version in ' + wrong, 'name [[', one_version, top)
        header = top / 'include/tubarexi.h'
        right = header.read_text()
        for old, new, words in (('TBX_KEPT = 64', 'TBX_KEPT = 63', 'KEPT is 63, and 64'),
                                ('TBX_LATE = 9', 'TBX_LATE = 8', 'LATE is 8, and 9'),
                                ('TBX_FIELDS = 16', 'TBX_FIELD = 16', 'FIELDS is None, and 16')):
            header.write_text(right.replace(old, new))
            test.fails('a header with ' + new, 'numbers: ' + words, numbers_agree, header)
        header.write_text(right + 'static int unused(void) { return 0; }\n')
        for name, text, words in (('a variable', 'static int kept; int f(void) { return kept++; }', "['b kept']"),
                                  ('a heap', 'void *malloc(unsigned long); void *f(void) { return malloc(9); }', "['U malloc']")):
            subprocess.run([*tools('cc')[0], '-c', '-x', 'c', '-o', str(top / 'made.o'), '-'], input=text.encode(), check=True)
            test.fails('a library with ' + name, 'library: ' + words, library_is_plain, top / 'made.o')
        test.fails('no library', 'library: ', library_is_plain, top / 'nowhere')
        test.fails('a header with a warning', 'header: as c99 it does not compile', header_compiles, header.parent)
        header.write_text(edited(right, 'tbx_packet_write(enum tbx_edition edition, enum tbx_packet_kind kind,',
                                 'tbx_packet_write(unsigned edition, unsigned kind,'))
        test.fails('a header that takes numbers', 'header: as c99 it compiles with TBX_DATA, ', header_compiles, header.parent)
    measure = module_of('host/measure')
    test.passes('the goal met', measure.held_to_goal, 1.5)
    test.fails('the goal missed', 'worst 1.51 of C, goal 1.5', measure.held_to_goal, 1.51)
    test.fails('fewer numbers', 'do not return as many numbers', measure.ratio, 'k3', 9, [(1, b'9 9\n'), (1, b'9 9\n'), (1, b'9 8\n')])
    test.ends('a wrong program', 1, '4 passed, 1 failed', [sys.executable, __file__, '--run', 'true'])
    test.end()


def main():
    """Does each check; ends with status 1 at the first that is wrong."""
    parser = argparse.ArgumentParser(description=__doc__)
    parser.add_argument('--run', default=RUN, help='shell command that runs a C program of tests/host; its name is added')
    parser.add_argument('--long', action='store_true', help='every script of calls that is made, and %d sheets' % LONG_SHEETS)
    parser.add_argument('--self-test', action='store_true', help='check that wrong programs are reported')
    arguments = parser.parse_args()
    tools('cc', 'nm')
    if not native():
        toolchain()
    if arguments.run == RUN:
        build_all()
    if arguments.self_test:
        self_test()
        return
    passed = 0
    for name, check in checks(arguments.run, arguments.long):
        try:
            remark = check()
        except Failed as failed:
            print('wrong %s: %s' % (name, failed))
            print('%d passed, 1 failed' % passed)
            sys.exit(1)
        passed += 1
        print('ok %s: %s' % (name, remark), flush=True)
    print('%d passed, 0 failed' % passed)


if __name__ == '__main__':
    main()

"""Instructions and copied octets of a run by function of the source, inlined or not, counted by valgrind.

An instruction belongs to every function that it was inlined from, and so does what it calls. A copy of the C library is counted as
its loop over vectors, and not as one instruction that repeats an octet at a time, so that counts of two machines can be compared."""

import collections
import json
import os
import re
import subprocess
import sys

from speed import sourced
from support.c_tools import tools
from support.places import BIN

RUN = str(BIN / 'run')
PLAIN_LOOPS = 'glibc.cpu.x86_rep_movsb_threshold=1000000000:glibc.cpu.x86_rep_stosb_threshold=1000000000'


def built(crate, room, more=()):
    """The path of a program built anew, whose functions can be counted: what counts them is looked for first."""
    tools('valgrind', 'addr2line', 'objdump')
    return sourced.built(crate, room, more)


def watched(tool, program, lines, arguments=()):
    """Runs a program under valgrind's tool; what valgrind says."""
    counter = ' '.join([*tools('valgrind')[0], tool])
    environment = {**os.environ, 'COUNTER': counter, 'GLIBC_TUNABLES': PLAIN_LOOPS, 'LD_BIND_NOW': '1'}
    ran = subprocess.run([RUN, program, *arguments], input=lines, stdout=subprocess.DEVNULL, stderr=subprocess.PIPE, env=environment)
    if ran.returncode:
        sys.exit('not counted: %s ended with status %d' % (program, ran.returncode))
    return ran.stderr.decode()


def whole(program, lines, arguments=()):
    """All instructions of a run."""
    said = watched('--tool=callgrind --callgrind-out-file=/dev/null', program, lines, arguments)
    return int(re.search(r'Collected\s*:\s*(\d+)', said).group(1))


def same_code(program, lines):
    """`calls` built anew takes as many instructions as the proved one, but for one in a thousand: their paths and stacks differ."""
    proved, anew = (whole(one, lines) for one in ('calls', program))
    if abs(proved - anew) * 1000 > proved:
        sys.exit('the program built anew takes %d instructions, the proved one %d: ./calls builds it again' % (anew, proved))


def is_called(pattern, name):
    """Whether a function's name is what 'crate::function' means, in whatever module of the crate it is."""
    crate, _, function = pattern.partition('::')
    return bool(re.fullmatch(r'%s::(\w+::)*%s' % (crate, function), name))


class Run:
    """A run of a program that sourced.py built: what each instruction cost, and what it called."""

    def __init__(self, program, lines, room):
        path = room / 'callgrind.out'
        watched('--tool=callgrind --dump-instr=yes --compress-strings=no --compress-pos=no --callgrind-out-file=%s' % path, program, lines)
        self.program = program
        self.costs, self.calls, self.outside = collections.Counter(), [], 0
        self.read(path)
        self.chains = self.chains_of(sorted(set(self.costs) | {at for at, _, _ in self.calls}))
        self.names = self.imported()
        self.called = collections.defaultdict(list)
        for at, callee, cost in self.calls:
            self.called[at].append((callee, cost))

    def read(self, path):
        """Takes callgrind's file apart: the program's own instructions, and the calls that they make with all below them."""
        inside, callee, callee_inside, next_is_call = False, '', False, False
        for line in path.read_text().splitlines():
            key, _, value = line.partition('=')
            if key == 'ob':
                inside = callee_inside = value == self.program
            elif key == 'fn':
                callee_inside = inside
            elif key == 'cob':
                callee_inside = value == self.program
            elif key == 'cfn':
                callee = value
            elif key == 'calls':
                next_is_call = True
            elif line.startswith('0x'):
                words = line.split()
                if next_is_call and inside:
                    self.calls.append((int(words[0], 16), callee if callee_inside else None, int(words[-1])))
                elif not next_is_call and inside:
                    self.costs[int(words[0], 16)] += int(words[-1])
                elif not next_is_call:
                    self.outside += int(words[-1])
                if next_is_call:
                    next_is_call, callee_inside = False, inside

    def chains_of(self, places):
        """For each instruction its function and those that it was inlined into, innermost first."""
        given = ''.join('%x\n' % place for place in places)
        said = subprocess.run([*tools('addr2line')[0], '-e', self.program, '-f', '-i', '-a'], input=given.encode(),
                              stdout=subprocess.PIPE, check=True)
        parts = re.split(r'^0x[0-9a-f]+\n', said.stdout.decode(), flags=re.M)[1:]
        return {place: part.split('\n')[:-1:2] for place, part in zip(places, parts)}

    def imported(self):
        """For each call of the C library which of its functions that is."""
        said = subprocess.run([*tools('objdump')[0], '-d', '--no-show-raw-insn', self.program], stdout=subprocess.PIPE,
                              check=True).stdout.decode()
        return {int(at, 16): name for at, name in re.findall(r'^ *([0-9a-f]+):\t(?:call|jmp)\S* .*<(\w+)@plt>', said, re.M)}

    def all(self):
        """All instructions."""
        return sum(self.costs.values()) + self.outside

    def own(self):
        """Instructions of each function alone, and of each function of the C library that the program calls."""
        counts = collections.Counter()
        for place, cost in self.costs.items():
            counts[self.chains[place][0]] += cost
        for place, callee, cost in self.calls:
            if callee is None:
                counts[self.names.get(place, 'the C library')] += cost
        return counts

    def within(self, pattern, under=None):
        """Instructions of a function and all that it calls; if another is given, only where that one called it."""
        found = [place for place, chain in self.chains.items() if any(is_called(pattern, name) for name in chain)]
        if under is not None:
            return self.part_of(under, lambda place, callee: any(is_called(pattern, name) for name in self.chains[place]))
        if not found:
            sys.exit('no function %s ran' % pattern)
        return sum(self.costs[place] + sum(cost for _, cost in self.called[place]) for place in found)

    def library(self, under):
        """Instructions of the C library (copies and clears) in a function and all that it calls."""
        return self.part_of(under, lambda place, callee: callee is None)

    def part_of(self, under, counted):
        """Instructions in a function and all that it calls, of the instructions and calls that are counted."""
        total = 0
        for place, chain in self.chains.items():
            if any(is_called(under, name) for name in chain):
                total += self.part_at(place, counted)
        return total

    def part_at(self, place, counted):
        """The same of one instruction and what it calls: a function that is not inlined has the same share wherever it is called."""
        if counted(place, ''):
            return self.costs[place] + sum(cost for _, cost in self.called[place])
        total = 0
        for callee, cost in self.called[place]:
            total += cost if counted(place, callee) else cost * self.share_of(callee, counted) if callee else 0
        return total

    def share_of(self, function, counted):
        """Which share of a function's instructions, with all that it calls, is counted."""
        inside = [place for place, chain in self.chains.items() if chain[-1] == function]
        whole_cost = sum(self.costs[place] + sum(cost for _, cost in self.called[place]) for place in inside)
        return sum(self.part_at(place, counted) for place in inside) / whole_cost if whole_cost else 0


def copied(program, lines, room, patterns):
    """Octets that memcpy and memmove copied within each function and all that it calls."""
    path = room / 'copies.json'
    watched('--tool=dhat --mode=copy --read-inline-info=yes --num-callers=60 --dhat-out-file=%s' % path, program, lines)
    found = json.loads(path.read_text())
    names = [frame.split(': ', 1)[-1].split(' (')[0] for frame in found['ftbl']]
    counts = collections.Counter()
    for point in found['pps']:
        frames = [names[at] for at in point['fs']]
        for pattern in patterns:
            if any(is_called(pattern, name) for name in frames):
                counts[pattern] += point['tb']
    return counts

"""Replays a recorded call with the programs: `receive`, asked line by line as a host would; `replay`, whose answers count; and `calls`,
asked as by a host that solves all parity messages together before it gives up a number."""

import contextlib
import re
import subprocess
import tempfile

PAIRED = re.compile(b'([0-9A-Fa-f]{2})+')
KINDS = b'00', b'01', b'02', b'03'  # a result: received, spare, repaired, lost
REPEATED, AHEAD, LATE = 7, 8, 9     # the refusals of a datagram that reads
SIGN = b'-'                         # a line that is refused whatever came before, and changes nothing
DONE, UNKNOWN, CONTRADICTION = b'00', b'FF0A', b'FF17'  # answers of `calls`: refusals 10 and 23
NOT_TAKEN = b'FF07', b'FF08', b'FF09'  # those of a datagram that reads
KEEP, SKIP = b'00', b'01'           # a release without leave to give up, and with it
ROOM = b'0100'                      # for the longest packet
COUNTS = re.compile(rb'received (\d+), spare (\d+), repaired (\d+), lost (\d+)\n')


class Wrong(Exception):
    """A program that does not answer as it must; the text says how."""


class Asked:
    """A host that hears a call and gives up what is late, as that of a fax adapter does; a program reports what leaves.

    A number is late when one so many numbers after it has been heard."""

    def __init__(self, name, command, patience):
        self.program = subprocess.Popen(command, shell=True, stdin=subprocess.PIPE, stdout=subprocess.PIPE)
        self.name = name
        self.patience = patience
        self.left, self.highest = 0, -1  # how many numbers have left; the highest heard, counted on past 65,535

    def written(self, line):
        """Writes a line to the program; the first line that it answers."""
        with contextlib.suppress(BrokenPipeError):  # it has ended: it answers nothing
            self.program.stdin.write(line + b'\n')
            self.program.stdin.flush()
        return self.answer()

    def answer(self):
        """A line that the program answers."""
        answer = self.program.stdout.readline()
        if not answer.endswith(b'\n'):
            raise Wrong('%s ended before its time' % self.name)
        return answer[:-1]

    def heard(self, number, base):
        """A datagram with this number was heard when so many had left: gives up what is late now."""
        ahead = (number - base) % 65536
        if ahead < 32768:
            self.highest = max(self.highest, base + ahead)
        self.give_up_to(self.highest - self.patience)

    def __enter__(self):
        return self

    def __exit__(self, *_):
        with contextlib.suppress(BrokenPipeError):
            self.program.stdin.close()
        self.program.stdout.close()
        self.program.wait()


class Host(Asked):
    """A host over `receive`. Its lines are what was heard, with an empty line for each give-up."""

    def __init__(self, command, patience):
        super().__init__('receive', command, patience)
        self.lines = []
        self.sign = self.written(SIGN)

    def ask(self, line):
        """The results of a line: all up to the refusal of the sign behind it."""
        results = []
        answer = self.written(line + b'\n' + SIGN)
        while answer != self.sign:
            results.append(answer)
            answer = self.answer()
        self.left += sum(result[:2] in KINDS for result in results)
        return results

    def hear(self, line):
        """Hears a line, and gives up what is late then; the number of its datagram, None if it does not read."""
        self.lines.append(line)
        if not PAIRED.fullmatch(line):
            return None
        base = self.left
        results = self.ask(line)
        if results and results[0][:2] not in KINDS and int(results[0][2:4], 16) not in (REPEATED, AHEAD, LATE):
            return None
        number = int(line[:4], 16)
        self.heard(number, base)
        return number

    def give_up_to(self, last):
        """Gives up until this number has left."""
        while self.left <= last:
            self.lines.append(b'')
            results = self.ask(b'')
            if not results or results[0][:2] != KINDS[3]:
                raise Wrong('receive does not give up: %s' % b' '.join(results[:1]).decode())


class Solver(Asked):
    """A host over `calls`: before it gives up a number, it solves all parity messages together (rule 14.2)."""

    def __init__(self, command, patience):
        super().__init__('calls', command, patience)
        self.counts = [0, 0, 0, 0]
        self.must('begin', self.written(b'10'), DONE)

    def must(self, what, answer, *right):
        """The answer is one of these, or begins a refusal so."""
        if answer not in right and answer[:4] not in right:
            raise Wrong('calls does not %s: %s' % (what, answer[:8].decode('ascii', 'replace')))

    def hear(self, line, number):
        """Hears a datagram that reads, and gives up what is late then."""
        base = self.left
        self.must('read what receive reads', self.written(b'11' + line), DONE, *NOT_TAKEN)
        self.release()
        self.heard(number, base)

    def leaves(self, leave):
        """Whether the number at the base leaves, with this leave; counts its kind."""
        answer = self.written(b'12' + leave + ROOM)
        kind = answer[2:4]
        if answer[:2] == DONE and kind in KINDS:
            self.counts[KINDS.index(kind)] += 1
            self.left += 1
            return True
        self.must('give up' if leave == SKIP else 'release', answer, *([UNKNOWN] if leave == KEEP else []))
        return False

    def release(self):
        """Releases all that is known from the base on."""
        while self.leaves(KEEP):
            pass

    def give_up_to(self, last):
        """Has solved, and gives up what is unknown still, until this number has left; where the messages contradict, nothing is solved."""
        while self.left <= last:
            self.must('solve', self.written(b'1A'), DONE, CONTRADICTION)
            self.release()
            if self.left <= last:
                self.leaves(SKIP)
                self.release()

    def counted(self):
        """The four counts, which the numbers that left must bear out."""
        if self.written(b'14') != DONE + b''.join(b'%08X' % count for count in self.counts):
            raise Wrong('calls reports other counts than its releases have')
        return tuple(self.counts)


def replayed(command, lines, dropped):
    """What `replay` makes of a trace without these numbers: the four counts, which its lines must bear out."""
    with tempfile.NamedTemporaryFile() as trace:
        trace.write(b''.join(line + b'\n' for line in lines))
        trace.flush()
        ended = subprocess.run('%s %s %s' % (command, trace.name, ' '.join(map(str, dropped))), shell=True, stdout=subprocess.PIPE,
                               stderr=subprocess.PIPE)
    counted = COUNTS.search(ended.stderr)
    if ended.returncode or not counted:
        raise Wrong('replay ended with status %d: %s' % (ended.returncode, ended.stderr.decode('ascii', 'replace').strip()))
    counts = tuple(map(int, counted.groups()))
    if counts != tuple(sum(result[:2] == kind for result in ended.stdout.split(b'\n')) for kind in KINDS):
        raise Wrong('replay reports other counts than its lines have')
    return counts

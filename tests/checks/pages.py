#!/usr/bin/env python3
# check: after
# self-test: beside
# needs: receive explain notes replay handover compare calls host
# says: a command that a page shows fails, or prints something else than the page shows
# counts: commands of pages
"""Runs the commands that the pages (*.md) show, and compares what they print with what the page shows. It needs a built target/.

For writers of a page: a code block is fenced, and its fence has a language word. In it a line that begins with `$ ` is a command, and the
lines below it are what it prints, standard output and standard error together; a line `..` stands for lines left out. A command must end
with status 0, or with N if a comment behind it says `# status N`. It continues on the next line after `\\`, `|` or `&&`, and with a
here-document to its end. A block `sh` without `$ ` is a list of commands whose output is not shown. A block `c` with a main() is a whole
program: it is written to the file named after the `c`, if there is one, and built with the library. No other block is run. Commands run
from the top of a copy of the tree, those of one page in one shell and in order; `make install` installs beside that copy. A command that
names sudo, apt-get or an absolute path is never run. pages-not-run.txt lists the commands that are not run: a line with the reason, below
it the commands, indented and without comments. --write puts what a command printed into a page that shows something else."""

import argparse
import concurrent.futures
import contextlib
import io
import os
import pathlib
import platform
import re
import shlex
import shutil
import signal
import subprocess
import sys
import tempfile
import typing

sys.path[0] = str(pathlib.Path(__file__).resolve().parents[1])  # the folder tests/

from support.failing import Cases
from support.places import TOP

LIST = 'tests/checks/pages-not-run.txt'
HISTORY = 'docs/landings'                 # pages about what once was
NOT_COPIED = '.git', 'target', '__pycache__', 'out'
MARK = 'pages.py: this command ended with status'
EMULATED = 'where programs are emulated'  # a reason that holds elsewhere than on x86-64
PATIENCE = 600                            # seconds for a page
NAMED, SHOWN = 100, 30                    # characters of a command and lines of an output that are shown
FENCE = re.compile(r'( *)(`{3,}|~{3,})\s*([^`]*?)\s*')
ITEM = re.compile(r'\s*([-*+]|\d+[.)])\s')
PROGRESS = re.compile(r'\w+: (\d+ of \d+ steps done|proving what it needs, .*)\n')  # said on slow machines only
OUTSIDE = re.compile(r'(^|[\s;|&(])(sudo|su|apt|apt-get|dpkg|pip|pip3|docker|mount)\s|(^|[\s=<>:])/(?!dev/(null|stdin|stdout|stderr)\b)\w')
HERE_DOCUMENT = re.compile(r'<<-?\s*(["\']?)(\w+)\1')


class Failed(Exception):
    """Something that is not as a page or the list must be; its text says what."""


class Command(typing.NamedTuple):
    """A command of a page: the page, its line there, its text, the lines that it must print (None: any), and their indentation."""
    page: str
    line: int
    text: str
    shown: typing.Optional[list] = None
    indent: str = ''
    file: str = ''     # of a C program: its name, and its text
    source: str = ''

    def place(self):
        """Its place, and what it is."""
        return '%s:%d: %s' % (self.page, self.line, 'the C program ' + self.file if self.source else self.plain()[:NAMED])

    def plain(self):
        """Its words in one line without a comment, as the list has them."""
        return ' '.join(re.sub(r'(^|\s)#\s.*$', '', re.sub(r'\\\n', ' ', self.text)).split())

    def status(self):
        """The status with which it must end."""
        named = re.search(r'\s#\s.*\bstatus (\d+)', self.text)
        return int(named.group(1)) if named else 0


class Block(typing.NamedTuple):
    """A code block: the number of its first line behind the fence, the words on the fence, its indentation and its lines."""
    line: int
    words: list
    indent: str
    lines: list


def blocks_of(page, text):
    """The code blocks of a page; one without a language word, without an end, or made by indentation alone, fails."""
    found, at, in_list, blank = [], 0, False, True
    lines = text.split('\n')
    while at < len(lines):
        line, begun = lines[at], FENCE.fullmatch(lines[at])
        at += 1
        if begun:
            indent, fence, words = begun.groups()
            start = at
            while at < len(lines) and lines[at].strip() != fence:
                at += 1
            if at == len(lines):
                raise Failed('%s:%d: a code block without an end' % (page, start))
            if not words:
                raise Failed('%s:%d: a code block without a language word' % (page, start))
            found.append(Block(start + 1, words.split(), indent, [inner[len(indent):] for inner in lines[start:at]]))
            at += 1
        elif blank and not in_list and line.startswith('    ') and line.strip():
            raise Failed('%s:%d: a code block that is indented, and has no fence with a language word' % (page, at))
        elif ITEM.match(line):
            in_list = True
        elif blank and line.strip() and not line.startswith(' '):
            in_list = False
        blank = not line.strip()
    return found


def whole(lines):
    """How many of these lines the first command takes."""
    document = HERE_DOCUMENT.search(lines[0])
    if document and document.group(2) in lines:
        return lines.index(document.group(2)) + 1
    return next((at for at, line in enumerate(lines, 1) if not line.rstrip().endswith(('\\', '|', '&&'))), len(lines))


def commands_of(page, block):
    """The commands of a code block."""
    word, lines, at = block.words[0], block.lines, 0
    if word == 'c':
        if re.search(r'\bint main\(', '\n'.join(lines)):
            name = block.words[1] if len(block.words) > 1 else 'program-%d.c' % block.line
            text = 'bin/build-host %s %s' % (name, pathlib.Path(name).stem)
            yield Command(page, block.line, text, [], file=name, source='\n'.join(lines) + '\n')
        return
    shows = any(line.startswith('$ ') for line in lines)
    if not shows and word != 'sh':
        return
    if shows and not lines[0].startswith('$ '):
        raise Failed('%s:%d: a code block with commands that does not begin with one' % (page, block.line))
    while at < len(lines):
        start, count = at, whole(lines[at:])
        at += count
        text, shown = '\n'.join(lines[start:at]), None
        if shows:
            text, first = text[2:], at
            while at < len(lines) and not lines[at].startswith('$ '):
                at += 1
            shown = lines[first:at]
        if Command(page, 0, text).plain():
            yield Command(page, block.line + start, text, shown, block.indent)


def pages_of(top):
    """The names of the pages, in order."""
    names = (path.relative_to(top) for path in sorted(top.rglob('*.md')))
    return [str(name) for name in names if not any(part in NOT_COPIED for part in name.parts) and not str(name).startswith(HISTORY)]


def listed(top, machine=platform.machine()):
    """The commands of the list, each with the reason why it is not run, or nothing if that is so under an emulator only."""
    reason, found = None, {}
    for number, line in enumerate((top / LIST).read_text().split('\n'), 1):
        if line.startswith('#') or not line.strip():
            continue
        if not line.startswith(' '):
            reason = line.strip().rstrip(':')
        elif reason is None:
            raise Failed('%s:%d: a command without a reason above it' % (LIST, number))
        else:
            found[' '.join(line.split())] = '' if reason.startswith(EMULATED) and machine == 'x86_64' else reason
    return found


def alike(shown, printed):
    """Whether what was printed is what is shown; blank lines at the end do not count."""
    pattern = ''.join('(?:.*\n)+?' if line.strip() == '..' else re.escape(line) + '\n' for line in trimmed(shown))
    return re.fullmatch(pattern, ''.join(line + '\n' for line in trimmed(printed))) is not None


def trimmed(lines):
    """Lines without blanks at their ends, and without the empty ones at the end."""
    return '\n'.join(line.rstrip() for line in lines).rstrip('\n').split('\n') if any(line.strip() for line in lines) else []


def copied(top, place):
    """A copy of the tree in which a page's commands run: what is proved stays so, and nothing that they write is the tree's."""
    shutil.copytree(top, place, symlinks=True, ignore=shutil.ignore_patterns(*NOT_COPIED))
    built = top / 'target'
    if (built / 'host').is_dir():
        shutil.copytree(built / 'host', place / 'target/host', ignore=shutil.ignore_patterns('lock'))
    if (built / 'bin').is_dir():
        (place / 'target').mkdir(exist_ok=True)
        (place / 'target/bin').symlink_to(built / 'bin')
    # programs warn of another toolchain than those named, which is no fault of a page
    if (place / 'bin/toolchain').exists() and subprocess.getoutput(shlex.quote(str(place / 'bin/toolchain'))):
        (place / 'toolchain').write_bytes(subprocess.run(['rt', 'version'], stdout=subprocess.PIPE, check=False).stdout)


def run(top, commands):
    """What each of a page's commands printed, and its status; None for those that did not end."""
    with tempfile.TemporaryDirectory(prefix='pages.') as scratch:
        place = pathlib.Path(scratch) / 'tree'
        copied(top, place)
        script = ''
        for number, command in enumerate(commands):
            if command.source:
                (pathlib.Path(scratch) / str(number)).write_text(command.source)
                script += 'cp "$HOME/%d" %s\n' % (number, shlex.quote(command.file))
            script += '{ %s\n} </dev/null\nprintf "\\n%%s %%d\\n" "%s" $?\n' % (command.text, MARK)
        (pathlib.Path(scratch) / 'script').write_text(script)
        installed = scratch + '/installed'  # where `make install` puts its files
        settings = {**os.environ, 'HOME': scratch, 'PREFIX': installed, 'DESTDIR': '', 'PKG_CONFIG_PATH': installed + '/lib/pkgconfig',
                    'PYTHONUNBUFFERED': '1', 'PYTHONDONTWRITEBYTECODE': '1'}
        shell = subprocess.Popen(['sh', str(pathlib.Path(scratch) / 'script')], cwd=place, env=settings, stdin=subprocess.DEVNULL,
                                 stdout=subprocess.PIPE, stderr=subprocess.STDOUT, start_new_session=True)
        try:
            written = shell.communicate(timeout=PATIENCE)[0]
        except subprocess.TimeoutExpired:
            os.killpg(shell.pid, signal.SIGKILL)
            written = shell.communicate()[0]
        text = PROGRESS.sub('', written.decode('utf-8', 'backslashreplace').replace(str(place), '.'))
    *parts, rest = re.split(r'\n%s (\d+)\n' % re.escape(MARK), text)
    ended = [(printed.split('\n'), int(status)) for printed, status in zip(parts[::2], parts[1::2])]
    return ended + [(rest.split('\n'), None)] * (len(commands) - len(ended))


def said(name, lines, last=False):
    """Lines of an output, to be shown: the first or the last of them."""
    some = lines[-SHOWN:] if last else lines[:SHOWN]
    return ['  %s:' % name] + ['    ' + line for line in some or ['(nothing)']] + ['  %d lines in all' % len(lines)] * (len(lines) > SHOWN)


def judged(command, printed, status):
    """Nothing, or a text that says in what a command is not as its page has it."""
    if status is None:
        return '\n'.join(['%s: it did not end, or it ended the shell' % command.place()] + said('printed', trimmed(printed), True))
    if status != command.status():
        return '\n'.join(['%s: status %d in place of %d' % (command.place(), status, command.status())]
                         + said('printed', trimmed(printed), True))
    if command.shown is not None and not alike(command.shown, printed):
        return '\n'.join(['%s: it prints otherwise' % command.place()] + said('expected', trimmed(command.shown))
                         + said('got', trimmed(printed)))
    return ''


def put(top, page, commands, results):
    """Puts into a page what its commands printed where it shows something else, the last first, so that the places stay."""
    lines = (top / page).read_text().split('\n')
    for command, (printed, status) in reversed(list(zip(commands, results))):
        if status == command.status() and command.shown is not None and not command.source and not alike(command.shown, printed):
            start = command.line - 1 + len(command.text.split('\n'))
            lines[start:start + len(trimmed(command.shown))] = [(command.indent + line).rstrip() for line in trimmed(printed)]
    (top / page).write_text('\n'.join(lines))


class Check:
    """What has passed so far, and what has failed."""

    def __init__(self, top):
        self.top = top
        self.passed = self.failed = 0

    def fail(self, text):
        """One failure."""
        self.failed += 1
        print('FAILED %s' % text, flush=True)

    def commands(self, page):
        """The commands of a page."""
        try:
            return [command for block in blocks_of(page, (self.top / page).read_text()) for command in commands_of(page, block)]
        except Failed as failed:
            self.fail(failed)
            return []

    def not_run(self):
        """The list of those that are not run."""
        try:
            return listed(self.top)
        except Failed as failed:
            self.fail(failed)
            return {}

    def can_run(self, command, not_run):
        """Whether a command is to be run; one that is not listed and may change the machine fails."""
        if not_run.get(command.plain()):
            print('not run %s: %s' % (command.place(), not_run[command.plain()]))
            return False
        if OUTSIDE.search(command.plain()):
            self.fail('%s: it may change files outside the tree, so it belongs in %s' % (command.place(), LIST))
            return False
        return True

    def all(self, names=(), write=False):
        """Runs what can be run on all pages, or on those named. The last line has the numbers; whether nothing failed."""
        not_run, todo, met = self.not_run(), [], set()
        for page in names or pages_of(self.top):
            commands = self.commands(page)
            met.update(command.plain() for command in commands)
            todo.append((page, [command for command in commands if self.can_run(command, not_run)]))
        for entry in not_run:
            if entry not in met and not names:
                self.fail('%s: no page has this command: %s' % (LIST, entry))
        todo = [(page, commands) for page, commands in todo if commands]
        if todo and (self.top / 'target/bin').exists():
            subprocess.run([str(self.top / 'bin/build-host')], stdout=subprocess.DEVNULL)  # once for all pages
        with concurrent.futures.ThreadPoolExecutor(os.cpu_count()) as pool:
            for (page, commands), results in zip(todo, pool.map(lambda one: run(self.top, one[1]), todo)):
                for command, result in zip(commands, results):
                    wrong = judged(command, *result)
                    if wrong:
                        self.fail(wrong)
                    else:
                        self.passed += 1
                        print('ok %s' % command.place(), flush=True)
                if write:
                    put(self.top, page, commands, results)
        print('%d passed, %d failed' % (self.passed, self.failed))
        return not self.failed


def tree(files, act):
    """What is made of a tree of these files."""
    with tempfile.TemporaryDirectory(prefix='pages.') as scratch:
        top = pathlib.Path(scratch)
        for name, text in {LIST: '', **files}.items():
            (top / name).parent.mkdir(parents=True, exist_ok=True)
            (top / name).write_text(text)
            (top / name).chmod(0o755)
        return act(top)


def tried(files):
    """Checks a tree of these files; what fails ends it, and so does a file that is left there."""
    def act(top):
        before = sorted(top.rglob('*'))
        if not Check(top).all():
            sys.exit(1)
        if sorted(top.rglob('*')) != before:
            sys.exit('a file was left in the tree')
    tree(files, act)


def put_into(page):
    """A page in which the outputs were put."""
    def act(top):
        Check(top).all(write=True)
        return (top / 'README.md').read_text()
    return tree({'README.md': page}, act)


def self_test():
    """Each check fails where it must, and says page, line and what is wrong."""
    test = Cases('pages.py')

    def block(*lines, word='text'):
        return '\n'.join(['A page.', '', '```' + word, *lines, '```', ''])

    def page(*lines, **settings):
        return {'README.md': block(*lines, **settings)}

    right = page('$ echo one; echo two >&2', 'one', 'two', '', '$ seq 9', '1', '..', '8', '9', '$ false # status 1', '$ echo made > new',
                 '$ cd tests', '$ cat ../new', 'made', '$ cat <<END', 'a line', 'END', 'a line', '$ echo 1 |', '  cat', '1')
    test.passes('what is shown is printed', tried, right)
    test.passes('words about long work are no output', tried, page('$ echo loss: 3 of 7 steps done; echo 1', '1'))
    test.passes('a list of commands', tried, page('# nothing', 'echo 1', 'true # at last', word='sh'))
    test.passes('other blocks', tried, page('false', word='text'))
    test.passes('no command of another page is met', tried, {**page('$ echo 1 > new'), 'docs/A.md': block('$ ls new # status 2', '..')})
    test.passes('history', tried, {'docs/landings/A.md': block('$ false')})
    test.passes('a command that is listed', tried, {**page('$ ./test # all', '..'), LIST: 'it runs this:\n    ./test\n'})
    test.fails('another output', 'FAILED README.md:4: echo 2: it prints otherwise\n  expected:\n    1\n  got:\n    2\n0 passed, 1 failed',
               tried, page('$ echo 2', '1'))
    test.fails('an output that is not shown', 'README.md:4: echo 2: it prints otherwise\n  expected:\n    (nothing)\n  got:\n    2\n',
               tried, page('$ echo 2'))
    test.fails('no output', 'README.md:5: true: it prints otherwise\n  expected:\n    1\n  got:\n    (nothing)\n1 passed, 1 failed',
               tried, page('$ true', '$ true', '1'))
    test.fails('a line more', 'it prints otherwise', tried, page('$ seq 3', '1', '2'))
    test.fails('no line left out', 'it prints otherwise', tried, page('$ seq 2', '1', '..', '2'))
    test.fails('another line behind those left out', 'it prints otherwise', tried, page('$ seq 5', '1', '..', '4'))
    test.fails('a failure', 'README.md:4: echo 1; false: status 1 in place of 0\n  printed:\n    1\n', tried, page('$ echo 1; false', '1'))
    test.fails('another status', 'README.md:4: true: status 0 in place of 1', tried, page('$ true # status 1'))
    test.fails('a failure in a list', 'README.md:5: false: status 1 in place of 0', tried, page('true', 'false', word='sh'))
    test.fails('the end of the shell', 'README.md:5: true: it did not end, or it ended the shell', tried, page('$ exit 0', '$ true'))
    for outside in ('sudo true', 'true && apt-get install gcc', 'touch /nowhere/file', 'PREFIX=/nowhere true', 'echo 1 >/nowhere/file'):
        test.fails('what may change the machine', 'README.md:4: %s: it may change files outside the tree' % outside, tried,
                   page('$ ' + outside + ' # status 2', '..'))
    test.passes('what cannot', tried, page("$ awk '{ print $1 / 2 }' < /dev/null", '$ echo "${PREFIX#"$HOME"}"', '/installed'))
    test.fails('an entry that no page has', 'FAILED %s: no page has this command: ./test\n' % LIST, tried,
               {**page('$ true'), LIST: 'it runs this:\n    ./test\n'})
    emulated = {LIST: 'where programs are emulated, it takes long:\n    false\n'}
    test.says('an entry for an emulator, there', 'it takes long', tree(emulated, lambda top: listed(top, 'aarch64')['false']))
    test.says('an entry for an emulator, elsewhere', "''", repr(tree(emulated, lambda top: listed(top, 'x86_64')['false'])))
    test.fails('an entry without a reason', '%s:1: a command without a reason' % LIST, tried, {**page('$ ./test'), LIST: '    ./test\n'})
    test.fails('no language word', 'README.md:3: a code block without a language word', tried, page('true', word=''))
    test.fails('no end', 'README.md:3: a code block without an end', tried, {'README.md': block('true')[:-5]})
    test.fails('no fence', 'README.md:3: a code block that is indented', tried, {'README.md': 'A page:\n\n    ./test\n'})
    test.passes('a list of text', tried, {'README.md': '10. One.\n\n    More of it.\n'})
    test.fails('no command first', 'README.md:4: a code block with commands that does not begin with one', tried, page('1', '$ echo 1'))
    for name, shown, put in (('outputs', ['$ seq 3', '1', '', '$ echo 2', '$ seq 9', '1', '..', '9'],
                              ['$ seq 3', '1', '2', '3', '', '$ echo 2', '2', '$ seq 9', '1', '..', '9']),
                             ('no output of a command that fails', ['$ echo 1; false'], ['$ echo 1; false'])):
        with contextlib.redirect_stdout(io.StringIO()):
            found = put_into(block(*shown))
        test.says('--write, ' + name, block(*put), found)
    build = {'bin/build-host': '#!/bin/sh\n! grep -n wrong "$1"\n'}
    test.passes('a C program', tried, {**build, **page('int main(void) {}', word='c fax.c')})
    test.passes('two C programs of one name', tried, {**build, 'README.md': block('int main(void) {}', word='c fax.c')
                                                      + block('$ grep -c wrong fax.c # status 1', '0') + block('int main()', word='c fax.c')
                                                      + block('$ wc -l < fax.c', '1')})
    test.passes('a part of one', tried, {**build, **page('wrong', word='c')})
    test.fails('a wrong C program', 'README.md:4: the C program fax.c: status 1 in place of 0\n  printed:\n    1:int main(void) { wrong }',
               tried, {**build, **page('int main(void) { wrong }', word='c fax.c')})
    test.end()


def main():
    """Checks the pages, and ends with status 1 if something failed."""
    parser = argparse.ArgumentParser(description=__doc__)
    parser.add_argument('page', nargs='*', help='a page, if not all: its name from the top of the tree')
    parser.add_argument('--write', action='store_true', help='put what was printed into pages that show something else')
    parser.add_argument('--self-test', action='store_true', help='check that each check can fail')
    arguments = parser.parse_args()
    if arguments.self_test:
        self_test()
    elif not Check(TOP).all(arguments.page, arguments.write):
        sys.exit(1)


if __name__ == '__main__':
    main()

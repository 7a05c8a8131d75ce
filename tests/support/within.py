"""The independent program, unchanged or with one edit of its text, run in this process, so that no run has to start Python."""

import contextlib
import functools
import importlib
import importlib.machinery
import io
import signal
import sys
import types

from support import running
from support.places import TESTS

PACKAGE, MAIN = 'independent', '__main__'


class Failed(Exception):
    """An edit that cannot be tried; its text says why."""


class Different(BaseException):
    """Something else is written than what is expected, or there is no end."""


class Expected:
    """Standard output that holds what is written against what is expected."""

    def __init__(self, expected):
        self.expected, self.at = expected, 0

    def write(self, octets):
        """The next octets."""
        if not self.expected.startswith(octets, self.at):
            raise Different
        self.at += len(octets)

    def whole(self):
        """Whether all has been written."""
        return self.at == len(self.expected)

    def writelines(self, lines):
        """The same of several."""
        for line in lines:
            self.write(line)


def name_of(module):
    """The whole name of a module of the independent program."""
    return PACKAGE if module == '__init__' else '%s.%s' % (PACKAGE, module)


@functools.lru_cache(None)
def modules():
    """The modules of the independent program: the path, the text and the code of each."""
    paths = {name_of(path.stem): path for path in (TESTS / PACKAGE).glob('*.py')}
    return {name: (path, path.read_text(), compile(path.read_text(), str(path), 'exec')) for name, path in paths.items()}


def edited(module, old, new):
    """A module of the independent program with one edit: its name and code."""
    name = name_of(module)
    path, text, _ = modules()[name]
    if text.count(old) != 1:
        raise Failed('%s: the text to edit occurs %d times: %r' % (module, text.count(old), old))
    try:
        return name, compile(text.replace(old, new), str(path), 'exec')
    except SyntaxError as wrong:
        raise Failed('%s: with the edit it is no program: %s' % (module, wrong))


class Mutant:
    """The independent program with one edit or none, for Python to import: only the module that is edited is read anew."""

    def __init__(self, *edit):
        self.name, self.code = edited(*edit) if edit else (None, None)

    def find_spec(self, name, path=None, target=None):
        """Its modules are made here."""
        return importlib.machinery.ModuleSpec(name, self, is_package=name == PACKAGE) if name in modules() else None

    def create_module(self, spec):
        """A module as usual."""

    def exec_module(self, module):
        """One of its modules."""
        exec(self.code if module.__name__ == self.name else modules()[module.__name__][2], module.__dict__)

    def run(self):
        """Runs it, all its modules new."""
        kept = {name: sys.modules.pop(name) for name in modules() if name in sys.modules}
        sys.meta_path.insert(0, self)
        try:
            importlib.import_module(name_of(MAIN)).main()
        finally:
            sys.meta_path.remove(self)
            for name in modules():
                sys.modules.pop(name, None)
            sys.modules.update(kept)

    def run_with(self, words, given, out):
        """Runs it with these arguments; it reads the octets given and writes to what is given for standard output."""
        kept = sys.argv, sys.stdin, sys.stdout
        sys.argv = [PACKAGE, *words]
        sys.stdin, sys.stdout = types.SimpleNamespace(buffer=io.BytesIO(given)), types.SimpleNamespace(buffer=out)
        signal.signal(signal.SIGVTALRM, no_end)
        signal.setitimer(signal.ITIMER_VIRTUAL, running.PATIENCE)
        try:
            self.run()
        finally:
            signal.setitimer(signal.ITIMER_VIRTUAL, 0)
            sys.argv, sys.stdin, sys.stdout = kept

    def differs(self, words, given, expected):
        """Whether it writes something else than expected, breaks off, or does not end."""
        out = Expected(expected)
        try:
            self.run_with(words, given, out)
        except (Exception, SystemExit, Different):
            return True
        return not out.whole()

    def ended(self, words, given):
        """Its status, what it writes and what it says."""
        out, said, status = io.BytesIO(), io.StringIO(), 0
        with contextlib.redirect_stderr(said):
            try:
                self.run_with(words, given, out)
            except SystemExit as end:
                status = end.code
            except Different:
                status = 'of no end'
            except Exception as wrong:
                print('%s: %s' % (type(wrong).__name__, wrong), file=sys.stderr)
                status = 1
        return status, out.getvalue(), said.getvalue()

    def command(self, *words):
        """What replaces its shell command with these arguments (running.run)."""
        def ran(given):
            status, written, _ = self.ended(words, given)
            return written, 'status %s' % status if status else ''
        return ran


def no_end(number, frame):
    """The processor's time for it is used up."""
    raise Different

"""Self-tests: each case makes one check fail, and the check must say the words that are expected."""

import contextlib
import io
import shlex
import subprocess
import sys

from support.altered import altered_lines
from support.places import TESTS
from support.running import lines_of
from support.within import Mutant


def python(name, *arguments):
    """The shell command of a Python program of tests/, a file or a folder."""
    return ' '.join(map(shlex.quote, (sys.executable, str(TESTS / name), *arguments)))


def independent(*arguments):
    """The shell command of the independent program."""
    return python('independent', *arguments)


def altered(how):
    """The shell command of a wrong program; altered.py says which there are."""
    return python('support/altered.py', *how.split())


def independent_here(*arguments):
    """What replaces the independent program's command, and runs it in this process."""
    return Mutant().command(*arguments)


def altered_here(how):
    """What replaces a wrong program's command, and runs it in this process."""
    return lambda given: (b''.join(altered_lines(lines_of(given), *how.split())), '')


class Cases:
    """The cases so far; the first that goes wrong ends the run with status 1."""

    def __init__(self, of_what):
        self.of_what = of_what
        self.passed = 0

    def case(self, name, right, found):
        """One case: counted if it is right, else the end."""
        if not right:
            print('NOT CAUGHT by %s: %s; this was said: %s' % (self.of_what, name, found or 'nothing'))
            print('%d passed, 1 failed' % self.passed)
            sys.exit(1)
        self.passed += 1
        print('ok %s, %s' % (self.of_what, ' '.join(name.split())), flush=True)

    def fails(self, name, words, check, *arguments):
        """The check fails, and the words are in what it says: an exception, an end with a text, or what it printed first."""
        found = said_by(check, *arguments)
        self.case('%s: %s' % (name, words), found is not None and words in found, found)

    def passes(self, name, check, *arguments):
        """The check does not fail."""
        found = said_by(check, *arguments)
        self.case('%s: passes' % name, found is None, found)

    def says(self, name, words, said):
        """The words are in what is said, where nothing fails."""
        self.case('%s: %s' % (name, words), words in said, said)

    def ends(self, name, status, words, command, given=b'', **settings):
        """A command ends with this status, and the words are in what it writes."""
        ended = subprocess.run(command, input=given, stdout=subprocess.PIPE, stderr=subprocess.STDOUT, **settings)
        found = ended.stdout.decode('ascii', 'backslashreplace')
        self.case('%s: status %d, %s' % (name, status, words), ended.returncode == status and words in found,
                  'status %d, %s' % (ended.returncode, found))

    def end(self):
        """The last line."""
        print('%d passed, 0 failed' % self.passed)


def said_by(check, *arguments):
    """What a check says as it fails, behind what it printed; None if it does not fail."""
    with contextlib.redirect_stdout(io.StringIO()) as printed:
        try:
            check(*arguments)
        except (Exception, SystemExit) as failed:
            return '%s%s: %s' % (printed.getvalue(), type(failed).__name__, failed)
    return None

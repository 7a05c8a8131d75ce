"""The tools for C programs over the library, as bin/c-tools chooses them; ends with status 4 if one or the toolchain is missing."""

import pathlib
import shlex
import shutil
import subprocess
import sys

from support.places import BIN

C_TOOLS = str(BIN / 'c-tools')
MISSING = 4  # the status


def missing(words):
    """Ends with a line that says what is missing, and a status of its own."""
    print(words, file=sys.stderr)
    end = SystemExit(words)
    end.code = MISSING
    raise end


def tools(*names):
    """The command of each tool, as words; no words for a C++ compiler that is not here."""
    asked = subprocess.run([C_TOOLS, *names], stdout=subprocess.PIPE, stderr=subprocess.PIPE)
    if asked.returncode:
        missing(asked.stderr.decode().strip())
    return [shlex.split(line) for line in asked.stdout.decode().splitlines()]


def toolchain():
    """The toolchain's folder."""
    found = shutil.which('rt')
    if not found:
        missing('no Rattle toolchain is here: rt is not in PATH')
    return pathlib.Path(found).resolve().parent.parent


def native():
    """Whether this machine runs x86-64 programs as they are."""
    return subprocess.run('uname -m', shell=True, stdout=subprocess.PIPE).stdout.strip() == b'x86_64'

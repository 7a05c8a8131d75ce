"""C programs over an edited policy or header, built with the library. A part of checks/host.py and of host/missed."""

import pathlib
import re
import subprocess
import sys
import tempfile

from support.c_tools import tools
from support.places import TOP

LIBRARY = TOP / 'target/host/libtubarexi.a'


def edited(text, old, new, call=''):
    """A text with one place replaced, in a call of the header or anywhere; ends if there is not exactly one."""
    inside = re.search(r'^TBX_CALL \w+ %s\(.*?(?:^}$| }$)' % call, text, re.M | re.S).group() if call else text
    if inside.count(old) != 1 or text.count(inside) != 1:
        sys.exit('%d times in %s: %s' % (inside.count(old), call or 'the text', old))
    return text.replace(inside, inside.replace(old, new))


def compiled(source, name, flags=(), library=LIBRARY, **headers):
    """Builds a C source as target/host/NAME over files of this text; the compiler's status and words."""
    with tempfile.TemporaryDirectory() as directory:
        for file, text in headers.items():
            pathlib.Path(directory, file + '.h').write_text(text)
        ran = subprocess.run([*tools('cc')[0], '-std=gnu99', '-O1', '-w', *flags, '-I', directory, '-I', str(TOP / 'include'), '-I',
                              str(TOP / 'examples'), '-o', str(TOP / 'target/host' / name), str(TOP / source), str(library)],
                             stdout=subprocess.PIPE, stderr=subprocess.STDOUT)
    return ran.returncode, ran.stdout.decode()


def build_policy(name, *edits):
    """host/policy.c as target/host/NAME over the policy with these edits, each an old text and a new one."""
    text = (TOP / 'examples/policy.h').read_text()
    for edit in edits:
        text = edited(text, *edit)
    status, words = compiled('tests/host/policy.c', name, policy=text)
    if status:
        sys.exit(words)

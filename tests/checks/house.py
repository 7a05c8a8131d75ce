#!/usr/bin/env python3
# check: beside
# self-test: beside
# says: docs/house.svg is stale: tools/house draws it again
# counts: checks of documents
"""The map of the crates: docs/house.svg must be what tools/house draws from crates.txt."""

import argparse
import pathlib
import shutil
import subprocess
import sys
import tempfile

sys.path[0] = str(pathlib.Path(__file__).resolve().parents[1])  # the folder tests/

from support.failing import Cases
from support.places import TOP

PARTS = 'crates.txt', 'docs/house.svg', 'tools/house'


def check(top):
    """The command that reports whether the picture of this tree is today's."""
    return [sys.executable, str(top / 'tools/house'), '--check']


def self_test():
    """A crate that the picture does not have, and one crate less; the tree as it is passes."""
    test = Cases('house.py')
    with tempfile.TemporaryDirectory() as folder:
        top = pathlib.Path(folder)
        for name in PARTS:
            (top / name).parent.mkdir(exist_ok=True)
            shutil.copy(TOP / name, top / name)
        (top / 'crates').symlink_to(TOP / 'crates')
        test.ends('the picture of today', 0, '', check(top))
        lines = (top / 'crates.txt').read_text().splitlines(keepends=True)
        (top / 'crates.txt').write_text(''.join(lines) + '# a crate that the picture does not have\nanother: octets\n')
        test.ends('a crate more', 1, 'stale', check(top))
        users = [line.replace(' octets', '', 1) if line.startswith('session: ') else line for line in lines]
        assert users != lines
        (top / 'crates.txt').write_text(''.join(users))
        test.ends('an arrow less', 1, 'stale', check(top))
    test.end()


def main():
    """Checks the picture; ends with status 1 if it is stale."""
    parser = argparse.ArgumentParser(description=__doc__)
    parser.add_argument('--self-test', action='store_true', help='check that a stale picture is reported')
    if parser.parse_args().self_test:
        self_test()
        return
    ended = subprocess.run(check(TOP), stdout=subprocess.PIPE, stderr=subprocess.STDOUT, text=True)
    print(ended.stdout, end='')
    if ended.returncode:
        print('0 passed, 1 failed')
        sys.exit(1)
    print('ok docs/house.svg is drawn from crates.txt\n1 passed, 0 failed')


if __name__ == '__main__':
    main()

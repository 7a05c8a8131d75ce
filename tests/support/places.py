"""Where things are in this repository."""

import pathlib

TESTS = pathlib.Path(__file__).resolve().parents[1]
TOP = TESTS.parent
BIN, TOOLS = TOP / 'bin', TOP / 'tools'
CASES, CORPUS, CAPTURES = TESTS / 'cases', TESTS / 'corpus', TESTS / 'captures'

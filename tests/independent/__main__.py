"""The independent program. It answers the lines of `calls`; with the argument `program`, `notes` or `handover` it does what that program
does. `notes` takes how many numbers were given up before the first line."""

import argparse
import pathlib
import sys

if __name__ == '__main__':
    sys.path[0] = str(pathlib.Path(__file__).resolve().parents[1])  # the folder tests/

from independent.calls import Calls
from independent.handover import Handover, Unusable
from independent.notes import Notes
from independent.program import Program, lines_read


def play(program):
    """The results of standard input, line by line."""
    for line in lines_read(sys.stdin.buffer):
        sys.stdout.buffer.writelines(result + b'\n' for result in program.results(line))


def hand_over(words):
    """The program from a loaded session to a saved one; status 2 if a file is not usable."""
    parser = argparse.ArgumentParser('handover')
    parser.add_argument('--load', metavar='FILE', help='the image to begin with, in place of a fresh session')
    parser.add_argument('--save', metavar='FILE', help='where the image is written at the end')
    options, program = parser.parse_args(words), Handover()
    try:
        if options.load:
            program.load(options.load)
        play(program)
        if options.save:
            program.save(options.save)
    except Unusable as unusable:
        print('handover: %s' % unusable, file=sys.stderr)
        sys.exit(2)


def main():
    """Answers standard input line by line."""
    out = sys.stdout.buffer
    if sys.argv[1:] == ['program']:
        play(Program())
    elif sys.argv[1:2] == ['notes'] and len(sys.argv) <= 3:
        notes = Notes(*map(int, sys.argv[2:]))
        play(notes)
        out.writelines(words + b'\n' for words in notes.table())
    elif sys.argv[1:2] == ['handover']:
        hand_over(sys.argv[2:])
    elif not sys.argv[1:]:
        calls = Calls()
        for line in lines_read(sys.stdin.buffer):
            if line:
                out.write(calls.answer(line) + b'\n')
    else:
        sys.exit('usage: python3 tests/independent [program | notes [GIVEN-UP] | handover [--load FILE] [--save FILE]]')


if __name__ == '__main__':
    main()

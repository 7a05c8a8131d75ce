#!/usr/bin/env python3
"""A wrong program, for the self-tests: the independent program with one alteration of its answers.

altered.py calls CALL AT         the hexadecimal digit at this place of each answer to this call that was done (-1: its last)
altered.py program KIND AT       the same of each result of this kind
altered.py calls spares          spares are returned and counted as repaired; likewise: program spares
altered.py calls own             a release has its own number as its note
altered.py calls repeated        a repeated datagram is answered as done
altered.py calls bad             good frames are returned as bad ones
altered.py calls none            frames are not returned
altered.py calls deaf            a lost number is not given to the joiner
"""

import pathlib
import sys

if __name__ == '__main__':
    sys.path[0] = str(pathlib.Path(__file__).resolve().parents[1])  # the folder tests/

from independent.calls import Calls
from independent.program import Program, lines_read


def digit_changed(first, at):
    """Of each done call or result with this first octet, the digit at a place."""
    def alter(named, answer):
        if named != first or not answer.startswith((b'00', b'01', b'02', b'03')):
            return answer
        place = at % len(answer)
        return answer[:place] + b'%X' % (int(answer[place:place + 1], 16) ^ 1) + answer[place + 1:]
    return alter


def spares_called(call, answer):
    """12 returns a spare as repaired; 14 counts it so."""
    if call == b'12' and answer.startswith(b'0001'):
        return b'0002' + answer[4:]
    if call == b'14':
        spare, repaired = int(answer[10:18], 16), int(answer[18:26], 16)
        return answer[:10] + b'%08X%08X' % (0, spare + repaired) + answer[26:]
    return answer


def spares_released(kind, result):
    """A result that is a spare is shown as repaired."""
    return b'02' + result[2:] if kind == b'01' else result


def own_note(call, answer):
    """12 gives each number as its own note."""
    return answer[:8] + answer[4:8] + answer[12:] if call == b'12' and answer.startswith((b'0000', b'0001', b'0002')) else answer


def repeated_done(call, answer):
    """11 does not refuse with 7."""
    return b'00' if call == b'11' and answer == b'FF070000' else answer


def frames_bad(call, answer):
    """31 returns a good frame as a bad one."""
    return b'0002' + answer[4:] if call == b'31' and answer.startswith(b'0001') else answer


def frames_none(call, answer):
    """31 returns nothing, and leaves the buffer."""
    return b'00000000' + b'A5' * (len(answer) // 2 - 4) if call == b'31' and answer.startswith((b'0001', b'0002')) else answer


class Deaf(Calls):
    """32 is answered, and the joiner does not get it."""

    def lost(self, arguments):
        arguments.end()
        return b'\x00'


def altered_lines(lines, program, how, *at):
    """The answers to these lines, with the alteration."""
    if at:
        alter = digit_changed(how.encode(), int(at[0]))
    else:
        alter = {'calls spares': spares_called, 'calls own': own_note, 'calls repeated': repeated_done, 'calls bad': frames_bad,
                 'calls none': frames_none, 'calls deaf': lambda call, answer: answer,
                 'program spares': spares_released}[program + ' ' + how]
    if program == 'program':
        session = Program()
        return (alter(result[:2], result) + b'\n' for line in lines for result in session.results(line))
    calls = Deaf() if how == 'deaf' else Calls()
    return (alter(line[:2], calls.answer(line)) + b'\n' for line in lines if line)


def main():
    """Answers standard input line by line, with the alteration."""
    sys.stdout.buffer.writelines(altered_lines(lines_read(sys.stdin.buffer), *sys.argv[1:]))


if __name__ == '__main__':
    main()

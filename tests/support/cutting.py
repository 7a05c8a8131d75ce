"""Scripts cut down: lines are dropped as long as the difference stays."""

from independent.calls import answer_all
from independent.program import results_of
from support.running import call_of_answer, difference, expected_answers, lines_of, run, text_of


def cut_down(lines, stays):
    """The lines, less all that can be dropped, in ever smaller pieces, while the condition stays."""
    piece = max(1, len(lines) // 2)
    while True:
        at, dropped = 0, False
        while at < len(lines):
            fewer = lines[:at] + lines[at + piece:]
            if stays(fewer):
                lines, dropped = fewer, True
            else:
                at += piece
        if piece > 1:
            piece = (piece + 1) // 2
        elif not dropped:
            return lines


def cut_calls(command, script):
    """A script of calls, cut down so that its last line is still answered otherwise than expected."""
    answers, _ = run(command, script)
    at = difference(expected_answers(script), answers)
    if at is None:
        return lines_of(script)
    lines = lines_of(script)[:call_of_answer(script, at) + 1]
    last = lines[-1:]

    def stays(before):
        """Whether the last answer still differs, and no other."""
        ours = answer_all(before + last)
        theirs = lines_of(run(command, text_of(before + last))[0])
        return ours[:-1] == theirs[:-1][:len(ours) - 1] and ours[-1:] != theirs[len(ours) - 1:]

    return cut_down(lines[:-1], stays) + last


def cut_lines(command, given):
    """The program's input, cut down so that the results still differ."""
    def stays(lines):
        """Whether the results differ."""
        return text_of(results_of(lines)) != run(command, text_of(lines))[0]

    lines = lines_of(given)
    return cut_down(lines, stays) if stays(lines) else lines

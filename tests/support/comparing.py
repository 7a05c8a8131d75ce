"""Programs under test compared with the independent program: the stored cases, the scripts made from seeds, and how an answer is
compared."""

from independent.arguments import Arguments
from making.generate import FRAMES, IMAGES, PACKETS, REPLAYS, SOLVING, TRACES, make_script
from making.images import every_octet
from making.lines import across_the_wrap, at_the_limit, program_lines
from making.script import UNLIMITED, Script
from support.places import CASES
from support.running import around, call_of_answer, described, difference, expected_results, line_at, lines_of, run, text_of

CALL_SEEDS, CALLS_EACH = 5, 5000
FRAME_SEEDS, FRAMES_EACH = 3, 1500
PACKET_SEEDS, PACKETS_EACH = 3, 2000
REPLAY_SEEDS, REPLAYS_EACH = 3, 400
IMAGE_SEEDS, IMAGES_EACH = 3, 1500
TRACE_SEEDS, TRACES_EACH = 3, 300
SOLVING_SEEDS, SOLVING_EACH = 3, 1500
PROGRAM_SEEDS, LINES_EACH = 4, 1000


class Failed(Exception):
    """A comparison that found a difference; its text says which."""


def compare_calls(name, command, script, expected):
    """One script of calls against the answers expected."""
    written, remark = run(command, script)
    at = difference(expected, written)
    if at is not None:
        line = call_of_answer(script, at)
        call = line_at(script, line)
        raise Failed('\n'.join(['differs %s: script line %d %s' % (name, line + 1, remark), '  call     %s' % around(call, 0)]
                               + described(expected, written, at)))
    if remark:
        raise Failed('differs %s: all answers are right, but %s' % (name, remark))
    never_longer(name, [line for line in lines_of(script) if line], lines_of(written))


def never_longer(name, calls, answers):
    """No packet written (06) in the old edition is longer than with each header on an octet of its own (rule 6.26)."""
    for call, answer in zip(calls, answers):
        if call.startswith(b'0600') and answer.startswith(b'00'):
            arguments = Arguments(bytes.fromhex(call.decode())[4:])
            types, lengths = arguments.numbers(1), arguments.numbers(2)
            before = 1 + (types != []) + sum(1 + (2 + length if length else 0) for length in lengths)
            if int(answer[2:6], 16) > before:
                raise Failed('longer %s: %s, in %d octets with each header on its own, written as %s'
                             % (name, around(call, 0), before, around(answer, 0)))


def compare_program(name, command, given, expected):
    """One input of the program against the results expected."""
    written, remark = run(command, given)
    at = difference(expected, written)
    if at is not None:
        raise Failed('\n'.join(['differs %s: result line %d %s' % (name, at + 1, remark)] + described(expected, written, at)))
    if remark:
        raise Failed('differs %s: all results are right, but %s' % (name, remark))


def stored(ending, answered):
    """The stored cases with these two endings: name, input, what is expected."""
    for path in sorted(CASES.glob('*' + ending)):
        yield path.name, path.read_bytes(), path.with_suffix(answered).read_bytes()


def comparisons(arguments):
    """All comparisons: a name, and what does it."""
    seeds = [arguments.seed + str(number) for number in range(max(CALL_SEEDS, PROGRAM_SEEDS))]
    for name, given, expected in stored('.calls', '.answers'):
        yield 'stored ' + name, arguments.calls, compare_calls, lambda g=given, e=expected: (g, e)
    for name, given, expected in stored('.lines', '.results'):
        yield 'stored ' + name, arguments.program, compare_program, lambda g=given, e=expected: (g, e)
    for seed in seeds[:CALL_SEEDS]:
        yield 'calls of seed ' + seed, arguments.calls, compare_calls, lambda s=seed: made_calls(s)
    for seed in seeds[:FRAME_SEEDS]:
        yield 'calls on the joiner of seed ' + seed, arguments.calls, compare_calls, lambda s=seed: made_frames(s)
    for seed in seeds[:PACKET_SEEDS]:
        yield 'calls on packets of seed ' + seed, arguments.calls, compare_calls, lambda s=seed: made_packets(s)
    for seed in seeds[:REPLAY_SEEDS]:
        yield 'replays of seed ' + seed, arguments.calls, compare_calls, lambda s=seed: made_replays(s)
    for seed in seeds[:IMAGE_SEEDS]:
        yield 'images of seed ' + seed, arguments.calls, compare_calls, lambda s=seed: made_images(s)
    for seed in seeds[:TRACE_SEEDS]:
        yield 'traces compared of seed ' + seed, arguments.calls, compare_calls, lambda s=seed: made_traces(s)
    yield 'an image with each octet changed in turn', arguments.calls, compare_calls, made_octets
    for seed in seeds[:PROGRAM_SEEDS]:
        yield 'program lines of seed ' + seed, arguments.program, compare_program, lambda s=seed: made_lines(s)
    yield 'program across the wrap', arguments.program, compare_program, lambda: across_the_wrap(seeds[0], LINES_EACH)
    if getattr(arguments, 'long', False):
        yield 'program at the limit', arguments.program, compare_program, at_the_limit


def made_calls(seed):
    """A script of calls from a seed, and its answers."""
    return with_answers(make_script(seed, CALLS_EACH))


def made_frames(seed):
    """The same of calls on the joiner alone."""
    return with_answers(make_script(seed, FRAMES_EACH, FRAMES))


def made_packets(seed):
    """The same of packets, read, written and carried."""
    return with_answers(make_script(seed, PACKETS_EACH, PACKETS))


def made_replays(seed):
    """The same of replays."""
    return with_answers(make_script(seed, REPLAYS_EACH, REPLAYS))


def made_images(seed):
    """The same of sessions written as images and read back."""
    return with_answers(make_script(seed, IMAGES_EACH, IMAGES))


def made_traces(seed):
    """The same of traces compared."""
    return with_answers(make_script(seed, TRACES_EACH, TRACES))


def made_solving(seed):
    """The same of losses solved together."""
    return with_answers(make_script(seed, SOLVING_EACH, SOLVING))


def made_octets():
    """The same of one image, each of its octets changed in turn."""
    script = Script('octets', UNLIMITED)
    every_octet(script)
    return with_answers(script)


def with_answers(script):
    """A script as a program reads it, and its answers."""
    return text_of(script.lines), text_of(answer for answer in script.answers if answer)


def made_lines(seed):
    """The program's input from a seed, and its results."""
    given = program_lines(seed, LINES_EACH)
    return given, expected_results(given)

#!/usr/bin/env python3
# check: behind
# self-test: beside
# needs: receive handover
# arguments: --program 'bin/run receive' --handover 'bin/told handover'
# says: a call that is handed over goes on otherwise than the whole call
"""The program handover (rules 20.23 to 20.25): traces cut at every 50th line, the first part played to a saved image, the rest from it.

Together the parts must write what the program writes for the whole trace, and each image must be the independent program's. If an image
does not read, or a file cannot be used, it must end with a message."""

import argparse
import functools
import itertools
import pathlib
import random
import sys
import tempfile

sys.path[0] = str(pathlib.Path(__file__).resolve().parents[1])  # the folder tests/

from independent.handover import Handover
from independent.images import written_image
from independent.program import results_of
from independent.receiving import AFTER, BEFORE, RECEIVED, REPAIRED, SPARE, UNKNOWN
from making.lines import Recording, program_lines
from mutants.image import FILE_MUTANTS, HANDOVER_MUTANTS
from support import running
from support.adapter import Adapter, of_mutant
from support.failing import Cases, independent, independent_here
from support.real import DATAGRAMS, Wrong, corpus, must
from support.released import worse_line
from support.running import described, difference, lines_of, run, text_of
from support.within import Mutant

EACH = 50  # lines of a part
SEEDS, MADE = 2, 400
KINDS = {RECEIVED: 'received', SPARE: 'spare', REPAIRED: 'repaired'}
HELD = {'accepted', 'messages', 'unknown before', *KINDS.values()}
LOSSES = 0, 0.3, 0.6  # with many lost, something is waited for where a trace is cut


def sessions_at(lines):
    """The session that the independent program has at each cut and at the end, with the number of lines before it."""
    handover = Handover()
    for at, line in enumerate(lines, 1):
        handover.results(line)
        if at % EACH == 0 or at == len(lines):
            yield at, handover.session


@functools.lru_cache(None)
def expected_of(lines):
    """The results of lines, and the image at each cut and at the end."""
    return text_of(results_of(lines)), {at: written_image(session) for at, session in sessions_at(lines)}


def held_at_cuts(traces):
    """Where traces are cut sessions hold, from the base on, every kind, accepted numbers and messages, and before it unknown numbers."""
    held = set()
    for lines in traces:
        for at, session in sessions_at(lines):
            if at == len(lines):
                break
            ahead = range(session.base, session.base + AFTER)
            held.update(KINDS[session.place(number).state] for number in ahead if session.place(number).state in KINDS)
            held.update(['accepted'] * any(session.mark(number).accepted for number in ahead))
            held.update(['messages'] * any(session.mark(number).m for number in ahead))
            held.update(['unknown before'] * any(session.place(session.base - j).state == UNKNOWN for j in range(1, BEFORE + 1)))
    missing = HELD - held
    must(not missing, '%s is held at no cut', ', '.join(sorted(missing)))
    return ', '.join(sorted(held))


def same(what, expected, written):
    """What was written is what is expected, to the last character."""
    at = difference(expected, written)
    if at is not None:
        raise Wrong('\n'.join(['%s, line %d' % (what, at + 1)] + described(expected, written, at)))


def cut_in_two(adapter, lines, whole, images):
    """At every 50th line: two parts, and the image between them, which stays as it is if nothing is played.

    The first part's last line has its line feed or not."""
    for at in range(EACH, len(lines), EACH):
        first, image = text_of(lines[:at]), adapter.image('image')
        front = adapter.play(first, save=image)
        back = adapter.play(text_of(lines[at:]), load=image)
        same('cut behind line %d: the results are not those of the whole trace' % at, whole, front + back)
        same('cut behind line %d: the image is not the expected one' % at, images[at], image.read_bytes())
        adapter.play(b'', load=image, save=adapter.image('again'))
        same('cut behind line %d: loaded and saved, the image is another' % at, image.read_bytes(), adapter.image('again').read_bytes())
        if lines[at - 1]:
            same('cut behind line %d, without its line feed: other results' % at, front, adapter.play(first[:-1], save=image))
            same('cut behind line %d, without its line feed: another image' % at, images[at], image.read_bytes())


def in_parts(adapter, lines, whole, last):
    """Parts of 50 lines, each from the image of the one before, in a file of its own and all in one file; and all in one part."""
    for name, images in (('from file to file', [adapter.image('image %d' % at) for at in range(-(-len(lines) // EACH))]),
                         ('in one file', [adapter.image('image')] * -(-len(lines) // EACH))):
        written, before = b'', None
        for at, image in enumerate(images):
            written += adapter.play(text_of(lines[EACH * at:EACH * (at + 1)]), load=before, save=image)
            before = image
        same('%s: the results are not those of the whole trace' % name, whole, written)
        same('%s: the last image is not the expected one' % name, last, before.read_bytes())
    same('uncut: the results are not those of the program', whole, adapter.play(text_of(lines)))


def check(program, handover, lines):
    """One trace, whole and cut."""
    whole, images = expected_of(tuple(lines))
    written, remark = run(program, text_of(lines))
    must(not remark, 'the program does not end well: %s', remark)
    same('the program differs from the independent one', whole, written)
    with tempfile.TemporaryDirectory() as folder:
        adapter = Adapter(handover, folder)
        cut_in_two(adapter, lines, whole, images)
        in_parts(adapter, lines, whole, images[len(lines)])
    return '%d lines, %d cuts' % (len(lines), (len(lines) - 1) // EACH)


def unusable(adapter):
    """Files that cannot be loaded: a name, what is in it, or None where nothing is written, and its path."""
    image = expected_of((b'000001060000', b'000201000001' + b'01C0'))[1][2]
    yield 'no file', None, adapter.image('nowhere')
    yield 'no file in a folder that is not there', None, adapter.image('nowhere') / 'image'
    yield 'a folder', None, adapter.folder
    for name, text in (('an empty file', b''), ('a line less', image[:image.rindex(b'\n', 0, -1) + 1]), ('a line more', image + b'\n'),
                       ('no last line feed', image[:-1]), ('small letters', image.replace(b'C0', b'c0')),
                       ('another base', image[:5] + b'2' + image[6:]), ('another note', image.replace(b'\n01000002', b'\n01000003')),
                       ('a trace', b'000001060000\n')):
        yield name, text, adapter.image('image')


def refused(handover):
    """Files that cannot be loaded or saved to: status 2, a line that names the file, and nothing played or saved (rules 20.26 and 20.29)."""
    count = 0
    with tempfile.TemporaryDirectory() as folder:
        adapter = Adapter(handover, folder)
        saved, trace = adapter.image('saved'), b'000001060000\n'
        for name, text, path in unusable(adapter):
            if text is not None:
                path.write_bytes(text)
            for save in (None, saved, path if text is not None else None):
                status, written, said = adapter.run(trace, path, save)
                in_words('%s to be loaded' % name, path, status, said)
                must(not written, '%s to be loaded: something is played: %s', name, written)
                must(not saved.exists(), '%s to be loaded: an image is saved', name)
                must(text is None or path.read_bytes() == text, '%s to be loaded: the file is changed', name)
                count += 1
        for name, path in (('a folder that is not there', adapter.image('nowhere') / 'image'), ('a folder', adapter.folder)):
            status, _, said = adapter.run(trace, save=path)
            in_words('%s to be saved to' % name, path, status, said)
            count += 1
    return '%d files' % count


def in_words(name, path, status, said):
    """It ended with status 2, and one line that names the file."""
    must(status == 2, '%s: status %d', name, status)
    must(said.startswith('handover: %s: ' % path) and said.count('\n') == 1 and said.endswith('\n'), '%s: this was said: %s', name, said)


def twice_and_late(name, loss):
    """Recorded datagrams, some lost, many late, some twice; an empty line for each number that is waited for too long."""
    r, recording = random.Random(name + str(loss)), Recording(name)
    row = [(number + r.choice((0, 0, 2, 7, 15)), octets) for number, octets in enumerate(corpus(name)) for _ in range(r.choice((1, 1, 2)))]
    for place, octets in sorted(one for one in row if r.random() >= loss):
        recording.add_datagram(octets)
        while place - recording.base() > 20:
            recording.add(b'')
    return recording.lines


def traces():
    """Names, and what makes the lines."""
    for name, loss in itertools.product(DATAGRAMS, LOSSES):
        yield '%s, %d %% lost' % (name, 100 * loss), lambda n=name, l=loss: worse_line(n, l)[0].lines
        yield '%s, %d %% lost, many late' % (name, 100 * loss), lambda n=name, l=loss: twice_and_late(n, l)
    for seed in range(SEEDS):
        yield 'lines of seed %d' % seed, lambda s=seed: lines_of(program_lines(str(s), MADE))


def checks(arguments):
    """All checks: a name, and what does it."""
    for name, make in traces():
        yield name, lambda m=make: check(arguments.program, arguments.handover, m())
    yield 'what is held at cuts', lambda: held_at_cuts(make() for _, make in traces())
    yield 'files that cannot be used', lambda: refused(arguments.handover)


def self_test():
    """Programs that lose something, each wrong in one way, and what is said of each."""
    test, program = Cases('handover.py'), independent('program')
    lines = [twice_and_late(name, LOSSES[-1]) for name in DATAGRAMS]

    def over_traces(handover):
        """Two traces."""
        for trace in lines:
            check(independent_here('program'), handover, trace)

    test.fails('nothing lost', 'is held at no cut', held_at_cuts, [worse_line(name, 0)[0].lines for name in DATAGRAMS])
    for name, how, words in (('a wrong program', " | sed '$d'", 'the program differs from the independent one, line '),
                             ('a program with status 3', '; exit 3', 'the program does not end well: status 3')):
        test.fails(name, words, check, program + how, of_mutant(Mutant()), lines[0])
    for check_one, mutants in ((over_traces, HANDOVER_MUTANTS), (refused, FILE_MUTANTS)):
        for name, words, *edit in mutants:
            test.fails(name, words, check_one, of_mutant(Mutant(*edit)))
    running.PATIENCE, patience = 1, running.PATIENCE
    test.fails('no end', 'no end within 1 seconds', refused, 'exec sleep 60 #')
    running.PATIENCE = patience
    test.ends('a wrong handover', 1, '0 passed, 1 failed', [sys.executable, __file__, '--program', program, '--handover', 'exit 3 #'])
    test.end()


def main():
    """Does each check; ends with status 1 at the first that is wrong."""
    parser = argparse.ArgumentParser(description=__doc__)
    parser.add_argument('--program', help='shell command of the program, for the traces as a whole')
    parser.add_argument('--handover', help='shell command of the program handover, without its options')
    parser.add_argument('--self-test', action='store_true', help='check that a program that loses something is reported')
    arguments = parser.parse_args()
    if arguments.self_test:
        self_test()
        return
    if not (arguments.program and arguments.handover):
        parser.error('both commands are needed: --program, --handover')
    passed = 0
    for name, do in checks(arguments):
        try:
            print('ok %s; %s' % (name, do()), flush=True)
        except Wrong as wrong:
            print('wrong %s: %s' % (name, wrong))
            print('%d passed, 1 failed' % passed)
            sys.exit(1)
        passed += 1
    print('%d passed, 0 failed' % passed)


if __name__ == '__main__':
    main()

#!/usr/bin/env python3
# check: beside
# self-test: beside
# says: the scripts that are made from seeds do not meet every answer that there is
"""The scripts of making/generate.py: those of each kind of call meet every answer, at the start of what is read and further on, and those
of notes every note. The self-test makes each check fail that is done while a script is made."""

import argparse
import pathlib
import sys

sys.path[0] = str(pathlib.Path(__file__).resolve().parents[1])  # the folder tests/

from independent.refusals import ENDS, MISSHAPEN, RANGES, SPARE_BIT, Refusal
from making import images, placed, single
from making.generate import FRAMES, IMAGES, NOTES, PACKETS, REPLAYS, SOLVING, TRACES, make_script
from making.script import UNLIMITED, Script
from support.failing import Cases
from support.real import Wrong, must

# Each kind of script, how many calls, and what it meets: a call with the start of its answer, with a plus if a refusal has a place.
EVERY = {
    'the joiner': (FRAMES, 1500, '3000 310000 310001 310002 31FF0C 31FF0D 31FF0E 31FF11 31FF12 3200 32FF11 330000 330001 3400 34EE'),
    'datagrams': ((single.datagrams_read, placed.datagrams), 1500,
                  '0300 03FF01 03FF01+ 03FF02 03FF03+ 03FF04+ 03FF05+ 03FF06+ 1000 11FF01 11FF01+ 11FF03+ 11FF04+ 11FF05+ 11FF06+'),
    'packets': (PACKETS, 1500,
                '0500 05FF01 05FF01+ 05FF03+ 05FF04 05FF04+ 05FF05 05FF05+ 05FF06+ 05FF0C 05FF0C+ 05FF0E 05FF0E+ 05FF0F 0600 06FF04 '
                '06FF0C 06FF0D 06FF0E 06FF0F '
                '0700 07FF01 07FF01+ 07FF03+ 07FF04 07FF04+ 07FF05 07FF05+ 07FF06+ 07FF0C 07FF0C+ 07FF0E 07FF0E+ 07FF0F'),
    'replays': (REPLAYS, 300, '4000 40EE 40FF0D'),
    'traces': (TRACES, 600, '5000 50EE 50FF01 50FF01+ 50FF02 50FF03+ 50FF04+ 50FF05+ 50FF06+ 50FF0D 50FF0F 50FF16'),
    'solving': (SOLVING, 1500, '1A00 1AEE 1AFF11 1AFF17'),
    'images': (IMAGES, 1500, '1800 18EE 18FF0D 18FF11 1900 19EE 19FF11 19FF14 19FF15')}
NOTED = {'received: own', 'repaired: ahead', 'repaired: ahead over 65,535', 'repaired: behind', 'repaired: behind over 65,535',
         'spare: ahead', 'spare: ahead over 65,535'}


def answers_met(scenes, count):
    """Each call with the start of its answers: done and what was returned or shown, or the refusal, with a mark if it has a place."""
    script = make_script('0', count, scenes)
    return {(line[:2] + answer[:4 if line[:2] in (b'31', b'33') or answer[:1] == b'F' else 2]
             + b'+' * (answer[:1] == b'F' and answer[4:8] != b'0000')).decode() for line, answer in zip(script.lines, script.answers)}


def every_answer(scenes, count, every):
    """A script of that many calls meets every answer."""
    missing = set(every.split()) - answers_met(scenes, count)
    must(not missing, 'not met: %s', ' '.join(sorted(missing)))


def every_note(count):
    """The kinds of numbers that leave, each with where its note is; notes that a caller has set may be anywhere."""
    script, met = make_script('0', count, NOTES), set()
    for line, answer in zip(script.lines, script.answers):
        if line[:2] == b'12' and answer[:2] == b'00':
            kind, number, note = (int(part, 16) for part in (answer[2:4], answer[4:8], answer[8:12]))
            ahead = (note - number) % 65536 < 32768
            where = 'own' if note == number else '%s%s' % (('behind', 'ahead')[ahead], ' over 65,535' * ((note > number) != ahead))
            met.add('%s: %s' % (('received', 'spare', 'repaired', 'lost')[kind], where))
    must(NOTED <= met, 'not met: %s', ', '.join(sorted(NOTED - met)))


def checks():
    """All checks: a name, and what does it."""
    for name, given in EVERY.items():
        yield 'every answer on ' + name, lambda g=given: every_answer(*g)
    yield 'every note', lambda: every_note(6000)


def self_test():
    """Short scripts, and wrong programs while a script is made."""
    test = Cases('generated.py')
    scenes, _, every = EVERY['the joiner']
    test.fails('a short script', 'not met: ', every_answer, scenes, 20, every)
    test.fails('a short script of notes', 'not met: ', every_note, 60)
    script = Script('0', 2)
    script.calls.by_first_octet[0x07] = lambda arguments: Refusal(SPARE_BIT).octets()
    test.fails('two readers that differ', "b'05000006' is read as b'00000300', by 07 as b'FF050000'", script.read, 0, b'\x06', 0)
    test.fails('a refusal at another place', 'answered ff010003, and the items say ff010002', placed.met,
               Refusal(ENDS, 3).octets(), Refusal(ENDS, 2))
    script = Script('0', UNLIMITED)
    script.calls.by_first_octet.update(dict.fromkeys((0x18, 0x19), lambda arguments: Refusal(RANGES).octets()))
    test.fails('an image refused otherwise', 'answered ff110000, and the items say ff140000', images.restore, script, b'', MISSHAPEN)
    test.fails('another image written', 'answered ff110000, and the rows have ', images.image, script)
    script = Script('0', UNLIMITED)
    script.offer(b'\x00\x00\x01\x06\x00\x00')
    script.receiving.base += 1
    test.fails('a session led outside its ranges', 'line 1 has led outside the ranges', script.look_inside)
    test.end()


def main():
    """Does each check; ends with status 1 at the first that is wrong."""
    parser = argparse.ArgumentParser(description=__doc__)
    parser.add_argument('--self-test', action='store_true', help='check that short scripts and wrong programs are reported')
    if parser.parse_args().self_test:
        self_test()
        return
    passed = 0
    for name, check in checks():
        try:
            check()
        except Wrong as wrong:
            print('wrong %s: %s' % (name, wrong))
            print('%d passed, 1 failed' % passed)
            sys.exit(1)
        passed += 1
        print('ok', name, flush=True)
    print('%d passed, 0 failed' % passed)


if __name__ == '__main__':
    main()

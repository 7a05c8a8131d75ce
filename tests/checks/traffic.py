#!/usr/bin/env python3
# check: behind
# self-test: beside
# needs: calls receive
# arguments: --calls 'bin/run calls' --program 'bin/run receive'
# says: real traffic is not released as it was sent
"""Real traffic (rules 28.3, 28.4, 9.5, 12.2 and 21.2): fax packets sent over a bad line and released; datagrams and packets read and
written back.

What was sent must come back, and every answer must be the independent program's."""

import argparse
import pathlib
import sys

sys.path[0] = str(pathlib.Path(__file__).resolve().parents[1])  # the folder tests/

from independent.arguments import sized
from independent.datagrams import PARITY, SPARES
from independent.editions import EDITIONS, OLD
from independent.packets import read_packet, written_packet
from making.pieces import damaged, packet_items
from making.script import Script
from support import joined
from support.failing import Cases, altered, altered_here, independent_here
from support.real import (DATAGRAMS, REPLAYED, UNLIMITED, Wrong, as_expected, conversation, corpus, datagram_back, must, octets_of,
                          packet_back, settings_text, written_by)
from support.released import check_conversation, check_results, heard, replayed, through_the_program
from support.running import left_out, run

CALLS = ('tt_v17_ecm_v0.a2b', 'tt_v17_ecm_v0.b2a', 'tt_v29_ecm_v0.a2b', 'gt_v17_nonecm_v0.a2b')
SETTINGS = ((SPARES, 0, 0), (SPARES, 3, 0), (SPARES, 8, 0), (PARITY, 3, 2), (PARITY, 1, 1), (PARITY, 8, 4))


def written_back(script, command, originals):
    """Each original was read, and written by the last of its calls; what was written is the original."""
    answers, each = written_by(command, script.lines, script.answers), len(script.lines) // len(originals)
    for at, written in enumerate(octets_of(answers[each - 1::each])):
        must(written == b'\x00' + sized(originals[at]), 'line %d: written back as %s', each * (at + 1), written.hex())
    as_expected(script.answers, answers)


def datagrams_back(command, name):
    """Each real datagram is read and written back as the same octets."""
    script = Script(name, UNLIMITED)
    for octets in corpus(name):
        datagram_back(script, octets)
    written_back(script, command, corpus(name))


def packets_back(command, name):
    """Each real packet is read and written back as the same octets."""
    all_back(command, name, corpus(name))


def put_together_back(command, name):
    """The same of real packets put together, as many fields in each as it holds, in each edition."""
    packets = joined.put_together([read_packet(OLD, octets, False) for octets in corpus(name)])
    for edition in EDITIONS:
        all_back(command, name, [written_packet(edition, packet) for packet in packets], edition)
    return '%d packets in place of %d' % (len(packets), len(corpus(name)))


def damaged_read(command, name):
    """Real packets put together and then damaged, read by both readers as received and as repaired, in each edition.

    How many of them still read."""
    script = Script(name, UNLIMITED)
    for packet in joined.put_together([read_packet(OLD, octets, False) for octets in corpus(name)]):
        for edition in EDITIONS:
            octets = damaged(script.random, packet_items(edition, packet))
            script.read(edition, octets, 0)
            script.read(edition, octets, 1)
    as_expected(script.answers, written_by(command, script.lines, script.answers))
    return '%d of %d calls refused' % (sum(answer.startswith(b'FF') for answer in script.answers), len(script.answers))


def all_back(command, name, packets, edition=OLD):
    """Packets are read and written back as the same octets."""
    script = Script(name, UNLIMITED)
    for octets in packets:
        packet_back(script, octets, edition)
    written_back(script, command, packets)


def sent_as_recorded(command, name):
    """The packets sent (21) with the recorded settings give the recorded datagrams."""
    packets, datagrams = corpus(name.rsplit('.', 1)[0]), corpus(name)
    script = Script(name, UNLIMITED)
    for packet, octets in zip(packets, datagrams):
        script.send(packet, *DATAGRAMS[name], len(octets))
    answers = written_by(command, script.lines, script.answers)
    for number, (octets, answer) in enumerate(zip(datagrams, octets_of(answers))):
        must(answer == b'\x00' + sized(octets), 'datagram %d is sent as %s', number, answer.hex())
    as_expected(script.answers, answers)


def checks(arguments):
    """All checks: a name, and what does it."""
    if arguments.calls:
        for name in DATAGRAMS:
            yield 'datagrams read and written back: ' + name, lambda n=name: datagrams_back(arguments.calls, n)
            yield 'packets sent as recorded: ' + name, lambda n=name: sent_as_recorded(arguments.calls, n)
        for name in CALLS:
            yield 'packets read and written back: ' + name, lambda n=name: packets_back(arguments.calls, n)
            yield 'packets put together, read and written back: ' + name, lambda n=name: put_together_back(arguments.calls, n)
            yield 'packets damaged, read by both readers: ' + name, lambda n=name: damaged_read(arguments.calls, n)
        for at, settings in enumerate(SETTINGS):
            for loss in (0.05, 0.3):
                name = CALLS[at % len(CALLS)]
                label = '%s with %s, %d %% lost' % (name, settings_text(settings), 100 * loss)
                yield label, lambda n=name, s=settings, l=loss: heard(arguments.calls, n, s, l)
        for name, loss in REPLAYED:
            yield 'replayed: %s, %d %% dropped' % (name, 100 * loss), lambda n=name, l=loss: replayed(arguments.calls, n, l)
        yield from joined.checks(arguments.calls)
    if arguments.program:
        for name, loss in REPLAYED:
            label = 'through the program: %s, %d %% lost' % (name, 100 * loss)
            yield label, lambda n=name, l=loss: through_the_program(arguments.program, n, l)


def self_test():
    """A wrong program for each thing that is checked, and what is said of it."""
    test, right = Cases('traffic.py'), independent_here()
    spares, parity = DATAGRAMS
    call, settings = CALLS[1], (SPARES, 3, 0)
    packets = corpus(call)
    for name, how, words in (
            ('status 3', 'cat; exit 3', 'it does not end well: status 3'),
            ('an answer left out', "sed '$d'", 'answers in place of'),
            ('no last line feed', 'head -c -1', 'the last answer has no line feed'),
            ('a character more', "sed '2s/^/0/'", 'answer 2 is not of hexadecimal'),
            ('small letters', 'tr A-F a-f', 'is not the expected one')):
        test.fails(name, words, packets_back, lambda given, h=how: run(h, right(given)[0]), call)
    for name, check, how, words in (
            ('a datagram written otherwise', lambda c: datagrams_back(c, spares), 'calls 04 -1', 'line 2: written back as '),
            ('a packet written otherwise', lambda c: packets_back(c, call), 'calls 06 -1', 'line 3: written back as '),
            ('packets put together written otherwise', lambda c: put_together_back(c, call), 'calls 06 -1', 'line 3: written back as '),
            ('packets damaged read otherwise by 07', lambda c: damaged_read(c, call), 'calls 07 -1', 'is not the expected one'),
            ('a datagram sent otherwise', lambda c: sent_as_recorded(c, parity), 'calls 21 -1', 'datagram 0 is sent as ')):
        test.fails(name, words, check, altered_here(how))
    for name, how, given, words in (
            ('a packet', 'calls 12 16', (settings, 0.3), 'number 0 was sent as '),
            ('a kind', 'calls 12 2', (settings, 0.3), 'number 0 is released with kind 17'),
            ('a number', 'calls 12 7', (settings, 0.3), 'released: 1 in place of 0'),
            ('nothing released', 'calls 12 0', (settings, 0.3), 'not released: '),
            ('a size given up', 'calls 12 15', (settings, 0.99), 'given up: '),
            ("a spare's note", 'calls own', (settings, 0.3), 'number 0 is a spare of datagram 0, and these came with it: [1]'),
            ("a received number's note", 'calls 12 11', ((SPARES, 0, 0), 0.3), ' is received with datagram '),
            ("a repaired number's note", 'calls own', ((PARITY, 3, 2), 0.3), ' is repaired with datagram '),
            ('the counts', 'calls 14 9', (settings, 0.3), 'the counts are ')):
        test.fails('conversation, ' + name, words, heard, altered_here(how), call, *given)
    script = conversation('short', packets, settings, 0)
    test.fails('conversation, one never released', '55 of 56 numbers released', check_conversation, right, script, packets + [b'\x06'])
    test.fails('conversation, one too many', 'number 54 is released, and 54 were sent', check_conversation, right, script, packets[:-1])
    for name, how, words in (('a kind', 'program 00 0', 'result 10'), ('a number given up', 'program 03 5', 'given up: '),
                             ('a packet', 'program 00 6', ' was sent as ')):
        test.fails('program, ' + name, words, through_the_program, altered_here(how), spares, 0.4)
    test.fails('program, a packet never released', '0 of 1 numbers released', check_results, [], packets[:1])
    for name, how, words in (('refused', 'calls 40 0', 'not replayed: 10000000'), ('a count', 'calls 40 9', 'the counts are 000000')):
        test.fails('replay, ' + name, words, replayed, altered_here(how), spares, 0.4)
    joined.self_test(test)
    test.ends('a wrong program', 1, '1 passed, 1 failed', [sys.executable, __file__, '--program', altered('program 01 0')])
    test.end()


def main():
    """Does each check; ends with status 1 at the first that is wrong."""
    parser = argparse.ArgumentParser(description=__doc__)
    parser.add_argument('--calls', help='shell command of the calls program under test')
    parser.add_argument('--program', help='shell command of the program under test')
    parser.add_argument('--self-test', action='store_true', help='check that wrong programs are reported')
    arguments = parser.parse_args()
    if arguments.self_test:
        self_test()
        return
    if not (arguments.calls or arguments.program):
        parser.error('a command is needed: --calls, --program or both')
    passed = 0
    for name, check in checks(arguments):
        try:
            remark = check()
        except Wrong as wrong:
            print('wrong %s: %s' % (name, wrong))
            print('%d passed, 1 failed' % passed)
            sys.exit(1)
        passed += 1
        print('ok %s%s' % (name, '; ' + remark if remark else ''), flush=True)
    for line in left_out(arguments):
        print(line)
    print('%d passed, 0 failed' % passed)


if __name__ == '__main__':
    main()

#!/usr/bin/env python3
# check: behind
# self-test: beside
# needs: explain
# arguments: --explain 'bin/run explain'
# says: explain reads a packet otherwise than the independent program
"""The program explain (rules 19.4 to 19.7): for each packet a block of lines, one for each item, and a last line with what it reads as, or
its refusal.

The last line must say what the independent program answers. The items must follow one another, each with the packet's own bits."""

import argparse
import pathlib
import re
import sys

sys.path[0] = str(pathlib.Path(__file__).resolve().parents[1])  # the folder tests/

from independent.editions import EDITIONS, NEW, OLD
from independent.packets import PACKET_LIMIT, read_packet, written_packet
from independent.refusals import Refusal
from making.generate import PACKETS, make_script
from making.pieces import damaged, packet_items
from making.script import Script
from support.comparing import stored
from support.failing import Cases
from support.joined import put_together
from support.real import UNLIMITED, Wrong, corpus, must
from support.running import around, lines_of, run, text_of

# All that is known of the program's words: the last line of a block, refused or read, with its fields; an item; bits past the end.
# A packet of the new edition follows the word new; of one that only the other edition reads a refusal's words say so.
REFUSED = re.compile(rb'refused with (?P<number>[0-9]+)( at octet (?P<place>[0-9]+))?: \S.*')
READS = re.compile(rb'reads as (?P<kind>indicator|data) (?P<value>[0-9]+)\b[^,]*, (?P<count>[0-9]+) fields?(?P<fields>(;.*)?)')
FIELD = re.compile(rb'; type ([0-9]+)\b[^,]*, ([0-9]+) octets?')
ITEM = re.compile(rb'octet (?P<octet>[0-9]+) +bit (?P<bit>[0-7]) +(?P<bits>[01]+-*|-+|octets) +\S.*')
KINDS, REPAIRED, WHOLE, PAST = (b'indicator', b'data'), b'repaired ', b'octets', b'-'
NAMED = {OLD: b'', NEW: b'new '}
OTHER = {OLD: b'in the new edition', NEW: b'in the old edition'}

REAL, MADE = 'tt_v17_ecm_v0.a2b', 1000


def packets():
    """Edition, octets and whether they were repaired: those of the stored cases, made ones, and real ones put together, also damaged."""
    script = Script('explain', UNLIMITED)
    for packet in put_together([read_packet(OLD, octets, False) for octets in corpus(REAL)]):
        for edition in EDITIONS:
            script.read(edition, written_packet(edition, packet), 0)
            script.read(edition, damaged(script.random, packet_items(edition, packet)), script.random.randrange(2))
    lines = [line for _, given, _ in stored('.calls', '.answers') for line in lines_of(given)] + script.lines
    lines += make_script('explain', MADE, PACKETS).lines
    matches = (re.fullmatch(b'07(00|01)(00|01)(([0-9A-Fa-f]{2})+)', line) for line in lines)
    return list(dict.fromkeys((int(match[1]), bytes.fromhex(match[3].decode()), match[2] == b'01') for match in matches if match))


def line_of(edition, octets, repaired):
    """The line that asks for a packet."""
    return NAMED[edition] + (REPAIRED if repaired else b'') + octets.hex().upper().encode()


def meant(edition, octets, repaired):
    """What the independent program answers: kind, value, and type and length of each field, or a refusal's number and place.

    A refusal that is not met in reading order, over the packet limit, has none."""
    try:
        packet = read_packet(edition, octets, repaired)
    except Refusal as refusal:
        return refusal.number, None if len(octets) > PACKET_LIMIT else refusal.place
    return packet.kind, packet.value, [(field_type, len(data)) for field_type, data in packet.fields]


def said(last):
    """The same as a block's last line says it."""
    refused, reads = REFUSED.fullmatch(last), READS.fullmatch(last)
    if refused:
        return int(refused['number']), refused['place'] and int(refused['place'])
    must(reads, 'neither read nor refused: %s', around(last, 0))
    fields = [(int(field_type), int(length)) for field_type, length in FIELD.findall(reads['fields'])]
    must(len(fields) == int(reads['count']), '%d fields are shown: %s', len(fields), around(last, 0))
    return KINDS.index(reads['kind']), int(reads['value']), fields


def is_refusal(shown):
    """Whether a packet is refused: a number and a place, and not a kind, a value and fields."""
    return len(shown) == 2


def check_items(octets, items, refused):
    """Each item begins where the last ended and has the packet's bits; the refused one, the last, may begin before. All is covered."""
    row = b''.join(b'%d' % (octet >> place & 1) for octet in octets for place in range(7, -1, -1))
    place, last_whole = 0, False
    for left, item in zip(range(len(items) - 1, -1, -1), items):
        form = ITEM.fullmatch(item)
        must(form, 'no item: %s', around(item, 0))
        begins, bits = 8 * int(form['octet']) + int(form['bit']), form['bits']
        follows = begins > place and begins % 8 == 0 if last_whole else begins == place
        must(follows or refused and not left and begins < place, 'does not follow on the item before: %s', around(item, 0))
        last_whole = bits == WHOLE
        must(last_whole or row.ljust(begins + len(bits), PAST)[begins:].startswith(bits), 'other bits than the packet: %s', around(item, 0))
        place = begins if last_whole else begins + len(bits)
    must(refused or last_whole or place == len(row), 'ends at bit %d of %d: %s', place, len(row), around(b''.join(items[-1:]), 0))


def judged(written, given):
    """What the program has written, block by block."""
    must(written.endswith(b'\n'), 'the last line has no line feed')
    blocks = written[:-1].split(b'\n\n')
    for number, (packet, block) in enumerate(zip(given, blocks), 1):
        *items, last = block.split(b'\n')
        try:
            ours, theirs = meant(*packet), said(last)
            must(ours == theirs, 'expected %s, shown %s', ours, theirs)
            must(items, 'no item')
            check_items(packet[1], items, is_refusal(ours))
            elsewhere = is_refusal(ours) and not is_refusal(meant(1 - packet[0], *packet[1:]))
            must((OTHER[packet[0]] in last) == elsewhere, '%s the other edition reads it: %s', 'unsaid that' if elsewhere else 'said that',
                 around(last, 0))
        except Wrong as wrong:
            raise Wrong('block %d, %s: %s' % (number, around(line_of(*packet), 0), wrong))
    must(len(blocks) == len(given), '%d blocks in place of %d', len(blocks), len(given))


def check(command, given):
    """All packets by one program; how many are read and refused."""
    written, remark = run(command, text_of(line_of(*packet) for packet in given))
    must(not remark, 'it does not end well: %s', remark)
    judged(written, given)
    refused = sum(is_refusal(meant(*packet)) for packet in given)
    return '%d packets read, %d refused' % (len(given) - refused, refused)


def self_test():
    """A wrong explanation for each thing that is checked, and what is said of it."""
    test = Cases('explain.py')
    given = [(OLD, b'\x06', False), (OLD, b'\xC0\x80\x01', False), (OLD, b'\x06\0\0', True), (OLD, b'\xC0\x01\x80\0\0\xAA', True),
             (OLD, b'\x06' * (PACKET_LIMIT + 1), False), (NEW, b'\x20\0', False), (OLD, b'\x20\0', False),
             (NEW, b'\xC0\x01\xE0\0\0\xAA', True)]
    right = b'''octet 0   bit 0  0000011           all but the last
octet 0   bit 7  0                 the last
reads as indicator 3 (one), 0 fields

octet 0   bit 0  11000000          all
octet 1   bit 0  1000000000000001  a count
octet 0   bit 0  octets            all of it
refused with 3 at octet 1: words

octet 0   bit 0  00000110          all
octet 1   bit 0  octets            the rest
reads as indicator 3, 0 fields

octet 0   bit 0  11000000          all
octet 1   bit 0  octets            count, header, length and data
octet 5   bit 0  10101010          data
reads as data 0 (another), 1 field; type 0 (one), 1 octet

octet 0   bit 0  octets            the packet
refused with 4: others

octet 0   bit 0  0010000000        an added value
octet 1   bit 2  000000            up to the edge
reads as indicator 16 (one), 0 fields

octet 0   bit 0  001               an extension
refused with 12 at octet 0: words; it reads in the new edition

octet 0   bit 0  octets            all
octet 2   bit 0  111               a header
refused with 12 at octet 2: words; it reads in the old edition
'''
    for name, old, new, words in (
            ('another refusal', b'refused with 3', b'refused with 4', 'block 2, C08001: expected (3, 1), shown (4, 1)'),
            ('a refusal without words', b'with 4: others', b'with 4', ': neither read nor refused: refused with 4'),
            ('read, not refused', b'refused with 3 at octet 1: words', b'reads as data 0, 0 fields',
             'block 2, C08001: expected (3, 1), shown (1, 0, [])'),
            ('another count', b'1 field;', b'2 fields;', '1 fields are shown: reads as data 0'),
            ('no item', b'octet 0   bit 0  00000110          all\noctet 1   bit 0  octets            the rest\n', b'', 'no item'),
            ('an item of another form', b'octet 0   bit 7', b'octet 0   bit 8', 'block 1, 06: no item: octet 0   bit 8'),
            ('an item left out', b'octet 1   bit 0  1000000000000001  a count\n', b'octet 1   bit 7  1  a bit\n', 'does not follow on'),
            ('another bit', b'1000000000000001', b'1000000000000000', 'block 2, C08001: other bits than the packet: octet 1   bit 0'),
            ('the other edition not named', b'; it reads in the new edition', b'', 'block 7, 2000: unsaid that the other edition reads'),
            ('the other edition named though it refuses', b'1: words', b'1: in the new edition', 'block 2, C08001: said that the other'),
            ('the end left out', b'  10101010  ', b'  1010101  ', 'ends at bit 47 of 48: octet 5   bit 0')):
        assert right.count(old) == 1, name
        test.fails(name, words, judged, right.replace(old, new), given)
    test.fails('a block more', '8 blocks in place of 4', judged, right, given[:4])
    test.fails('no last line feed', 'the last line has no line feed', judged, right[:-1], given)
    test.fails('status 3', 'it does not end well: status 3', check, 'exit 3', given)
    test.ends('a wrong program', 1, '0 passed, 1 failed', [sys.executable, __file__, '--explain', 'echo refused with 1'])
    test.end()


def main():
    """Checks the program; ends with status 1 if it is wrong."""
    parser = argparse.ArgumentParser(description=__doc__)
    parser.add_argument('--explain', help='shell command of the program explain')
    parser.add_argument('--self-test', action='store_true', help='check that wrong explanations are reported')
    arguments = parser.parse_args()
    if arguments.self_test:
        self_test()
        return
    if not arguments.explain:
        parser.error('a command is needed: --explain')
    try:
        print('ok explain; %s' % check(arguments.explain, packets()))
    except Wrong as wrong:
        print('wrong explain: %s' % wrong)
        print('0 passed, 1 failed')
        sys.exit(1)
    print('1 passed, 0 failed')


if __name__ == '__main__':
    main()

#!/usr/bin/env python3
# check: beside
# self-test: beside
# says: tools/lines-of does not write a capture as the lines it was made of
"""The tool tools/lines-of: captures that tshark's tools made of real traces, and captures made here, octet by octet.

It must write the trace and name what it leaves out, and whatever the file, it must end with a message."""

import argparse
import pathlib
import random
import shlex
import struct
import subprocess
import sys
import tempfile

sys.path[0] = str(pathlib.Path(__file__).resolve().parents[1])  # the folder tests/

from mutants.lines_of import EDITS
from support import capturing as made
from support.broken_captures import NONE, cut_files, damaged_files, no_captures
from support.capturing import FOUR, PORTS, SIX, THERE, THERE_6, ethernet, ipv4, ipv6, pcap, some, udp
from support.desk import edited
from support.failing import Cases
from support.lines_of_tool import Tool, text_of
from support.places import CAPTURES, TOOLS
from support.real import Wrong, corpus, must

# The stored captures: options, then the trace and how many lines of it.
SPARES, PARITY = 'tt_v17_ecm_v0.a2b.k3', 'tt_v17_ecm_v0.a2b.n3m2'
STORED = {
    'spares.pcap': ('', SPARES, 40), 'parity-6.pcap': ('', PARITY, 40), 'parity-6.pcapng': ('', PARITY, 40),
    'both-ways.pcapng': ('--from 192.0.2.2', PARITY, 20), 'cut.pcap': ('', SPARES, 5),
    'cooked.pcap': ('', PARITY, 20), 'cooked-2.pcap': ('', PARITY, 20)}
# Five flows: how many datagrams, between which ends and ports, and the flow's name.
FLOWS = {
    'busy': (6, FOUR[:2], (5060, 5062), '192.0.2.1:5060 -> 192.0.2.2:5062'), 'there': (5, FOUR[:2], PORTS, THERE),
    'back': (4, FOUR[1::-1], PORTS[::-1], '192.0.2.2:4002 -> 192.0.2.1:4000'), 'six': (3, SIX[:2], PORTS, THERE_6),
    'third': (2, FOUR[::2], PORTS, '192.0.2.1:4000 -> 192.0.2.3:4002')}
# Options, the flow that they leave, and of how many it is the busiest.
CHOICES = (
    ('', 'busy', 5), ('--from 192.0.2.1', 'busy', 3), ('--from 192.0.2.1:5060 --to 192.0.2.2:5062', 'busy', 1),
    ('--port 5060', 'busy', 1), ('--port 5062', 'busy', 1), ('--port 4000', 'there', 4), ('--from 192.0.2.1:4000', 'there', 2),
    ('--from 192.0.2.2', 'back', 1), ('--to 192.0.2.1:4000', 'back', 1), ('--from 192.0.2.1:4000 --to 192.0.2.3', 'third', 1),
    ('--from 2001:db8:0::1', 'six', 1), ('--to [2001:DB8::2]', 'six', 1), ('--to [2001:db8::2]:4002', 'six', 1))
NO_CHOICES = '--port 1', '--from 192.0.2.3', '--to 192.0.2.1:4002', '--from 192.0.2.2 --to 192.0.2.3', '--port 5060 --from ::1'
TSHARK = 'tshark -r - -o ip.defragment:FALSE -o ipv6.defragment:FALSE -T fields -e udp.payload'.split()
# Why a datagram is left out.
IN_PIECES = 'a fragment; a datagram in fragments is not put together'
CUT = 'cut by the capture; tcpdump -s 0 records all of it'
MISFIT = 'its UDP length does not fit its IP packet'
EMPTY = 'a datagram of no octets; an empty line would be a give-up'


def stored_captures(tool):
    """The stored captures give the trace."""
    names = {path.name for path in CAPTURES.glob('*.pcap*')}
    must(names == set(STORED), 'stored are %s', ', '.join(sorted(names)))
    for name, (options, trace, count) in STORED.items():
        ran = tool.ran(CAPTURES / name, *options.split())
        must(ran.written == text_of(corpus(trace)[:count]), '%s: another trace; said %s', name, ran.said)
    return '%d captures' % len(STORED)


def every_form(tool):
    """Each form of file, link header and network header gives its datagrams."""
    count = 0
    for count, (names, capture, datagrams) in enumerate(made.all_forms(), 1):
        tool.gives(', '.join(names), capture, datagrams, ['4 datagrams, ' + (THERE if names[2].startswith('IPv4') else THERE_6)])
    return '%d captures' % count


def several_interfaces(tool):
    """Interfaces of several link types, sections of both byte orders, and how much a simple packet holds."""
    datagrams = some('interfaces', 8)
    ips = [ipv4(udp(octets)) for octets in datagrams]
    tool.gives('sections', b''.join((
        made.section(), made.interface(1), made.interface(113), made.interface(101, snap=100),
        made.enhanced(made.cooked(ips[0]), 1), made.enhanced(ips[1], 2), made.enhanced(ethernet(ips[2]), 0), made.simple(ethernet(ips[3])),
        made.section('>'), made.interface(276, '>'), made.interface(0, '>'),
        made.enhanced(made.loopback('<')(ips[4]), 1, '>'), made.simple(made.cooked_2(ips[5]), '>'), made.old(made.cooked_2(ips[6]), 0, '>'),
        made.section(), made.other(), made.interface(101), made.old(ips[7]))), datagrams, ['8 datagrams, ' + THERE])
    start = made.section() + made.interface(101, snap=40)
    tool.gives('a simple packet', start + made.simple(ipv4(udp(b'12 octets...')), snap=40), [b'12 octets...'], ['1 datagram, ' + THERE])
    tool.gives('a simple packet, cut', start + made.simple(ipv4(udp(b'13 octets....')), snap=44), [], ['left out, No. 1: ' + CUT, NONE])


def choice_of_flows(tool):
    """The busiest flow, or that of the options; what is not UDP is in none."""
    sent = [(name, octets) for name, (count, *_) in FLOWS.items() for octets in some(name, count)]
    random.Random('flows').shuffle(sent)
    frames = [ethernet(ipv4(udp(b'no UDP'), protocol=6)), bytes(12) + b'\x08\x06' + ipv4(udp(b'no IP')), b'', b'short']
    for name, octets in sent:
        _, ends, ports, _ = FLOWS[name]
        frames.append(ethernet((ipv6 if name == 'six' else ipv4)(udp(octets, ports), ends)))
    capture = pcap(frames, 1)
    for options, name, flows in CHOICES:
        remark = '%d datagrams, %s%s' % (FLOWS[name][0], FLOWS[name][3], ', the busiest of %d flows' % flows if flows > 1 else '')
        tool.gives(options or 'no options', capture, [octets for other, octets in sent if other == name], [remark], options)
    for options in NO_CHOICES:
        tool.gives(options, capture, [], ['no whole UDP datagram of such a flow in -'], options)
    for options, listed in (('--list', FLOWS), ('--list --to 192.0.2.2', ('busy', 'there'))):
        ran = tool.ran(capture, *options.split())
        rows = ['%d datagrams, %s\n' % (FLOWS[name][0], FLOWS[name][3]) for name in listed]
        must(ran == (0, ''.join(rows), []), '%s: %s', options, ran)


def left_out(tool):
    """What is no whole datagram is left out and named."""
    datagram = udp(bytes(100))
    first, last = ([(made.FRAGMENT, struct.pack('!xHI', offset, 1))] for offset in (1, 80))
    for name, ip, fault in (
            ('the first fragment', ipv4(datagram, pieces=0x2000), IN_PIECES), ('the last', ipv4(b'rest', pieces=3), IN_PIECES),
            ('the first of IPv6', ipv6(datagram, extensions=first), IN_PIECES), ('its last', ipv6(b'rest', extensions=last), IN_PIECES),
            ('a UDP length too long', ipv4(udp(b'06', length=11)), MISFIT), ('one too short', ipv4(udp(b'06', length=7)), MISFIT),
            ('half a UDP header', ipv4(datagram[:4]), MISFIT), ('no octets', ipv6(udp(b'')), EMPTY),
            ('a cut datagram', ipv4(datagram)[:-1], CUT), ('a cut UDP header', ipv6(datagram)[:44], CUT)):
        whole, flow = (ipv4, THERE) if ip[0] >> 4 == 4 else (ipv6, THERE_6)
        tool.gives(name, pcap([whole(udp(b'whole')), ip], 101), [b'whole'], ['left out, No. 2: ' + fault, '1 datagram, ' + flow])
        tool.gives(name + ', alone', pcap([ip], 101), [], ['left out, No. 1: ' + fault, NONE])


def remarks(tool):
    """Of what is left out, that which may belong to the flow is named; with --list all of it."""
    ips = [ipv4(udp(b'06')), ipv4(udp(b''), FOUR[1::-1]), ipv4(b'rest', FOUR[::2], pieces=3), ipv4(udp(b'', (1, 2))),
           ipv4(b'rest', pieces=3)]
    tool.gives('another flow', pcap(ips, 101), [b'06'], ['left out, No. 5: ' + IN_PIECES, '1 datagram, ' + THERE])
    ran = tool.ran(pcap(ips, 101), '--list')
    must(ran.said == ['left out, No. 2, 4: ' + EMPTY, 'left out, No. 3, 5: ' + IN_PIECES], '--list: %s', ran.said)
    tool.gives('many', pcap([ipv4(udp(b''))] * 12, 101), [], ['left out, No. 1, 2, 3, 4, 5, 6, 7, 8, 9, 10 and 2 more: ' + EMPTY, NONE])
    unknown = made.section() + made.interface(147) + made.interface(101) + made.enhanced(ips[0]) + made.enhanced(ips[0], 1)
    tool.gives('a link type', unknown, [b'06'], ['1 of link type 147, which is not known here, left out', '1 datagram, ' + THERE])
    tool.gives('nothing', pcap([], 1), [], [NONE])


def as_a_command(tool):
    """As it is called: its status, and what it writes and says."""
    usage = 'usage: lines-of [--from ADDRESS[:PORT]] [--to ADDRESS[:PORT]] [--port PORT] [--list] CAPTURE\nlines-of: error: '
    flow, lines = 'lines-of: 30000 datagrams, %s\n' % THERE, '3036\n' * 30000
    with tempfile.TemporaryDirectory() as directory:
        path = pathlib.Path(directory) / 'one.pcap'
        path.write_bytes(pcap([ipv4(udp(b'06'))] * 30000, 101))
        for arguments, status, written in (
                (path, 0, flow + lines), ('- <%s' % path, 0, flow + lines), ('%s | head -n 1' % path, 0, flow + '3036\n'),
                ('nothing', 1, 'lines-of: nothing cannot be read: No such file or directory\n'),
                (directory, 1, 'lines-of: %s cannot be read: Is a directory\n' % directory),
                ('', 2, usage + 'the following arguments are required: CAPTURE\n'),
                ('--port 65536 -', 2, usage + 'argument --port: 65536 is no port\n'),
                ('--from 1.2.3.4:x -', 2, usage + 'argument --from: x is no port\n'),
                ('--to 1.2.3:4 -', 2, usage + 'argument --to: 1.2.3:4 is neither ADDRESS nor ADDRESS:PORT\n')):
            ended = subprocess.run('%s %s %s' % (sys.executable, shlex.quote(str(tool.path)), arguments), shell=True, text=True,
                                   cwd=directory, stdout=subprocess.PIPE, stderr=subprocess.STDOUT)
            found = ended.returncode, ended.stdout
            must(found == (status, written), '%s: status %d, %s', arguments, found[0], found[1][-300:])


def as_tshark_has_it(tool):
    """Every form but IP without a length, which it does not read, as tshark reads it; it must be here."""
    count = 0
    for names, capture, datagrams in made.all_forms():
        form, link, network = names
        if form == 'pcap' and 'without a length' not in network or (link, network) == ('Ethernet', 'IPv4'):
            ended = subprocess.run(TSHARK, input=capture, stdout=subprocess.PIPE, stderr=subprocess.PIPE, check=True)
            found = ended.stdout.decode().upper()
            must(found == text_of(datagrams), '%s: tshark has %s', ', '.join(names), found[:100].split())
            count += 1
    return '%d captures' % count


CHECKS = {
    'stored captures': stored_captures, 'every form of file, link and network': every_form, 'interfaces and sections': several_interfaces,
    'the choice of a flow': choice_of_flows, 'what is left out': left_out, 'remarks': remarks, 'files cut at every place': cut_files,
    'damaged files': damaged_files, 'no captures': no_captures, 'as a command': as_a_command}


def self_test():
    """Wrong tools, each one edit of the right one, and what is said of each."""
    test = Cases('lines_of.py')
    for name, part, old, new, check, words in EDITS:
        with tempfile.TemporaryDirectory() as directory:
            test.fails(name, words, CHECKS[check], Tool(edited(directory, part, old, new)))
    with tempfile.TemporaryDirectory() as directory:
        edited(directory, *EDITS[0][1:4])
        test.ends('a wrong tool', 1, '1 passed, 1 failed', [sys.executable, __file__, '--tools', directory])
    test.end()


def main():
    """Does each check; ends with status 1 at the first that is wrong."""
    parser = argparse.ArgumentParser(description=__doc__)
    parser.add_argument('--tools', type=pathlib.Path, default=TOOLS, help='the folder of the tool under test')
    parser.add_argument('--tshark', action='store_true', help='check first that tshark reads the same in the captures made here')
    parser.add_argument('--self-test', action='store_true', help='check that wrong tools are reported')
    arguments = parser.parse_args()
    if arguments.self_test:
        self_test()
        return
    checks = {**({'as tshark has it': as_tshark_has_it} if arguments.tshark else {}), **CHECKS}
    tool = Tool(arguments.tools)
    for passed, (name, check) in enumerate(checks.items()):
        try:
            remark = check(tool)
        except Wrong as wrong:
            print('wrong %s: %s' % (name, wrong))
            print('%d passed, 1 failed' % passed)
            sys.exit(1)
        print('ok %s%s' % (name, '; ' + remark if remark else ''), flush=True)
    print('%d passed, 0 failed' % len(checks))


if __name__ == '__main__':
    main()

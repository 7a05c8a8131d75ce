"""Captures that are cut or damaged, and files that are no captures: lines-of must end with a message. A part of checks/lines_of.py."""

import random
import re
import struct

from support import capturing as made
from support.capturing import THERE, ipv4, pcap, some, udp
from support.real import must

NONE = 'no whole UDP datagram in -'
BEFORE = '; what comes before is read'
DAMAGES = 3000


def cut_files(tool):
    """A file cut at any place gives what was whole before, and says so."""
    datagrams = some('cut', 3)
    ips = [ipv4(udp(octets)) for octets in datagrams]
    for parts in ([pcap([], 101)] + [pcap([ip], 101)[24:] for ip in ips],
                  [made.section(), made.interface(101)] + [made.enhanced(ip) for ip in ips]):
        text = b''.join(parts)
        edges = [sum(map(len, parts[:count])) for count in range(1, len(parts) + 1)]
        for length in range(4, len(text) + 1):
            whole = max(0, sum(edge <= length for edge in edges) - (len(parts) - len(ips)))
            where = 'behind No. %d' % whole if whole else 'before its first record'
            said = [] if length in edges else ['the capture is cut short ' + where + BEFORE]
            flow = '%d datagram%s, %s' % (whole, 's' * (whole > 1), THERE)
            tool.gives('%d of %d octets' % (length, len(text)), text[:length], datagrams[:whole], said + [flow if whole else NONE])


def damaged_files(tool):
    """Whatever is altered in a file: what is written are datagrams or flows, or it is said why there are none."""
    r = random.Random('damage')
    captures = [text for _, text, _ in made.all_forms()]
    for at in range(DAMAGES):
        text = bytearray(r.choice(captures)[:r.choice((200, 20000))])
        for _ in range(r.choice((1, 1, 2, 5))):
            place = r.randrange(r.choice((20, 120, len(text)))) % len(text)
            text[place:place + r.choice((0, 1, 1, 1, 4))] = r.choice((b'', b'\0', b'\xFF', r.randbytes(1), r.randbytes(4)))
        ran = tool.ran(bytes(text), *r.choice(((), ('--list',), ('--port', '4000'))))
        form = '(([0-9A-F]{2})+\n|[0-9]+ datagrams?, .*\n)+' if ran.status == 0 else ''
        must(re.fullmatch(form, ran.written), 'damage %d: status %s, written %s', at, ran.status, ran.written[:100])
        must(ran.status == 0 or ran.status == 1 and ran.said, 'damage %d: status %s, said %s', at, ran.status, ran.said)
    return '%d files' % DAMAGES


def no_captures(tool):
    """What is no capture is reported, and so is a capture with lengths or places that cannot be."""
    for name, text, said in (
            ('an empty file', b'', 'it begins with nothing, as neither pcap nor pcapng does'),
            ('a trace', b'000001060000\n', 'it begins with 30 30 30 30, as neither pcap nor pcapng does'),
            ('a packed file', b'\x1F\x8B\x08\0', 'it is packed: unpack it first, with gunzip')):
        tool.gives(name, text, [], ['- is no capture file: ' + said])
    ip = ipv4(udp(b'06'))
    start, packet, record = made.section() + made.interface(101) + made.enhanced(ip), made.enhanced(ip), pcap([ip], 101)[24:]
    huge, other = b'\xFF\xFF\xFF\x7F', made.other()
    for name, text, said in (
            ('a record too long', pcap([ip], 101) + record[:8] + huge + record[12:], 'the capture'),
            ('a block too long', start + packet[:4] + huge + packet[8:-4] + huge, 'the capture'),
            ('a block too short', start + other[:4] + b'\x08\0\0\0' + other[8:], 'the capture'),
            ('two lengths', start + packet[:-4] + b'\x44\0\0\0', 'the capture'),
            ('a section without order', start + made.section().replace(b'\x4D\x3C', b'\x3C\x4D'), 'the capture'),
            ('no such interface', start + made.enhanced(ip, 1) + packet, 'a block of the capture'),
            ('no interface', start + made.section() + made.simple(ip), 'a block of the capture'),
            ('a block without fields', start + made.block('<', 6, bytes(16)), 'a block of the capture'),
            ('a packet longer than its block', start + made.block('<', 6, struct.pack('<12xII8x', 9, 9)), 'a block of the capture')):
        tool.gives(name, text, [b'06'], [said + ' is damaged behind No. 1' + BEFORE, '1 datagram, ' + THERE])

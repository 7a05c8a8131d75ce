"""Capture files made octet by octet from their formats: what checks/lines_of.py gives to tools/lines-of."""

import ipaddress
import random
import struct

UDP, FRAGMENT, AUTHENTICATION, ROUTING, OPTIONS, HOP_BY_HOP = 17, 44, 51, 43, 60, 0
FOUR = tuple(ipaddress.ip_address('192.0.2.%d' % last) for last in (1, 2, 3))
SIX = tuple(ipaddress.ip_address('2001:db8::%d' % last) for last in (1, 2, 3))
PORTS = 4000, 4002
THERE, THERE_6 = '192.0.2.1:4000 -> 192.0.2.2:4002', '[2001:db8::1]:4000 -> [2001:db8::2]:4002'  # as lines-of names them


def udp(octets, ports=PORTS, length=None):
    """A UDP datagram; its length field may lie."""
    return struct.pack('!HHHH', *ports, len(octets) + 8 if length is None else length, 0) + octets


def ipv4(payload, ends=FOUR[:2], options=b'', pieces=0, protocol=UDP, length=None):
    """An IPv4 packet; pieces are the flags and the offset of a fragment."""
    words, whole = 5 + len(options) // 4, 20 + len(options) + len(payload)
    head = struct.pack('!BBHHHBBH4s4s', 0x40 | words, 0, whole if length is None else length, 1, pieces, 64, protocol, 0,
                       *(end.packed for end in ends))
    return head + options + payload


def ipv6(payload, ends=SIX[:2], extensions=(), protocol=UDP, length=None):
    """An IPv6 packet; an extension is its number and what is behind its first octet, the number of the next."""
    kinds = [kind for kind, _ in extensions] + [protocol]
    body = b''.join(bytes([after]) + rest for after, (_, rest) in zip(kinds[1:], extensions)) + payload
    return struct.pack('!IHBB16s16s', 6 << 28, len(body) if length is None else length, kinds[0], 64, *(end.packed for end in ends)) + body


def type_of(ip):
    """The Ethernet type of an IP packet."""
    return b'\x08\x00' if ip[0] >> 4 == 4 else b'\x86\xDD'


def tagged(ip, tags):
    """An IP packet behind its type, with VLAN tags before it: the type first, then the rest."""
    whole = b''.join(tag + b'\x00\x07' for tag in tags) + type_of(ip)
    return whole[:2], whole[2:] + ip


def ethernet(ip, *tags):
    """In an Ethernet frame, padded to its least length, with a check behind."""
    kind, rest = tagged(ip, tags)
    return (bytes(12) + kind + rest).ljust(60, b'\0') + b'FCS!'


def cooked(ip, *tags):
    """Behind a Linux cooked header."""
    kind, rest = tagged(ip, tags)
    return bytes(14) + kind + rest


def cooked_2(ip, *tags):
    """Behind a Linux cooked header of the second form."""
    kind, rest = tagged(ip, tags)
    return kind + bytes(18) + rest


def loopback(order, six=30):
    """Behind the address family, in a byte order, with one of the numbers for IPv6."""
    return lambda ip: struct.pack(order + 'I', 2 if ip[0] >> 4 == 4 else six) + ip


def raw(ip):
    """Without a link header."""
    return ip


TAGS = b'\x81\x00', b'\x88\xA8', b'\x91\x00'
LINKS = {
    'Ethernet': (1, ethernet), 'Ethernet with a tag': (1, lambda ip: ethernet(ip, TAGS[0])),
    'Ethernet with two tags': (1, lambda ip: ethernet(ip, TAGS[1], TAGS[0])),
    'Ethernet with three tags': (1, lambda ip: ethernet(ip, TAGS[2], TAGS[2], TAGS[0])),
    'cooked': (113, cooked), 'cooked with a tag': (113, lambda ip: cooked(ip, TAGS[0])),
    'cooked 2': (276, cooked_2), 'cooked 2 with a tag': (276, lambda ip: cooked_2(ip, TAGS[0])),
    'raw': (101, raw), 'raw of a BSD': (12, raw), 'raw of another BSD': (14, raw),
    'null, low first': (0, loopback('<')), 'null, high first': (0, loopback('>', 24)), 'loop': (108, loopback('>', 28))}
NETWORKS = {
    'IPv4': ipv4, 'IPv4 with options': lambda payload: ipv4(payload, options=b'\x94\x04\0\0' + b'\x01' * 8),
    'IPv4 without a length': lambda payload: ipv4(payload, length=0),
    'IPv6': ipv6, 'IPv6 with hop-by-hop': lambda payload: ipv6(payload, extensions=[(HOP_BY_HOP, b'\x00\x05\x02\0\0\0\0')]),
    'IPv6 with three extensions': lambda payload: ipv6(payload, extensions=[
        (OPTIONS, b'\x01' + bytes(14)), (ROUTING, b'\x00\xFD\0' + bytes(4)), (AUTHENTICATION, b'\x04' + bytes(22))]),
    'IPv6 in one fragment': lambda payload: ipv6(payload, extensions=[(FRAGMENT, b'\x00\x00\x00' + bytes(4))]),
    'IPv6 without a length': lambda payload: ipv6(payload, length=0)}


def pcap(frames, link, order='<', magic=0xA1B2C3D4, snap=262144):
    """A pcap file; of each frame so many octets at the most."""
    text = struct.pack(order + 'IHHiIII', magic, 2, 4, 0, 0, snap, link)
    return text + b''.join(struct.pack(order + 'IIII', 1, 2, len(frame[:snap]), len(frame)) + frame[:snap] for frame in frames)


def block(order, kind, body):
    """A block of a pcapng file, padded to words."""
    padded = body + bytes(-len(body) % 4)
    return struct.pack(order + 'II', kind, len(padded) + 12) + padded + struct.pack(order + 'I', len(padded) + 12)


def section(order='<'):
    """The start of a section; an option of 8 octets, and the end of options, stand in it."""
    return block(order, 0x0A0D0D0A, struct.pack(order + 'IHHqHH8sHH', 0x1A2B3C4D, 1, 0, -1, 1, 8, b'a remark', 0, 0))


def interface(link, order='<', snap=0):
    """An interface; 0 is no limit."""
    return block(order, 1, struct.pack(order + 'HHI', link, 0, snap))


def enhanced(frame, place=0, order='<', snap=262144):
    """A packet block as they are written today."""
    return block(order, 6, struct.pack(order + 'IIIII', place, 0, 0, len(frame[:snap]), len(frame)) + frame[:snap])


def old(frame, place=0, order='<'):
    """A packet block as they once were."""
    return block(order, 2, struct.pack(order + 'HHIIII', place, 0xFFFF, 0, 0, len(frame), len(frame)) + frame)


def simple(frame, order='<', snap=262144):
    """A packet block of the first interface, without a time."""
    return block(order, 3, struct.pack(order + 'I', len(frame)) + frame[:snap])


def other(order='<'):
    """A block of another kind: names."""
    return block(order, 4, bytes(4))


def pcapng(frames, link, order='<', packet=enhanced):
    """A pcapng file with one interface, and blocks of another kind between the packets."""
    return section(order) + interface(link, order) + b''.join(packet(frame, order=order) + other(order) for frame in frames)


FILES = {
    'pcap': pcap, 'pcap, high first': lambda frames, link: pcap(frames, link, '>'),
    'pcap in nanoseconds': lambda frames, link: pcap(frames, link, '<', 0xA1B23C4D),
    'pcap in nanoseconds, high first': lambda frames, link: pcap(frames, link, '>', 0xA1B23C4D),
    'pcap that names checks': lambda frames, link: pcap(frames, link | 0x24000000),
    'pcapng': pcapng, 'pcapng, high first': lambda frames, link: pcapng(frames, link, '>'),
    'pcapng, simple': lambda frames, link: pcapng(frames, link, packet=simple),
    'pcapng, simple, high first': lambda frames, link: pcapng(frames, link, '>', simple),
    'pcapng, old': lambda frames, link: pcapng(frames, link, packet=old),
    'pcapng, old, high first': lambda frames, link: pcapng(frames, link, '>', old)}


def some(seed, count=4):
    """Datagrams of all sizes."""
    r = random.Random(seed)
    return [r.randbytes(r.choice((1, 2, 20, 60, 200, 1400))) for _ in range(count)]


def all_forms():
    """Every form of link header, network header and file: the three names, the file and the datagrams."""
    for link, (number, linked) in LINKS.items():
        for network, packed in NETWORKS.items():
            datagrams = some(link + network)
            frames = [linked(packed(udp(octets))) for octets in datagrams]
            for form, written in FILES.items():
                yield (form, link, network), written(frames, number), datagrams

"""Capture files: the records of a pcap or pcapng file, one after the other, each with its number as Wireshark shows it under No."""

import struct
import typing

PCAP = {b'\xA1\xB2\xC3\xD4': '>', b'\xD4\xC3\xB2\xA1': '<',  # times in microseconds
        b'\xA1\xB2\x3C\x4D': '>', b'\x4D\x3C\xB2\xA1': '<'}  # in nanoseconds
SECTION = b'\x0A\x0D\x0D\x0A'
SECTION_ORDERS = {b'\x1A\x2B\x3C\x4D': '>', b'\x4D\x3C\x2B\x1A': '<'}
SECTION_KIND, INTERFACE, OLD_PACKET, SIMPLE_PACKET, ENHANCED_PACKET = 0x0A0D0D0A, 1, 2, 3, 6
LARGEST = 1 << 24  # octets of a record or block; a length over this is damage
GZIP = b'\x1F\x8B'


class NoCapture(Exception):
    """The file is no capture; the text says what it seems to be."""


class Broken(Exception):
    """From here on the file cannot be read; the text says why. What came before is whole."""


class Record(typing.NamedTuple):
    """What was captured of one passage over the network, from its link header on."""
    number: int
    link: int
    octets: bytes


def records(stream):
    """The records of a capture file; ends with Broken where it is cut or damaged."""
    magic = stream.read(4)
    if magic in PCAP:
        return numbered(pcap_records(stream, PCAP[magic]))
    if magic == SECTION:
        return numbered(pcapng_records(blocks(stream, magic)))
    if magic.startswith(GZIP):
        raise NoCapture('it is packed: unpack it first, with gunzip')
    raise NoCapture('it begins with %s, as neither pcap nor pcapng does' % (magic.hex(' ').upper() or 'nothing'))


def numbered(found):
    """The records with their numbers; a break is reported with the number of the last whole one."""
    number = 0
    try:
        for number, (link, octets) in enumerate(found, 1):
            yield Record(number, link, octets)
    except Broken as broken:
        raise Broken('%s %s' % (broken, 'behind No. %d' % number if number else 'before its first record')) from None


def exactly(stream, count):
    """So many octets, which must be there."""
    octets = stream.read(count)
    if len(octets) < count:
        raise Broken('the capture is cut short')
    return octets


def fields(form, octets):
    """The numbers at the front of a block."""
    if len(octets) < struct.calcsize(form):
        raise Broken('a block of the capture is damaged')
    return struct.unpack_from(form, octets)


def pcap_records(stream, order):
    """Link type and octets of each record of a pcap file, behind its first four octets."""
    link, = struct.unpack(order + '16xI', exactly(stream, 20))
    while first := stream.read(1):
        captured, = struct.unpack(order + '8xI4x', first + exactly(stream, 15))
        if captured > LARGEST:
            raise Broken('the capture is damaged')
        yield link & 0xFFFF, exactly(stream, captured)  # above 16 bits it holds other things


def blocks(stream, start):
    """Byte order, kind and body of each block of a pcapng file; the first four octets were read."""
    while start:
        head = start + exactly(stream, 12 - len(start))
        if head.startswith(SECTION):
            order = SECTION_ORDERS.get(head[8:])
            if not order:
                raise Broken('the capture is damaged')
        kind, length = struct.unpack(order + 'II', head[:8])
        if not 12 <= length <= LARGEST:
            raise Broken('the capture is damaged')
        rest = head[8:] + exactly(stream, length - 12)
        if struct.unpack(order + 'I', rest[-4:]) != (length,):
            raise Broken('the capture is damaged')
        yield order, kind, rest[:-4]
        start = stream.read(1)


def pcapng_records(found):
    """Link type and octets of each packet block of a pcapng file; a section has interfaces of its own."""
    interfaces = []
    for order, kind, body in found:
        if kind == SECTION_KIND:
            interfaces = []
        elif kind == INTERFACE:
            link, most = fields(order + 'H2xI', body)
            interfaces.append((link, most or LARGEST))
        elif kind == SIMPLE_PACKET:
            original, = fields(order + 'I', body)
            link, most = interface(interfaces, 0)
            yield link, body[4:][:min(original, most)]
        elif kind in (ENHANCED_PACKET, OLD_PACKET):
            form = 'I8xI4x' if kind == ENHANCED_PACKET else 'H10xI4x'
            place, captured = fields(order + form, body)
            if captured > len(body) - 20:
                raise Broken('a block of the capture is damaged')
            yield interface(interfaces, place)[0], body[20:][:captured]


def interface(interfaces, place):
    """The interface of a packet: its link type, and how many octets it captures of a packet at the most."""
    if place >= len(interfaces):
        raise Broken('a block of the capture is damaged')
    return interfaces[place]

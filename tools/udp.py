"""UDP datagrams in what a capture holds: behind Ethernet, Linux cooked, loopback or no link header, and behind IPv4 or IPv6."""

import ipaddress
import struct
import typing

IP_TYPES, TAGS = (b'\x08\x00', b'\x86\xDD'), (b'\x81\x00', b'\x88\xA8', b'\x91\x00')
FAMILIES = (2, 24, 28, 30)  # IPv4, and IPv6 as the systems number it
UDP, FRAGMENT, AUTHENTICATION = 17, 44, 51
EXTENSIONS = (0, 43, 60, 135, 139, 140, FRAGMENT, AUTHENTICATION)

IN_PIECES = 'a fragment; a datagram in fragments is not put together'
CUT = 'cut by the capture; tcpdump -s 0 records all of it'
MISFIT = 'its UDP length does not fit its IP packet'
EMPTY = 'a datagram of no octets; an empty line would be a give-up'


class Ip(typing.NamedTuple):
    """What an IP header says, and what was captured behind it."""
    source: ipaddress.IPv4Address  # or IPv6Address
    destination: ipaddress.IPv4Address
    protocol: int
    in_pieces: bool
    length: int
    payload: bytes


class Datagram(typing.NamedTuple):
    """A UDP datagram; or why there is none, and the ports None if they are not there."""
    source: ipaddress.IPv4Address
    destination: ipaddress.IPv4Address
    ports: typing.Optional[tuple]
    octets: bytes
    fault: str = ''


def ethernet(octets):
    """IP behind an Ethernet header."""
    return untagged(octets[12:14], octets[14:])


def cooked(octets):
    """IP behind a Linux cooked header, SLL."""
    return untagged(octets[14:16], octets[16:])


def cooked_2(octets):
    """IP behind a Linux cooked header of the second form, SLL2."""
    return untagged(octets[:2], octets[20:])


def loopback(octets):
    """IP behind a word with the address family, in the byte order of whichever system it was."""
    family = min(int.from_bytes(octets[:4], order) for order in ('big', 'little'))
    return octets[4:] if family in FAMILIES else b''


def raw(octets):
    """IP without a link header."""
    return octets


LINKS = {0: loopback, 1: ethernet, 12: raw, 14: raw, 101: raw, 108: loopback, 113: cooked, 228: raw, 229: raw, 276: cooked_2}


def untagged(kind, octets):
    """IP behind its Ethernet type and the VLAN tags that stand between; nothing if it is not IP."""
    while kind in TAGS:
        kind, octets = octets[2:4], octets[4:]
    return octets if kind in IP_TYPES else b''


def ip_of(octets):
    """The IP packet at the front of octets; None if there is none, or not its header."""
    version = octets[0] >> 4 if octets else 0
    return {4: ipv4, 6: ipv6}.get(version, lambda _: None)(octets)


def ipv4(octets):
    """IPv4: options may stand before the payload, padding behind it."""
    if len(octets) < 20:
        return None
    words, length, pieces, protocol, source, destination = struct.unpack('!BxH2xHxB2x4s4s', octets[:20])
    header, length = 4 * (words & 15), length or len(octets)
    if not 20 <= header <= length:
        return None
    return Ip(ipaddress.IPv4Address(source), ipaddress.IPv4Address(destination), protocol, bool(pieces & 0x3FFF), length - header,
              octets[header:length])


def ipv6(octets):
    """IPv6: extension headers may stand before the payload."""
    if len(octets) < 40:
        return None
    length, protocol, source, destination = struct.unpack('!4xHBx16s16s', octets[:40])
    payload, in_pieces = octets[40:][:length or None], False
    length = length or len(payload)
    while protocol in EXTENSIONS and len(payload) >= 8 and not in_pieces:
        pieces, = struct.unpack('!2xH', payload[:4])
        in_pieces = protocol == FRAGMENT and bool(pieces & 0xFFF9)
        size = {FRAGMENT: 8, AUTHENTICATION: 4 * payload[1] + 8}.get(protocol, 8 * payload[1] + 8)
        protocol, payload, length = payload[0], payload[size:], length - size
    return Ip(ipaddress.IPv6Address(source), ipaddress.IPv6Address(destination), protocol, in_pieces, length, payload)


def datagram_of(link, octets):
    """The UDP datagram in a captured record, or why it is left out; None if there is no UDP in it."""
    ip = ip_of(LINKS[link](octets))
    if not ip or ip.protocol != UDP:
        return None
    ends = ip.source, ip.destination
    if ip.in_pieces:
        return Datagram(*ends, None, b'', IN_PIECES)
    if len(ip.payload) < 8:
        return Datagram(*ends, None, b'', MISFIT if ip.length < 8 else CUT)
    *ports, length = struct.unpack('!HHH', ip.payload[:6])
    length = length or ip.length
    fault = (MISFIT if not 8 <= length <= ip.length else CUT if length > len(ip.payload) else EMPTY if length == 8 else '')
    return Datagram(*ends, tuple(ports), ip.payload[8:length], fault)

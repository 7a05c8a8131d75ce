"""The traffic that is counted: the real packets of a call, sent with spares or parity, some lost."""

import random

from independent.datagrams import DATAGRAM_LIMIT, PARITY, SPARES
from independent.sending import Sending
from making.lines import Recording
from support.real import corpus

CALL = 'tt_v17_ecm_v0.a2b'
LINES = 200
TRACES = (('k3', (SPARES, 3, 0)), ('n3m2', (PARITY, 3, 2)), ('n8m4', (PARITY, 8, 4)))


def trace(name, settings, loss):
    """Lines for the program: the packets again and again as datagrams, an empty line where nothing brings a lost one back."""
    recording = Recording(name)
    r = random.Random(name)
    packets = corpus(CALL)
    for number in range(LINES):
        octets = recording.sender.send(packets[number % len(packets)], *settings, DATAGRAM_LIMIT)
        if name in ('k3', 'n3m2') and number < len(packets):
            assert octets == corpus(CALL + '.' + name)[number]
        if r.random() >= loss:
            recording.add_datagram(octets)
        while recording.waiting() > 20:
            recording.add(b'')
    return recording


def datagrams(settings):
    """Each packet once, as a datagram."""
    sender = Sending(0)
    return [sender.send(packet, *settings, DATAGRAM_LIMIT) for packet in corpus(CALL)]

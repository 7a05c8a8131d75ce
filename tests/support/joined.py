"""Frames of real calls (rules 16.17 and 17.1): the fields of recorded packets through the joiner, all of them, and over a bad line.

The joiner must return the frames that the fax machine sent, each with a right frame check. SpanDSP leaves the two octets of the check out
of its packets, so they are put behind each frame here, as a sender that sends them does. A part of checks/traffic.py."""

import binascii

from independent.datagrams import PARITY, SPARES
from independent.editions import OLD
from independent.joining import ADDING, ENDING_A_TAINT, FRAME_LIMIT, GOOD, RETURNED
from independent.packets import FIELDS_LIMIT, PACKET_LIMIT, Packet, read_packet, written_packet
from making.frames import frame, packets_of
from making.script import Script
from support.failing import altered_here
from support.real import UNLIMITED, as_expected, conversation, corpus, must, octets_of, settings_text, written_by

RECORDED = ('tt_v17_ecm_v0.a2b', 'tt_v17_ecm_v0.b2a')  # calls whose frames were recorded where the fax machine sent them
WHOLE = RECORDED + ('gt_v17_nonecm_v0.a2b',)
CUT_OFF = ('tt_v29_ecm_v0.a2b',)  # begins in the middle of a frame: what came before is lost
LINES = (('tt_v17_ecm_v0.a2b', (SPARES, 0, 0), 0.05), ('tt_v17_ecm_v0.a2b', (SPARES, 1, 0), 0.3),
         ('tt_v17_ecm_v0.a2b', (PARITY, 3, 2), 0.3), ('tt_v17_ecm_v0.b2a', (SPARES, 1, 0), 0.2),
         ('gt_v17_nonecm_v0.a2b', (SPARES, 2, 0), 0.4))
TOGETHER = (('tt_v17_ecm_v0.a2b', (SPARES, 1, 0), 0.3), ('tt_v17_ecm_v0.b2a', (PARITY, 2, 1), 0.2))
ROWS, FRAMES_EACH = 20, 12
REPAIRED, LOST = 2, 3


def frame_check(octets):
    """The two octets of a frame's check (CRC-16/X.25), the bits of each octet in the order that packets have."""
    return (binascii.crc_hqx(octets, 0xFFFF) ^ 0xFFFF).to_bytes(2, 'big')


def other_order(octets):
    """Octets with their bits in the other order, as the fax machine has them."""
    return bytes(int('{:08b}'.format(octet)[::-1], 2) for octet in octets)


def with_checks(packets):
    """Packets of a call with the frame's check, as a field of its own, before each end of a good frame."""
    octets, changed = b'', []
    for packet in packets:
        given = []
        for field_type, data in packet.fields:
            if RETURNED.get(field_type) == GOOD and octets:
                given.append((ADDING, frame_check(octets)))
            given.append((field_type, data))
            octets = octets + data if field_type == ADDING else b''
        changed.append(Packet(packet.kind, packet.value, tuple(given)))
    return changed


def put_together(packets):
    """Packets of a call, the fields of neighbours with the same value put into one packet as long as it holds them.

    No recorded packet has two fields; so there are some in which a header begins within an octet."""
    changed = []
    for packet in packets:
        if changed and packet.fields and changed[-1].fields and packet.value == changed[-1].value:
            both = packet._replace(fields=changed[-1].fields + packet.fields)
            if len(both.fields) <= FIELDS_LIMIT and len(written_packet(OLD, both)) <= PACKET_LIMIT:
                changed[-1] = both
                continue
        changed.append(packet)
    return changed


def frames_left(rows, lost):
    """The frames in rows of fields, one row a packet, that are still the sender's when these packets are lost.

    A frame is, if no packet is lost from the one with the end before it up to the one with its own, and it never passed 300 octets."""
    frames, since, octets, too_long = [], 0, b'', False
    for at, fields in enumerate(rows):
        for field_type, data in fields:
            octets = octets + data if field_type == ADDING else octets if field_type in ENDING_A_TAINT else b''
            too_long = too_long or len(octets) > FRAME_LIMIT
            if field_type in ENDING_A_TAINT:
                what = RETURNED.get(field_type)
                if (octets if what == GOOD else what) and not too_long and lost.isdisjoint(range(since, at + 1)):
                    frames.append((what, octets))
                since, octets, too_long = at, b'', False
    return frames


def feed(script, rows, lost):
    """All fields of rows, or for a packet that is lost its number alone."""
    for at, fields in enumerate(rows):
        if at in lost:
            script.lost()
        else:
            for field_type, data in fields:
                script.field(field_type, data)


def script_of(seed, rows, lost):
    """A script that feeds rows to a fresh joiner, and the frames that must come of it."""
    script = Script(seed, UNLIMITED)
    feed(script, rows, lost)
    return script, frames_left(rows, lost)


def frames_in(lines, answers):
    """The frames that the answers to 31 return."""
    done = [answer for line, answer in zip(lines, answers) if line[:2] == b'31' and answer[0] == 0 and answer[1] != 0]
    return [(answer[1], answer[4:4 + int.from_bytes(answer[2:4], 'big')]) for answer in done]


def check_frames(command, script, sent, checked):
    """What the program under test returns are the frames that were sent, in order; with checks, each good one has a right one."""
    answers = written_by(command, script.lines, script.answers)
    frames = frames_in(script.lines, octets_of(answers))
    for number, (what, octets) in enumerate(frames, 1):
        if checked and what == GOOD:
            must(frame_check(octets[:-2]) == octets[-2:], 'frame %d has a wrong frame check: %s', number, octets.hex())
    for number, (ours, theirs) in enumerate(zip(sent, frames), 1):
        must(ours == theirs, 'frame %d was sent as %d %s and is returned as %d %s', number, ours[0], ours[1].hex(), theirs[0],
             theirs[1].hex())
    must(len(frames) == len(sent), '%d frames are returned in place of %d', len(frames), len(sent))
    as_expected(script.answers, answers)
    return '%d frames' % len(frames)


def as_recorded(name, sent):
    """The frames in the packets are those that were recorded where the fax machine sent them."""
    frames = [(GOOD, other_order(octets)) for octets in corpus(name + '.frames')]
    must(sent == frames, '%s: the packets have %d frames, and not the %d that were recorded', name, len(sent), len(frames))


def clean_call(command, name, checked):
    """A call of which nothing is lost: its frames are those that were recorded, if any were."""
    packets = [read_packet(OLD, octets, False) for octets in corpus(name)]
    rows = [packet.fields for packet in (with_checks(packets) if checked else packets)]
    lost = set()
    if name in CUT_OFF:
        rows, lost = [()] + rows, {0}
    script, sent = script_of(name, rows, lost)
    if name in RECORDED and not checked:
        as_recorded(name, sent)
    return check_frames(command, script, sent, checked)


def bad_line(command, name, settings, loss, packed=lambda packets: packets):
    """A call with frame checks through both sessions; what is released is read and joined, and what is given up is a lost number."""
    packets = packed(with_checks([read_packet(OLD, octets, False) for octets in corpus(name)]))
    lost, released = set(), []

    def taken(script, answer):
        """Reads a released packet, as repaired if it was, and feeds its fields; or feeds the lost number."""
        if answer[1] == LOST:
            lost.add(len(released))
            script.lost()
        else:
            repaired = answer[1] == REPAIRED
            octets = answer[8:8 + int.from_bytes(answer[6:8], 'big')]
            script.read(OLD, octets, repaired)
            feed(script, [read_packet(OLD, octets, repaired).fields], ())
        released.append(answer)

    script = conversation(name, [written_packet(OLD, packet) for packet in packets], settings, loss, taken)
    said = check_frames(command, script, frames_left([packet.fields for packet in packets], lost), True)
    return '%s, %d numbers lost' % (said, len(lost))


def made_rows(command, seed):
    """Rows of fields of any kind, cut into packets in any way, some packets lost; each row begins with a fresh joiner."""
    script, sent = Script(seed, UNLIMITED), []
    r = script.random
    for loss in ROWS * (0, 0.05, 0.2):
        script.call(0x30)
        rows = packets_of(r, [field for _ in range(FRAMES_EACH) for field in frame(r, r.choice((1.0, 0.5)))])
        lost = {at for at in range(len(rows)) if r.random() < loss}
        feed(script, rows, lost)
        sent += frames_left(rows, lost)
    return check_frames(command, script, sent, False)


def checks(command):
    """All checks: a name, and what does it."""
    for name in WHOLE + CUT_OFF:
        yield 'frames of a call: ' + name, lambda n=name: clean_call(command, n, False)
        yield 'frames with their checks: ' + name, lambda n=name: clean_call(command, n, True)
    for name, settings, loss in LINES:
        label = 'frames with their checks: %s with %s, %d %% lost' % (name, settings_text(settings), 100 * loss)
        yield label, lambda n=name, s=settings, l=loss: bad_line(command, n, s, l)
    for name, settings, loss in TOGETHER:
        label = 'frames put together in packets: %s with %s, %d %% lost' % (name, settings_text(settings), 100 * loss)
        yield label, lambda n=name, s=settings, l=loss: bad_line(command, n, s, l, put_together)
    yield 'frames of made rows of fields, some lost', lambda: made_rows(command, 'rows')


def self_test(test):
    """A wrong program, or a wrong frame, for each thing that is checked, and what is said of it."""
    call, line = RECORDED[1], LINES[1]
    for name, check, how, words in (
            ('an octet of a frame', lambda c: clean_call(c, call, True), 'calls 31 8', 'frame 1 has a wrong frame check: '),
            ('good as bad', lambda c: clean_call(c, call, False), 'calls bad', ' and is returned as 2 '),
            ('no frame at all', lambda c: clean_call(c, call, False), 'calls none', '0 frames are returned in place of 4'),
            ('losses not heard', lambda c: bad_line(c, *line), 'calls deaf', 'has a wrong frame check: '),
            ('put together, read otherwise', lambda c: bad_line(c, *TOGETHER[1], put_together), 'calls 05 -1', 'not the expected one'),
            ('losses not heard, made rows', lambda c: made_rows(c, 'short'), 'calls deaf', ' was sent as ')):
        test.fails('frames, ' + name, words, check, altered_here(how))
    _, sent = script_of('one frame', [((ADDING, b'\x01\x02' + frame_check(b'\x01\x02')), (2, b''))], set())
    test.fails('frames, others than recorded', 'the packets have 1 frames, and not the 4 that were recorded', as_recorded, call, sent)

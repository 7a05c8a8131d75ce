"""Scenes with the joiner (rules 16.1 to 16.16): rows of fields with losses, frames near 300 octets, wrong fields, joiners outside their
ranges."""

from independent.joining import ADDING, ENDING_A_TAINT, FRAME_LIMIT
from independent.packets import PACKET_LIMIT

from . import pieces

DROPPING, ADDED_TOO = (6, 7), (6, 7, 8, 9, 10, 11)  # types that drop what is open and end no taint, without and with the added ones
ANY_LENGTH = (1, 1, 2, 3, 7, 255, PACKET_LIMIT - 1, PACKET_LIMIT, PACKET_LIMIT + 1, 299, 300, 301, 400, 556)


def data_for(r, field_type, small=0.8):
    """Data as a field of this type must have it, of a field within a packet or longer."""
    if not pieces.may_have_data(r, field_type):
        return b''
    return pieces.octets(r, r.randrange(1, 9) if r.random() < small else r.choice(ANY_LENGTH))


def frame(r, small, dropping=DROPPING):
    """The fields of one frame as a sender gives them: data, now and then what drops it, and its end."""
    fields = [(ADDING, data_for(r, ADDING, small)) for _ in range(r.choice((0, 1, 1, 2, 3, 6)))]
    if r.random() < 0.15:
        other = r.choice(dropping)
        fields.insert(r.randrange(len(fields) + 1), (other, data_for(r, other, small)))
    return fields + [(r.choice((1, 2, 2, 2, 3, 4, 4, 5)), b'')]


def packets_of(r, fields):
    """The fields in order, cut into packets in any way; some packets have no field."""
    packets = []
    while fields:
        count = r.choice((0, 1, 1, 1, 2, 3, 5))
        packets.append(fields[:count])
        fields = fields[count:]
    return packets


def feed(script, field_type, data):
    """One field, with a buffer near the open frame's length; without room it is mostly given again with room."""
    r, length = script.random, min(script.joiner.frame.length, FRAME_LIMIT)
    cap = r.choice((FRAME_LIMIT, FRAME_LIMIT, length, length, length + 1, max(0, length - 1), max(0, length - 1), 0, 2600))
    answer = script.field(field_type, data, cap)
    script.look_at_joiner(0.15)
    if answer[:2] == b'\xFF\x0D' and script.chance(0.7):
        script.look_at_joiner(0.5)
        script.field(field_type, data)


def honest_row(script):
    """A sender's row of frames, cut into packets; some packets are lost."""
    r = script.random
    script.call(0x30)
    small, loss = r.choice((1.0, 0.9, 0.6)), r.choice((0, 0.1, 0.3))
    fields = [field for _ in range(r.choice((3, 6, 10))) for field in frame(r, small, ADDED_TOO)]
    for packet in packets_of(r, fields):
        if script.chance(loss):
            script.lost()
            script.look_at_joiner(0.2)
        else:
            for field_type, data in packet:
                feed(script, field_type, data)
    script.look_at_joiner()


def any_fields(script):
    """Fields of any type, right or wrong in type or data, to a joiner in any state; the wrong ones change nothing."""
    r = script.random
    for _ in range(14):
        if script.chance(0.15):
            script.lost()
        field_type = r.choice((0, 0, 0, 1, 2, 3, 4, 5, 6, 7, 7, 8, 9, 10, 11, 11, 12, 15, 128, 130, 255))
        data = r.choice((data_for(r, field_type), b'', pieces.octets(r, r.choice(ANY_LENGTH))))
        script.field(field_type, data, r.choice((0, 0, 1, 8, FRAME_LIMIT)))
        script.look_at_joiner(0.4)


def near_the_limit(script):
    """Frames of 298 octets and more, in some pieces; past 300 everything up to the next end is dropped."""
    r = script.random
    script.call(0x30)
    left = r.choice((298, 299, 299, 300, 300, 300, 301, 301, 302, 460, 600))
    while left > 0:
        size = min(left, r.choice((1, 150, PACKET_LIMIT, PACKET_LIMIT + 1, 299, 300, 301, 600)))
        script.field(ADDING, pieces.octets(r, size), r.choice((0, FRAME_LIMIT)))
        left -= size
    script.look_at_joiner()
    for _ in range(r.randrange(3)):
        field_type = r.choice((0, 0) + ADDED_TOO)
        script.field(field_type, pieces.octets(r, r.choice((1, 2, 300, 301, 600))) if field_type not in (7, 11) else b'', 0)
        script.look_at_joiner(0.5)
    end = r.choice((1, 2, 3, 4, 5))
    length = script.joiner.frame.length
    script.field(end, cap=max(0, length - 1))
    script.field(end, cap=length)
    one_frame(script)


def one_frame(script):
    """A frame of some octets, returned, and then an end alone, to see what was left."""
    r = script.random
    script.field(ADDING, pieces.octets(r, r.choice((1, 2, 20))))
    script.field(r.choice((2, 3, 4, 5)))
    script.look_at_joiner(0.5)
    script.field(r.choice((1, 2, 3, 4, 5)), cap=r.choice((0, 4)))


def tainted(script):
    """After a loss: fields that end no taint, refused ones among them, then one that does; then a frame again."""
    r = script.random
    if script.chance(0.5):
        script.call(0x30)
    if script.chance(0.7):
        script.field(ADDING, pieces.octets(r, r.choice((1, 5, 300))))
    script.lost()
    for _ in range(r.choice((0, 2, 4, 8))):
        field_type = r.choice((0, 0, 0, 6, 12, 255) + ADDED_TOO + ENDING_A_TAINT)
        if field_type in ENDING_A_TAINT:
            data = b'\x00'
        else:
            data = r.choice((data_for(r, field_type), b'', pieces.octets(r, r.choice((1, 300, 301)))))
        script.field(field_type, data, r.choice((0, FRAME_LIMIT)))
        script.look_at_joiner(0.3)
        if script.chance(0.1):
            script.lost()
    script.field(r.choice(ENDING_A_TAINT), cap=r.choice((0, FRAME_LIMIT)))
    script.look_at_joiner()
    one_frame(script)


def held(script):
    """A joiner of some kind: fresh, with an open frame, or tainted."""
    r = script.random
    script.call(0x30)
    if script.chance(0.8):
        script.field(ADDING, pieces.octets(r, r.choice((1, 2, 5, PACKET_LIMIT, 298, 299, 300))))
    if script.chance(0.25):
        script.lost()


def broken(script):
    """One overwriting that brings the joiner outside its ranges, as field, octet and value, and what undoes it."""
    r, joiner = script.random, script.joiner
    length, stored = joiner.frame.length, joiner.frame.octets
    ways = [((1, 0, r.choice((301, 302, 512, 556, 65535))), (1, 0, length))]
    if joiner.tainted:
        ways.append(((1, 0, r.choice((1, 2, 300))), (1, 0, 0)))
    elif length:
        ways.append(((0, 0, 1), (0, 0, 0)))
    if length < FRAME_LIMIT:
        octet = r.choice((length, FRAME_LIMIT - 1, r.randrange(length, FRAME_LIMIT)))
        ways.append(((2, octet, r.choice((1, 128, 255))), (2, octet, 0)))
    if length and not joiner.tainted and stored[length - 1]:
        ways.append(((1, 0, length - 1), (1, 0, length)))
    return r.choice(ways)


def outside(script):
    """A joiner outside its ranges: every field and a loss are 17, whatever else is wrong; repaired, it goes on as before."""
    r = script.random
    for _ in range(3):
        held(script)
        wrong, right = broken(script)
        script.overwrite_joiner(*wrong)
        assert not script.joiner.in_ranges()
        for field_type in r.sample((0, 0, 1, 2, 3, 4, 5, 6, 7, 8, 11, 12, 255), 2):
            script.field(field_type, r.choice((data_for(r, field_type), b'', pieces.octets(r, 301))), r.choice((0, 2, FRAME_LIMIT)))
        script.lost()
        script.look_at_joiner()
        if script.chance(0.7):
            script.overwrite_joiner(*right)
            script.look_at_joiner(0.3)
            one_frame(script)


def overwritten_inside(script):
    """A joiner that a caller has made, inside its ranges, is as good as one that the calls have made."""
    r = script.random
    script.call(0x30)
    length = r.choice((1, 2, 5, 299, 300))
    script.overwrite_joiner(1, r.choice((0, 299, 65535)), length)
    for octet in r.sample(range(length), min(length, 3)):
        script.overwrite_joiner(2, octet, r.randrange(256))
    script.field(ADDING, b'\x01' * r.choice((1, 2)))
    script.look_at_joiner(0.5)
    script.field(r.choice((2, 3, 4, 5)))
    if script.chance(0.5):
        script.overwrite_joiner(0, value=1)
        if not script.joiner.frame.length:
            script.field(ADDING, b'\x02')
            script.overwrite_joiner(0, value=0)
    one_frame(script)


def odd_overwrites(script):
    """Overwritings with values that a field cannot hold or at places that are not there, beside the last that are."""
    r = script.random
    for field, octet, value in r.sample(((0, 0, 2), (0, 0, 255), (0, 0, 256), (0, 0, 65535), (0, 300, 0), (1, 65535, 0), (1, 0, 300),
                                         (1, 0, 65535), (2, 299, 0), (2, 300, 0), (2, 300, 1), (2, 65535, 1), (2, 0, 255), (2, 0, 256),
                                         (2, 0, 65535), (3, 0, 0), (4, 0, 0), (128, 0, 0), (255, 0, 0)), 8):
        script.overwrite_joiner(field, octet, value)
        script.look_at_joiner(0.5)
    script.field(r.choice((0, 2, 3)), b'')
    script.call(0x30)
    script.look_at_joiner()

"""What a solve must fill (rules 14.1 to 14.6), found in another way than in the independent program: by the sums of all sets of messages,
as long as these are not too many. With an honest sender the fill is the sender's packet with zeros. Making a script stops if the answer is
another."""

from independent.datagrams import exclusive_or, members_of
from independent.packets import PACKET_LIMIT
from independent.receiving import AFTER, BEFORE, REPAIRED, UNKNOWN
from independent.refusals import CONTRADICTION, Refusal

DONE, VIEW, MOST_SUMS = b'\x00', BEFORE + AFTER, 2048


def messages_of(session):
    """Each stored message: its unknown members, as a set of bits by number modulo 64, and what they sum up to."""
    for number in range(session.base, session.base + AFTER):
        mark = session.mark(number)
        for i in range(mark.m):
            members = members_of(number, i, mark.n, mark.m)
            unknown = sum(1 << member % VIEW for member in members if session.place(member).state == UNKNOWN)
            known = [session.place(member).bytes() for member in members if session.place(member).state != UNKNOWN]
            yield unknown, exclusive_or([mark.messages[i].bytes()] + known, PACKET_LIMIT)


def given_by_sums(session):
    """What each number modulo 64 must be filled with; CONTRADICTION if two sums of messages contradict; None if there are too many."""
    sums = {0: bytes(PACKET_LIMIT)}
    for unknown, total in messages_of(session):
        if unknown in sums:
            if sums[unknown] != total:
                return CONTRADICTION
            continue
        sums.update({one ^ unknown: exclusive_or([other, total], PACKET_LIMIT) for one, other in list(sums.items())})
        if len(sums) > MOST_SUMS:
            return None
    return {at: sums[1 << at] for at in range(VIEW) if 1 << at in sums}


def shown_places(session):
    """State, note and octets of each place."""
    return [(place.state, place.note, place.bytes(), bytes(place.octets)) for place in session.places]


def solve(script, expected=None):
    """1A, compared with the sums of messages; how many numbers were filled."""
    session = script.receiving
    expected = given_by_sums(session) if expected is None else expected
    before, marks = shown_places(session), [(mark.accepted, mark.n, mark.m) for mark in session.marks]
    answer = script.call(0x1A)
    after = shown_places(session)
    if answer != DONE:
        right = expected in (None, CONTRADICTION) and answer == Refusal(CONTRADICTION).octets()
        assert right, 'answered %s, expected %s' % (answer.hex(), expected)
        assert after == before, 'a refusal changed something'
        return 0
    assert expected != CONTRADICTION, 'the sums of messages contradict, and it is done'
    assert marks == [(mark.accepted, mark.n, mark.m) for mark in session.marks] and session.all_in_ranges()
    filled = [at for at in range(VIEW) if before[at] != after[at]]
    for at in filled:
        assert before[at][0] == UNKNOWN and after[at][:2] == (REPAIRED, 0) and len(after[at][2]) == PACKET_LIMIT
    if expected is not None:
        assert {at: after[at][2] for at in filled} == expected, 'filled %s, and the sums give %s' % (filled, sorted(expected))
    return len(filled)


def solved_as_sent(script, given):
    """A solve with an honest sender: done, and each number filled is the packet that was sent."""
    session = script.receiving
    before = [place.state for place in session.places]
    expected = given_by_sums(session)
    assert expected != CONTRADICTION, 'the messages of an honest sender contradict'
    solve(script, expected)
    for at, state in enumerate(before):
        place = session.places[at]
        if state == UNKNOWN and place.state == REPAIRED:
            assert place.bytes() == given.get(at, b'\x06').ljust(PACKET_LIMIT, b'\0'), 'not what was sent'
    script.look(0.15)


def solved_again(script):
    """A second solve fills nothing more; now and then it is shown, or handed over as an image."""
    assert not solve(script), 'a second solve fills more'
    script.look(0.3)
    if script.chance(0.1):
        answer = script.image(100000)
        if answer[0] == 0:
            script.restore(answer[5:5 + int.from_bytes(answer[1:5], 'big')])
            assert not solve(script)


def release(script):
    """Some numbers leave, with room at the limit or one octet less."""
    for _ in range(script.random.choice((2, 8, 20))):
        script.next(script.random.choice((PACKET_LIMIT, PACKET_LIMIT, PACKET_LIMIT - 1)), script.chance(0.5))
    script.call(0x14)

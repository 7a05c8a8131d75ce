"""Real packets over a bad line: what is released must be what was sent, each number once (rules 9.5, 12.2 and 21.2). A part of
checks/traffic.py."""

import random

from independent.arguments import shown
from independent.datagrams import SPARES, read_datagram
from making import replays
from making.lines import Recording
from making.script import Script
from support.real import UNLIMITED, as_expected, conversation, corpus, must, octets_of, settings_text, written_by
from support.running import lines_of, text_of

RECEIVED, SPARE, REPAIRED, LOST = range(4)


def check_conversation(command, script, packets):
    """What the program under test released is what was sent, each number once, with a right note, and the counts are of that.

    Every answer is as expected."""
    counts = [0, 0, 0, 0]
    number, arrived = 0, []
    answers = written_by(command, script.lines, script.answers)
    for line, ours, theirs in zip(script.lines, script.answers, octets_of(answers)):
        if line[:2] == b'11' and ours == b'00':
            arrived.append(read_datagram(bytes.fromhex(line[2:].decode())))
        if line[:2] != b'12':
            continue
        must(theirs[0] == 0, 'not released: %s at number %d', theirs.hex(), number)
        kind, at, note, size = (int.from_bytes(part, 'big') for part in (theirs[1:2], theirs[2:4], theirs[4:6], theirs[6:8]))
        if kind == LOST:
            must(at == number and note == 0 and size == 0, 'given up: %s in place of %d', theirs.hex(), number)
        else:
            check_released(kind, number, at, theirs[8:8 + size], packets)
            check_note(kind, number, note, arrived)
        counts[kind] += 1
        number += 1
    must(number == len(packets), '%d of %d numbers released', number, len(packets))
    must(theirs == b'\x00' + b''.join(shown(count, 4) for count in counts), 'the counts are %s', theirs.hex())
    as_expected(script.answers, answers)
    return counts


def check_released(kind, number, released_number, octets, packets):
    """A released packet has a kind and its number, and is the one sent; a repaired one may go on with zeros."""
    must(kind < LOST, 'number %d is released with kind %d', number, kind)
    must(number < len(packets), 'number %d is released, and %d were sent', number, len(packets))
    must(released_number == number, 'released: %d in place of %d', released_number, number)
    sent = packets[number]
    whole = octets.startswith(sent) and not any(octets[len(sent):]) if kind == REPAIRED else octets == sent
    must(whole, 'number %d was sent as %s and released as %s', number, sent.hex(), octets.hex())


def check_note(kind, number, note, arrived):
    """A received number's note is its own; a spare's is the first datagram that came with it; a repaired one's had come."""
    if kind == RECEIVED:
        must(note == number, 'number %d is received with datagram %d', number, note)
    elif kind == SPARE:
        carriers = [datagram.number for datagram in arrived
                    if datagram.kind == SPARES and 0 < datagram.number - number <= len(datagram.items)]
        must(carriers[:1] == [note], 'number %d is a spare of datagram %d, and these came with it: %s', number, note, carriers)
    else:
        came = any(datagram.number == note for datagram in arrived)
        must(came and note != number, 'number %d is repaired with datagram %d', number, note)


def worse_line(name, loss):
    """Recorded datagrams, some lost; an empty line for each number that nothing has brought back.

    A recording of what is left, all lines with the lost ones among them, and the lost numbers."""
    r, datagrams = random.Random(name + str(loss)), corpus(name)
    recording, lines, lost = Recording(name), [], []
    for number, octets in enumerate(datagrams):
        if r.random() >= loss:
            recording.add_datagram(octets)
            lines.append(recording.lines[-1])
        else:
            lost.append(number)
            lines.append(octets.hex().encode())
        while number - recording.base() > 20 or number + 1 == len(datagrams) > recording.base():
            recording.add(b'')
            lines.append(b'')
    return recording, lines, lost


def packets_of(name):
    """The packets that recorded datagrams carry."""
    return corpus(name.rsplit('.', 1)[0])


def through_the_program(command, name, loss):
    """Recorded datagrams through the program, some lost."""
    recording, _, _ = worse_line(name, loss)
    answers = written_by(command, recording.lines, recording.results)
    counts = check_results(answers, packets_of(name))
    as_expected(recording.results, answers)
    return counts_text(counts)


def replayed(command, name, loss):
    """Recorded datagrams as a trace, replayed (40) with the lost ones listed: what the program writes without them, and its counts."""
    recording, lines, lost = worse_line(name, loss)
    script = Script(name, UNLIMITED)
    replays.call(script, lost, text_of(lines), len(text_of(recording.results)))
    answers = written_by(command, script.lines, script.answers)
    answer = octets_of(answers)[0]
    must(answer[0] == 0, 'not replayed: %s', answer[:4].hex())
    results = lines_of(answer[21:])
    counts = check_results(results, packets_of(name))
    must(answer[1:17] == b''.join(shown(count, 4) for count in counts), 'the counts are %s', answer[1:17].hex())
    as_expected(recording.results, results)
    as_expected(script.answers, answers)
    return counts_text(counts)


def check_results(results, packets):
    """The program's results are the packets that were sent, each number once, or its loss; how many of each kind there are."""
    counts = [0, 0, 0, 0]
    for number, octets in enumerate(octets_of(results)):
        must(octets[0] <= LOST, 'result %s at number %d', octets.hex(), number)
        if octets[0] == LOST:
            must(octets[1:] == shown(number, 2), 'given up: %s in place of %d', octets.hex(), number)
        else:
            check_released(octets[0], number, int.from_bytes(octets[1:3], 'big'), octets[3:], packets)
        counts[octets[0]] += 1
    must(sum(counts) == len(packets), '%d of %d numbers released', sum(counts), len(packets))
    return counts


def heard(command, name, settings, loss):
    """One conversation; what came of it."""
    packets = corpus(name)
    script = conversation(name + settings_text(settings), packets, settings, loss)
    return counts_text(check_conversation(command, script, packets))


def counts_text(counts):
    """Counts in words."""
    return 'received %d, spare %d, repaired %d, lost %d' % tuple(counts)

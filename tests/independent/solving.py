"""Losses that no single message repairs (rules 14.1 to 14.8): each held message is an equation, and all of them together may fix a number.

No rows of coefficients are eliminated here. The module keeps one way to fill the unknown numbers, and all the ways to change it: sets of
numbers that may take the same octets on top without any equation so far noticing. Each equation takes one of these away and corrects the
way, or notices none of them and must hold already. A number has one value if it is in no change that is left."""

from typing import FrozenSet, NamedTuple

from .datagrams import members_of
from .packets import PACKET_LIMIT
from .receiving import AFTER, BEFORE, REPAIRED, UNKNOWN, Place
from .refusals import CONTRADICTION, RANGES, Refusal, refuse_if


class Equation(NamedTuple):
    """The exclusive or of some unknown numbers is so much, both as octets of the packet limit read as one number."""

    unknown: FrozenSet[int]
    total: int


def solve(session):
    """Fills each unknown number that the equations and known octets allow one value: as repaired, at the limit's length, with note 0."""
    refuse_if(not session.in_ranges(), RANGES)
    unknown = [number % 65536 for number in range(session.base - BEFORE, session.base + AFTER) if session.place(number).state == UNKNOWN]
    for number, value in sole_values(unknown, equations_of(session)).items():
        session.places[number % (BEFORE + AFTER)] = Place(REPAIRED, value.to_bytes(PACKET_LIMIT, 'big'), 0)


def padded(octets):
    """Octets with zeros up to the packet limit, as one number."""
    return int.from_bytes(octets.ljust(PACKET_LIMIT, b'\0'), 'big')


def equations_of(session):
    """The equation of each stored message, the empty ones too: what is known of its members is subtracted from the message."""
    equations = []
    for number in range(session.base, session.base + AFTER):
        mark = session.mark(number)
        for i in range(mark.m):
            total, unknown = padded(mark.messages[i].bytes()), set()
            for member in members_of(number, i, mark.n, mark.m):
                if session.place(member).state == UNKNOWN:
                    unknown.add(member)
                else:
                    total ^= padded(session.place(member).bytes())
            equations.append(Equation(frozenset(unknown), total))
    return equations


def sole_values(unknown, equations):
    """The value of each unknown number that has one alone; refused if no values satisfy all equations."""
    values, changes = dict.fromkeys(unknown, 0), [{number} for number in unknown]
    for equation in equations:
        off = equation.total
        for number in equation.unknown:
            off ^= values[number]
        noticed = [change for change in changes if len(change & equation.unknown) % 2]
        if noticed:
            taken, *others = noticed
            changes = [change for change in changes if change not in noticed] + [change ^ taken for change in others]
            for number in taken:
                values[number] ^= off
        elif off:
            raise Refusal(CONTRADICTION)
    return {number: value for number, value in values.items() if not any(number in change for change in changes)}

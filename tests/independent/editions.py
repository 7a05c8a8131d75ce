"""The editions of the packet's ASN.1 (rules 7.1 to 7.12): the old one (Annex A of 06/98) and the new one (Annex A of 2002)."""

from typing import Dict, NamedTuple

from .refusals import SETTINGS, refuse_if

INDICATOR, DATA_PACKET = 0, 1
OLD, NEW = 0, 1
WITHOUT_DATA = (1, 2, 3, 4, 5)
WITH_DATA = (0, 6, 8, 9, 10)


class Enumerated(NamedTuple):
    """Values by number: how many bits hold those that both editions have, the root; the last of these, and the last of all.

    Where there is no extension bit, none can be added."""

    bits: int
    last_of_root: int
    last: int
    extensible: bool = True

    @property
    def extended(self):
        """Whether there are values past the root."""
        return self.last > self.last_of_root

    def added(self, number):
        """The value that an added one has, from its six bits, which count from zero."""
        return self.last_of_root + 1 + number


class Edition(NamedTuple):
    """What an edition has assigned: values of each kind of packet, and field types."""

    values: Dict[int, Enumerated]
    types: Enumerated


EDITIONS = {
    OLD: Edition({INDICATOR: Enumerated(4, 15, 15), DATA_PACKET: Enumerated(4, 8, 8)}, Enumerated(3, 7, 7, False)),
    NEW: Edition({INDICATOR: Enumerated(4, 15, 22), DATA_PACKET: Enumerated(4, 8, 14)}, Enumerated(3, 7, 11)),
}


def edition_of(octet):
    """The edition that a caller names; any other is refused, before all else."""
    refuse_if(octet not in EDITIONS, SETTINGS)
    return EDITIONS[octet]


def data_misplaced(field_type, has_data):
    """Data where none may be, or none where it must."""
    return field_type in WITHOUT_DATA if has_data else field_type in WITH_DATA

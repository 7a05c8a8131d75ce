"""Octets as a session or joiner stores them (rule 13.5): a length, and all the octets that there is room for."""

from .packets import PACKET_LIMIT


class Stored:
    """A packet or message in a session, or a joiner's open frame; octets past the length are zero."""

    def __init__(self, octets=b'', room=PACKET_LIMIT):
        self.length = len(octets)
        self.octets = bytearray(octets.ljust(room, b'\0'))

    def bytes(self):
        """The octets up to the length, as far as there are any."""
        return bytes(self.octets[:self.length])

    def in_ranges(self, least, most):
        """The length lies between least and most, and octets past it are zero."""
        return least <= self.length <= most and self.octets.count(0, self.length) == len(self.octets) - self.length

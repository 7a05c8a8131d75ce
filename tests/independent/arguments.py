"""The arguments of a line of the calls program (rule 25.5)."""

CAP_LIMITS = {2: 2600, 4: 120000}  # by the octets that a cap takes


class NoCall(Exception):
    """A line that is no call."""


def call_if(condition):
    """The line is no call unless the condition holds."""
    if not condition:
        raise NoCall


class Arguments:
    """The octets of a line, taken in order."""

    def __init__(self, octets):
        self.octets = octets

    def take(self, count):
        """The next octets, as many as are given."""
        call_if(count <= len(self.octets))
        taken, self.octets = self.octets[:count], self.octets[count:]
        return taken

    def rest(self):
        """All octets that are left."""
        return self.take(len(self.octets))

    def number(self, width):
        """A number of that many octets, high octet first."""
        return int.from_bytes(self.take(width), 'big')

    def one_of(self, *values):
        """An octet that must be one of the values."""
        value = self.number(1)
        call_if(value in values)
        return value

    def sized(self, width=2):
        """Octets behind their length."""
        return self.take(self.number(width))

    def numbers(self, width, count_width=1):
        """Numbers behind their count."""
        return [self.number(width) for _ in range(self.number(count_width))]

    def last_cap(self, width=2):
        """The size of the lent buffer, the last argument."""
        cap = self.number(width)
        call_if(cap <= CAP_LIMITS[width])
        self.end()
        return cap

    def end(self):
        """Nothing may follow."""
        call_if(not self.octets)


def shown(value, width):
    """A number in that many octets, high octet first."""
    return value.to_bytes(width, 'big')


def sized(octets, width=2):
    """Octets behind their length."""
    return shown(len(octets), width) + octets

"""The program handover (rules 20.23 to 20.25): the program from a loaded session to a saved one, each in a file as its image."""

import pathlib

from .images import read_image, written_image
from .program import Program
from .refusals import Refusal


class Unusable(Exception):
    """A file that cannot be read or written, or that holds no image; its text names it."""


class Handover(Program):
    """The program, its session fresh or loaded."""

    def load(self, path):
        """The session that a file has the image of takes the place of the fresh one."""
        try:
            self.session = read_image(pathlib.Path(path).read_bytes())
        except OSError as wrong:
            raise Unusable('%s: %s' % (path, wrong.strerror))
        except Refusal as refusal:
            raise Unusable('%s: no image, refused with %d' % (path, refusal.number))

    def save(self, path):
        """The session's image is written to a file."""
        try:
            pathlib.Path(path).write_bytes(written_image(self.session))
        except OSError as wrong:
            raise Unusable('%s: %s' % (path, wrong.strerror))

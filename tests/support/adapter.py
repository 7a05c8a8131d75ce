"""The program handover run from image to image (rules 20.23 to 20.25). A part of checks/handover.py."""

import pathlib
import shlex
import subprocess

from support import running
from support.real import Wrong, must


class Adapter:
    """The program handover, a shell command or a function of words and octets, with a folder for its images."""

    def __init__(self, command, folder):
        self.command = command
        self.folder = pathlib.Path(folder)

    def image(self, name):
        """Where an image of this name is kept."""
        return self.folder / name

    def run(self, given, load=None, save=None):
        """Plays octets, from an image and to one, if they are given: its status, what it writes, what it says."""
        words = [word for option, path in (('--load', load), ('--save', save)) if path for word in (option, str(path))]
        if callable(self.command):
            return self.command(words, given)
        command = ' '.join([self.command, *map(shlex.quote, words)])
        try:
            ended = subprocess.run(command, shell=True, input=given, capture_output=True, timeout=running.PATIENCE)
        except subprocess.TimeoutExpired:
            raise Wrong('no end within %d seconds' % running.PATIENCE)
        return ended.returncode, ended.stdout, ended.stderr.decode('utf-8', 'backslashreplace')

    def play(self, given, load=None, save=None):
        """The same, to a good end: what it writes."""
        if save and save != load:
            save.unlink(missing_ok=True)
        status, written, said = self.run(given, load, save)
        must(status == 0, 'it does not end well: status %d, %s', status, said.strip())
        must(not save or save.is_file(), 'no image is saved')
        return written


def of_mutant(mutant):
    """What replaces the command of a handover by the independent program, edited or not, in this process."""
    return lambda words, given: mutant.ended(['handover', *words], given)

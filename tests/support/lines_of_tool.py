"""The tool tools/lines-of, run in this process. A part of checks/lines_of.py."""

import contextlib
import importlib.machinery
import importlib.util
import io
import sys
import types
import typing

from support.real import Wrong, must

PARTS = 'capture_file', 'udp'


class Ran(typing.NamedTuple):
    """How the tool ended: its status, what it wrote, and what it said, without its name before each remark."""
    status: int
    written: str
    said: list


class Tool:
    """lines-of as it stands in a folder, run within this process."""

    def __init__(self, directory):
        for part in PARTS:
            sys.modules.pop(part, None)
        sys.path.insert(0, str(directory))
        self.path = directory / 'lines-of'
        loader = importlib.machinery.SourceFileLoader('lines-of', str(self.path))
        self.module = importlib.util.module_from_spec(importlib.util.spec_from_loader('lines-of', loader))
        loader.exec_module(self.module)
        sys.path.pop(0)

    def ran(self, capture, *options):
        """One run; a capture is a path, or the octets of one on standard input."""
        path, given = ('-', capture) if isinstance(capture, bytes) else (str(capture), b'')
        kept, sys.stdin = sys.stdin, types.SimpleNamespace(buffer=io.BytesIO(given))
        try:
            with contextlib.redirect_stdout(io.StringIO()) as out, contextlib.redirect_stderr(io.StringIO()) as errors:
                status = self.module.main([*options, path])
        except Exception as wrong:
            raise Wrong('it ends in a traceback: %s: %s' % (type(wrong).__name__, wrong))
        finally:
            sys.stdin = kept
        return Ran(status, out.getvalue(), [line.replace('lines-of: ', '', 1) for line in errors.getvalue().splitlines()])

    def gives(self, name, capture, datagrams, said, options=''):
        """It writes these datagrams, one a line, and says this; without datagrams its status is 1."""
        ran = self.ran(capture, *options.split())
        must(ran.said == said, '%s: expected to be said %s, said %s', name, said, ran.said)
        must(ran.written == text_of(datagrams), '%s: expected %d datagrams, written %s', name, len(datagrams), ran.written[:100].split())
        must(ran.status == (0 if datagrams else 1), '%s: status %s', name, ran.status)


def text_of(datagrams):
    """The program's lines."""
    return ''.join(octets.hex().upper() + '\n' for octets in datagrams)

"""The tools of tools/, unchanged or with one edit. A part of checks/lines_of.py and checks/loss.py."""

import pathlib

from support.places import TOOLS


def edited(directory, name, old, new):
    """The tools in a folder of their own, one of their files with an edit; the folder."""
    for path in TOOLS.iterdir():
        if path.is_file():
            text = path.read_text()
            if path.name == name:
                assert text.count(old) == 1, (name, old)
                text = text.replace(old, new)
            (pathlib.Path(directory) / path.name).write_text(text)
    return pathlib.Path(directory)

#!/usr/bin/env python3
"""Brings the must-fail edits and their twins to today's spelling, after tools/port_names.py has run.

usage: python3 tools/port_edits.py COMMIT     at the top of the repository, once; COMMIT is where the port begins

An edit whose old texts still stand once is kept as it is. Of any other the texts are respelled as the files were; what an import brings
in is put at the head of today's import of that module. Where the respelled text doesn't stand either, the line that it lay in is looked
up in COMMIT's file and set beside today's, and the edit is named as one to be done by hand. The twins go into a folder of their own,
CRATE/twins, since all that lies in must-fail/ is tried as an edit.
"""

import difflib
import glob
import os
import re
import subprocess
import sys

WORD = re.compile(r"(?<![A-Za-z0-9_'·\-])[A-Za-z_][A-Za-z0-9_'\-]*\??")
# names of the libraries below, as port.py turned them
TOLD = {"getD": "get_or", "getElem?": "get_elem?"}
PRELUDE = "Rattle.std.specs.Prelude"
FRONTS = ("Prim.Native.", "mathlib.Core.", "lib.")


def snake(word):
    word = re.sub(r"([a-z0-9])([A-Z])", r"\1_\2", word)
    return re.sub(r"[A-Z]", lambda m: m.group(0).lower(), word)


def respelled(word):
    return TOLD.get(word) or (snake(word) if re.match(r"[a-z][A-Za-z0-9_']*[A-Z]", word) else word)


def today(text):
    """The text of a definition as it is spelt today: words, then projections."""
    text = re.sub(r"(?<![\w.·])(?:Prim\.Native|mathlib\.Core|lib)\.\w+\.(?=\w)", PRELUDE + ".", text)
    text = WORD.sub(lambda m: respelled(m.group(0)), text)
    text = re.sub(r"\(([\w']+(?: [\w']+)+) \.([a-z]\w*)\)", r"(\1).\2", text)
    text = re.sub(r"(?<=[\w)'?]) \.(?=[a-z0-9])", ".", text)
    text = re.sub(r"(?<![\w'?])\(([\w']+(?:\.[\w']+)+)\)", r"\1", text)
    text = re.sub(r"\((\((?:[^()]|\([^()]*\))*\)(?:\.[a-z]\w*)+)\)", r"\1", text)
    return re.sub(r"(?<=, )_(\w+)_(?=,)", r"◌\1◌", text)


def pairs_of(text):
    """The pairs of an edit: file, old text, new text."""
    found, file, old = [], None, None
    for line in text.splitlines():
        word, _, rest = line.partition(":")
        rest = rest[1:] if rest.startswith(" ") else rest
        if word == "file":
            file = rest.strip()
        elif word == "old":
            old = rest
        elif word == "new" and old is not None:
            found.append((file, old, rest))
            old = None
    return found


def imports(text):
    """The module and the names of a use line, or None."""
    m = re.match(r"use ([^{]*)\.\{(.*)\}$", text)
    return m and (m.group(1), [n.strip() for n in m.group(2).split(",")])


def module_of(name):
    return PRELUDE if name.startswith(FRONTS) else re.sub(r"Rattle·(\w+)(?:·specs\.specs|\.specs)", r"Rattle.\1.specs", name)


def name_of(name):
    name = re.sub(r"(?<![^\s])_(?=[^\w\s])|(?<=[^\w\s])_(?=$|\s)", "◌", name)
    return " ".join(respelled(w) for w in name.split(" "))


def import_pair(old, new, texts, file):
    """The pair that brings today's file the names that the new import has and the old one has not."""
    module, had = imports(old)
    names = [name_of(n) for n in imports(new)[1] if n not in had]
    gone = [name_of(n) for n in had if n not in imports(new)[1]]
    module = module_of(module)
    lines = [(line, *imports(line)) for line in texts[file].splitlines() if imports(line)]
    every = [n for _, _, there in lines for n in there]
    for line, at, there in lines:
        if at == module:
            lacking, front = [n for n in names if n not in every], "use %s.{" % module
            if not gone and texts[file].count(front) == 1:
                return front, front + "".join(n + ", " for n in lacking)
            return line, "%s%s}" % (front, ", ".join([n for n in there if n not in gone] + lacking))
    return None


def main():
    commit = sys.argv[1]
    show = lambda path: subprocess.run(["git", "show", commit + ":" + path], stdout=subprocess.PIPE, check=True).stdout.decode()
    left = kept = turned = 0
    for path in sorted(glob.glob("crates/*/must-fail/*.edit") + glob.glob("crates/*/must-fail/*.twin")):
        crate = path.split("/must-fail/")[0]
        with open(path, encoding="utf-8") as f:
            text = f.read()
        texts = {}

        def put(file, old, new):
            if file not in texts:
                with open(crate + "/" + file, encoding="utf-8") as f:
                    texts[file] = f.read()
            if texts[file].count(old) != 1:
                return False
            texts[file] = texts[file].replace(old, new)
            return True

        if all([put(*pair) and pair[2] == today(pair[2]) for pair in pairs_of(text)]):
            kept += 1
            continue
        texts, made, wrong = {}, [], []
        for file, old, new in pairs_of(show(path)):
            if file.endswith(".antt"):
                if imports(old) and imports(new):
                    put(file, "\0", "")
                    pair = import_pair(old, new, texts, file)
                    if not pair:
                        wrong.append((file, old, new, []))
                    elif pair[0] != pair[1]:
                        put(file, *pair)
                        same = [p for p in made if p[0] == file and p[1] == pair[0]]
                        made = [p for p in made if p not in same] + [(file, pair[0], pair[1] + "".join(p[2][len(pair[0]) :] for p in same))]
                    continue
                old, new = today(old), today(new)
            if put(file, old, new):
                made.append((file, old, new))
            else:
                before = [today(l) for l in show(crate + "/" + file).splitlines()]
                lines = [l for l in before if old in l]
                near = [n for l in lines for n in difflib.get_close_matches(l, texts[file].splitlines(), 2, 0.6)]
                wrong.append((file, old, new, near))
        if wrong:
            left += 1
            print("by hand:", path)
            for file, old, new, near in wrong:
                print("  file:", file, "\n  old:", old, "\n  new:", new, *["\n  today: " + n for n in near])
            continue
        turned += 1
        said, file = [l for l in text.splitlines() if not re.match(r"(file|old|new):", l)], None
        for pair in made:
            if pair[0] != file:
                file = pair[0]
                said.append("file: " + file)
            said += ["old: " + pair[1], "new: " + pair[2] if pair[2] else "new:"]
        with open(path, "w", encoding="utf-8") as f:
            f.write("\n".join(said) + "\n")
    for path in glob.glob("crates/*/must-fail/*.twin"):
        os.makedirs(path.replace("/must-fail/", "/twins/").rpartition("/")[0], exist_ok=True)
        os.rename(path, path.replace("/must-fail/", "/twins/"))
    print(f"port_edits: {kept} kept, {turned} turned, {left} by hand")


main()

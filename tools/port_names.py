#!/usr/bin/env python3
"""Brings the repository's own definitions and lemmas to today's spelling: words in snake case, after port.py has run.

usage: python3 tools/port_names.py            at the top of the repository, once

Functions, types and strings of src/ keep their names. Where a lemma or a case would get the name of the definition that it speaks of, it
gets '_lem' or '_case' behind its own.
"""

import os
import re
import sys

WORD = re.compile(r"(?<![A-Za-z0-9_'\-])[A-Za-z_][A-Za-z0-9_'\-]*")
CAMEL = re.compile(r"[a-z][A-Za-z0-9_']*[A-Z]|[a-z][A-Za-z0-9_'\-]*[a-z_\-][A-Z]")
KEPT = re.compile(r"^(b'.*|n[0-9A-F]{6,}.*|v34-.*|hdlc-.*)$|-CC-|-OK|-BAD")
FUNCTIONS = {"LowestAnswer": "lowest_answer", "UsableAnswer": "usable_answer"}
# words that would fall together: the file that has them, the word, its new name; in the files that import it from there too
APART = [
    ("packet_laws/proofs/AtOctets.antt", "count_at", "count_at_lem"),
    ("session_calls/proofs/SolverClaims.antt", "one_answer", "one_answer_lem"),
    ("datagram/specs/Claims.antt", "left_over", "left_over_case"),
    ("demands/proofs/DatagramNumbers.antt", "left_over", "left_over_lem"),
    ("demands/proofs/PacketRefusals.antt", "left_over", "left_over_lem"),
    ("packet_reader/proofs/ReadFields.antt", "size_is", "size_is_lem"),
    ("demands/proofs/DatagramForms.antt", "no_flag", "no_flag_lem"),
    ("demands/proofs/DatagramForms.antt", "no_size", "no_size_lem"),
    ("demands/proofs/Calling.antt", "handed_out", "handed_out_lem"),
    ("trace_compare_code/proofs/Telling.antt", "rows_told", "rows_told_lem"),
    ("image_reader/proofs/ItemEdges.antt", "items_at", "items_at_lem"),
    ("image_reader/proofs/Views.antt", "held_in", "held_in_lem"),
    ("length/specs/Cases.antt", "no_room", "no_room_case"),
    ("image_writer/proofs/Whole.antt", "row_number", "row_number_lem"),
    ("image_writer/proofs/Sizing.antt", "row_before", "row_before_lem"),
    ("host/proofs/JoinerClaims.antt", "told_in", "told_in_lem"),
    ("line/proofs/Feeding.antt", "last_line", "last_line_lem"),
    ("line/specs/Cases.antt", "goes_on", "goes_on_case"),
    ("line_code/proofs/ReleaseLoop.antt", "at_base", "at_base_lem"),
    ("session_release/proofs/Base.antt", "at_base", "at_base_lem"),
]
# what is no word of the logic: comments of both languages, strings and characters
PARTS = re.compile(r'//[^\n]*|--[^\n]*|"(?:\\.|[^"\\\n])*"|b?\'(?:\\.|[^\'\\\n])\'')


def snake(word):
    word = re.sub(r"([a-z0-9])([A-Z])", r"\1_\2", word)
    return re.sub(r"[A-Z]", lambda m: m.group(0).lower(), word)


def files():
    for folder, dirs, names in os.walk("crates"):
        dirs[:] = sorted(d for d in dirs if d != "out")
        for name in sorted(names):
            if name.endswith((".antt", ".rt", ".edit", ".twin")):
                yield os.path.join(folder, name)


def parts(text):
    """The text as pairs: a piece, and whether it is of the logic or the code."""
    at = 0
    for m in PARTS.finditer(text):
        yield text[at : m.start()], True
        yield m.group(0), False
        at = m.end()
    yield text[at:], True


def of_the_repository(word):
    return bool(CAMEL.match(word)) and not KEPT.search(word)


def main():
    if not os.path.isdir("crates"):
        sys.exit("port_names: run it at the top of the repository")
    texts = {p: open(p, encoding="utf-8").read() for p in files()}
    for path, word, new in APART:
        path = os.path.join("crates", path)
        crate, _, rest = path[len("crates/") :].partition("/")
        module = "Rattle." + crate + "." + rest[: -len(".antt")].replace("/", ".")
        whole = re.compile(r"(?<![\w'\-])" + re.escape(word) + r"(?![\w'\-])")
        imports = re.compile(r"use " + re.escape(module) + r"\.\{[^}]*(?<![\w'\-])" + re.escape(word) + r"(?![\w'\-])[^}]*\}")
        if "/specs/" in path:  # a field of a record of cases: the file, and that with its proof
            chosen = [p for p in texts if p in (path, path.replace("/specs/", "/proofs/"))]
        else:
            chosen = [p for p in texts if p == path or imports.search(texts[p])]
        for p in chosen:
            texts[p] = whole.sub(new, texts[p])
    words = set()
    for p, text in texts.items():
        if p.endswith((".antt", ".rt")):
            for piece, ours in parts(text):
                if ours:
                    words |= {w for w in WORD.findall(piece) if of_the_repository(w)}
    names = {w: snake(w) for w in words} | FUNCTIONS
    for p, text in texts.items():
        if p.endswith((".antt", ".rt")):
            turned = "".join(WORD.sub(lambda m: names.get(m.group(0), m.group(0)), piece) if ours or piece[:2] in ("--", "//") else piece for piece, ours in parts(text))
        else:  # of an edit, the lines of text
            turned = "".join(WORD.sub(lambda m: names.get(m.group(0), m.group(0)), l) if re.match(r"(old|new):", l) else l for l in text.splitlines(keepends=True))
        if turned != open(p, encoding="utf-8").read():
            with open(p, "w", encoding="utf-8") as f:
                f.write(turned)
    print(f"port_names: {len(names)} names")


main()

#!/usr/bin/env python3
"""Turns the files Proof.antt of an older Rattle into Invariants.antt and Answers.antt, by the names that a check lists.

usage: python3 tools/port_proofs.py NAMES CRATE    NAMES is the names.json that 'rt check --generated DIR --old-names' writes in the crate's folder

An answer that is only 'search rules' is left out, since the check tries that by itself. What could not be turned is printed.
"""

import json
import os
import re
import sys

# steps whose names port.py turned, since std has words of the same spelling
OTHERWISE = {"type_size": "size_of"}
norm = lambda w: w.replace("-", "_")
WORD = r"[A-Za-z_Α-ω«][\w'₀-₉«»\-]*"
PATH = re.compile(r"(?<![\w'.\-])(" + WORD + r")((?:\.[\w'«»\-]+)+)")


def split_decls(text):
    """The head of the file (comments and imports) and its declarations, each with its leading comment."""
    lines = text.split("\n")
    blocks, at = [], []
    for l in lines:
        starts = l and not l[0].isspace() and l[0] not in ")]}" and not l.startswith(("--", "unfolding"))
        if starts and at and not all(x.startswith("--") or not x for x in at):
            # comments right above go with the new one
            tail = []
            while at and (at[-1].startswith("--") or not at[-1]):
                tail.insert(0, at.pop())
            blocks.append("\n".join(at))
            at = tail
        at.append(l)
    blocks.append("\n".join(at))
    return blocks


def joined(blocks):
    """A signature and the lines that define it, as one block."""
    out = []
    for b in blocks:
        body = [l for l in b.split("\n") if l and not l.startswith("--")]
        if not body:
            continue
        m = re.match(r"(?:abbrev |unfoldable |pub )*(" + WORD + ")", body[0])
        name = m.group(1) if m else None
        if out and name and out[-1][0] == name:
            out[-1] = (name, out[-1][1] + "\n" + b)
        else:
            out.append((name, b))
    return out


def top_tuple(body):
    body = body.strip()
    if not (body.startswith("(") and body.endswith(")")):
        return None
    depth, parts, last = 0, [], 1
    for i, ch in enumerate(body):
        if ch in "([{":
            depth += 1
        elif ch in ")]}":
            depth -= 1
            if depth == 0 and i != len(body) - 1:
                return None
        elif ch == "," and depth == 1:
            parts.append(body[last:i].strip())
            last = i + 1
    if body[last:-1].strip():
        parts.append(body[last:-1].strip())
    return parts if len(parts) > 1 else None


def flat_tuple(body, n):
    if n == 1:
        return [body]
    t = top_tuple(body)
    if not t:
        return None
    if len(t) == n:
        return t
    if len(t) == 2:
        rest = flat_tuple(t[1], n - 1)
        return [t[0]] + rest if rest else None
    return None


def lets_of(body):
    """The leading 'let's of a term, and what follows them."""
    at = 0
    while True:
        m = re.compile(r"\s*let\b").match(body, at)
        if not m:
            return body[:at], body[at:]
        depth, i, inside = 0, m.end(), 1
        while inside:
            w = re.compile(r"[(\[{]|[)\]}]|\blet\b|(?<![\w'-])in(?![\w'-])").search(body, i)
            if not w:
                return body[:at], body[at:]
            if w.group(0) in "([{":
                depth += 1
            elif w.group(0) in ")]}":
                depth -= 1
            elif depth == 0:
                inside += 1 if w.group(0) == "let" else -1
            i = w.end()
        at = i


class Function:
    def __init__(self, v):
        self.v = v
        self.needs = {}
        for (old, new), clause in zip(v["needs"], v["clauses"] + [None] * len(v["needs"])):
            self.needs.setdefault(norm(old), (new, clause))
        for (old, new), clause in zip(v["needs"], v["clauses"] + [None] * len(v["needs"])):
            self.needs.setdefault(norm(new), (new, clause))
        self.callees = {norm(old): callee for place, parent, (old, new), callee, more in v["places"] if callee}
        self.steps, self.extra = {}, {}
        for place, parent, (old, new), callee, more in v["places"]:
            if old:
                self.steps.setdefault(norm(old), new)
                for a, b in more:
                    self.extra.setdefault((norm(old), a), b)
        self.arms = {}
        for arm in v["arms"]:
            if arm:
                for new, old, path in arm[2]:
                    if path:
                        self.arms.setdefault((norm(old), tuple(path)), (arm[0], new))
        self.typed = {}
        for t in v["typed"]:
            for var, old in t:
                self.typed.setdefault(norm(old), var)
        self.loops = {}
        for ((old, new), names), changed in zip(v["loops"], v["changed"]):
            self.loops[norm(old)] = (new, names, changed)
            self.steps.setdefault(norm(old), new)
        self.pre = v["pre"]

    def path(self, fields):
        fields = list(fields)
        while fields and fields[0] == "before":
            fields.pop(0)
        if not fields:
            return "c"
        f, rest = fields[0], fields[1:]
        if f == "requires" and self.pre and rest:
            names = self.pre["fields"][self.pre.get("before", 0) :]
            i = 0
            while rest and rest[0] == "1" and i < len(names) - 1:
                i += 1
                rest = rest[1:]
                if i == len(names) - 1:
                    break
            else:
                if rest and rest[0] == "0":
                    rest = rest[1:]
                else:
                    return ".".join(["c"] + fields)
            return ".".join(["c", "requires", names[i]] + rest)
        if f in ("args", "ranges", "requires", "type_inv"):
            return ".".join(["c"] + fields)
        n = norm(OTHERWISE.get(f, f))
        for size in range(len(rest), 0, -1):
            hit = self.arms.get((n, tuple(rest[:size])))
            if hit:
                return ".".join(["c", hit[0], hit[1]] + rest[size:])
        if rest and rest[0] == "given" and n in self.typed:
            return ".".join(["c", "type_inv", self.typed[n]] + rest[1:])
        if n in self.steps:
            if rest and (n, rest[0]) in self.extra:
                rest[0] = self.extra[(n, rest[0])]
            if re.match(r"(wrapping|saturating)_", n) and rest == ["ensures"]:
                rest = ["ensures", "value"]
            return ".".join(["c", self.steps[n]] + rest)
        return ".".join(["c"] + fields)

    def body(self, text):
        aliases = {"c"}
        let = re.compile(r"let (" + WORD + r") = (" + WORD + r")((?:\.before)*) in\s*")
        changed = True
        while changed:
            changed = False
            for m in let.finditer(text):
                if m.group(2) in aliases:
                    aliases.add(m.group(1))
                    text = text[: m.start()] + text[m.end() :]
                    changed = True
                    break

        def turn(m):
            if m.group(1) in aliases:
                return self.path(m.group(2)[1:].split("."))
            return m.group(0)

        text = PATH.sub(turn, text)
        for a in aliases - {"c"}:
            text = re.sub(r"(?<![\w'.\-])" + re.escape(a) + r"(?![\w'\-])", "c", text)
        return text


def requirements(top):
    """The names of the clauses that each function of the repository requires, where it has several."""
    found = {}
    for folder, dirs, files in os.walk(top):
        dirs[:] = [d for d in dirs if d not in ("out", "must-fail", "specs", "proofs")]
        for f in files:
            if f.endswith(".rt"):
                crate = folder[len(top) :].strip("/").split("/")[0]
                text = open(os.path.join(folder, f), encoding="utf-8").read()
                for m in re.finditer(r"\bfn (\w+)", text):
                    part = re.split(r"^\s*\{\s*$|\bfn \w", text[m.end() :], 1, re.M)[0]
                    names = re.findall(r"^\s*requires (\w+) \{", part, re.M)
                    if len(names) > 1:
                        found[(crate, m.group(1))] = names
    return found


def used(imports, text):
    out = []
    words = set(re.findall(r"[^\s(){},;]+", text)) | set(re.findall(WORD, text)) | set(re.findall(r"[^\s\w(){},;.'\-]+", text))
    for l in imports:
        m = re.match(r"use ([^{]*)\.\{([^}]*)\}\s*$", l)
        if not m:
            m2 = re.match(r"use .*?(?: as (\S+))?$", l)
            if m2 and m2.group(1) and not re.search(r"(?<![\w])" + re.escape(m2.group(1)) + r"\.", text):
                continue
            out.append(l)
            continue
        keep = []
        for w in re.split(r",\s*", m.group(2)):
            name = w.split(" as ")[-1].strip()
            core = name.replace("◌", "")
            if name.startswith("◌") or name.endswith("◌"):
                if core and core in text:
                    keep.append(w)
            elif name in words:
                keep.append(w)
        if keep:
            out.append("use %s.{%s}" % (m.group(1), ", ".join(keep)))
    return out


def turn(path, module, fn):
    text = open(path, encoding="utf-8").read()
    said = []
    blocks = joined(split_decls(text))
    comment, imports, invariants, answers, helpers = [], [], [], [], []
    seen_comment = False
    for l in text.split("\n"):
        if l.startswith("--") and not seen_comment:
            comment.append(l)
        elif l.strip():
            seen_comment = True
        if l.startswith("use ") and not re.search(r"\.Tie as |\.Statement\.|borrow\.Author\.Rules\.", l):
            imports.append(l)
    loop_names = {}
    for name, b in blocks:
        code = "\n".join(l for l in b.split("\n") if not l.startswith("--") or name)
        code = "\n".join(l for l in code.split("\n") if not l.startswith("use "))
        if not code.strip() or name == "use":
            continue
        if re.search(r"\bstatement\b", code) and "tie.close" in code or (name and name.endswith(("-spec", "_spec"))):
            continue
        m = re.search(r"^(?:abbrev |pub )*" + WORD + r" : tie\.(invariant|decreases)-(\S+)", code, re.M)
        if m:
            kind, loop = m.group(1), norm(m.group(2))
            if loop not in fn.loops:
                said.append(f"{kind}-{m.group(2)}: no such loop of {list(fn.loops)}")
                continue
            new, names, changed = fn.loops[loop]
            d = re.search(r"^" + re.escape(name) + r"((?:[ \n]+[^\s=]+)*)[ \n]+=\s*(.*)\Z", code[m.end() :].lstrip("\n"), re.S)
            if not d:
                said.append(f"{kind}-{m.group(2)}: not read")
                continue
            args = d.group(1).split()
            want = [("l.initial." if ch else "l.") + n for n, ch in zip(names, changed)] + ["l." + n for n, ch in zip(names, changed) if ch]
            if len(args) != len(want):
                said.append(f"{kind}-{m.group(2)}: {len(args)} arguments for {want}")
                continue
            body = d.group(2).rstrip()
            to = dict(zip(args, want))
            body = re.sub(r"(?<![\w'.\-₀-₉])" + WORD, lambda k: to.get(k.group(0), k.group(0)), body)
            invariants.append(f"abbrev pub {kind}-{new} : goal.{kind}-{new}\n{kind}-{new} l = {body}")
            continue
        m = re.search(r"^(?:pub )*" + WORD + r" : tie\.Need-(\S+)[^\n]*$", code, re.M)
        if m:
            old = norm(m.group(1))
            hit = fn.needs.get(old) or fn.needs.get(re.sub(r"^overflow_", "", old)) or fn.needs.get(re.sub(r"loop(\d*)_", r"loop\1_", old))
            d = re.search(r"^" + re.escape(name) + r" c(?: κs)?\s*=\s*(.*)\Z", code[m.end() :].lstrip("\n"), re.S | re.M)
            if not d:
                said.append(f"{m.group(1)}: not read")
                continue
            body = d.group(1).rstrip()
            if re.fullmatch(r"search rules", body):
                continue
            if not hit:
                said.append(f"{m.group(1)}: no goal of that name")
                continue
            new, clauses = hit
            if not clauses and old.endswith("_requires") or re.search(r"_requires_\d+$", old):
                places = [callee for step, callee in fn.callees.items() if re.fullmatch(re.escape(re.sub(r"_requires(_\d+)?$", "", old)) + r"\d*", step)]
                for callee in places:
                    clauses = clauses or fn.required.get((callee.split("::")[0], callee.split("::")[-1]))
            opens = re.search(r"^unfolding [^\n]*$", code, re.M)
            opens = opens.group(0) if opens else ""
            if clauses:
                parts = flat_tuple(body, len(clauses))
                if parts:
                    for cl, p in zip(clauses, parts):
                        p = fn.body(p)
                        if p != "search rules":
                            answers.append((f"{new}-clause-{cl}", p, opens))
                    continue
                lets, rest = lets_of(body)
                parts = flat_tuple(rest, len(clauses))
                if lets and parts:
                    fields = "; ".join(f"{cl} = {p}" for cl, p in zip(clauses, parts))
                    answers.append((new, fn.body(lets.rstrip() + " record { " + fields + " }"), opens))
                    continue
            answers.append((new, fn.body(body), opens))
            continue
        helpers.append(code.strip("\n"))
    folder = os.path.dirname(path)
    done = []
    if invariants:
        text2 = "\n\n".join(invariants)
        head = used(imports, text2)
        with open(os.path.join(folder, "Invariants.antt"), "w", encoding="utf-8") as f:
            f.write("\n".join(comment + head + [f"use {module}.Given as goal"]) + "\n\n" + text2 + "\n")
        done.append("Invariants")
    if answers or helpers:
        parts = list(helpers)
        for new, body, opens in answers:
            body = re.sub(r"\n(?=\S)", "\n    ", body)
            parts.append(f"pub {new} : goal.{new}\n" + (opens + "\n" if opens else "") + f"{new} c =" + ("\n    " if "\n" in body else " ") + body)
        text2 = "\n\n".join(parts)
        head = used(imports, text2)
        if re.search(r"(?<![\w'.\-])rules(?![\w'\-])", text2) and not any(re.search(r"[{, ]rules[,}]", h) for h in head):
            head.insert(0, "use Rattle.std.proofs.Common.{rules}")
        with open(os.path.join(folder, "Answers.antt"), "w", encoding="utf-8") as f:
            f.write("\n".join(comment + head + [f"use {module}.Goals as goal"]) + "\n\n" + text2 + "\n")
        done.append("Answers")
    os.remove(path)
    return done, said


def main():
    names = json.load(open(sys.argv[1], encoding="utf-8"))
    required = requirements("crates")
    crate = sys.argv[2]
    top = os.path.join("crates", crate, "proofs")
    for folder, dirs, files in os.walk(top):
        dirs.sort()
        if "Proof.antt" not in files:
            continue
        rel = os.path.relpath(folder, top).replace("/", ".")
        key = f"Rattle-{crate}-proofs.{rel}.Lts"
        if key not in names:
            print(f"{crate} {rel}: no names")
            continue
        function = Function(names[key])
        function.required = required
        done, said = turn(os.path.join(folder, "Proof.antt"), f"Rattle.{crate}.proofs.{rel}", function)
        for s in said:
            print(f"{crate} {rel}: {s}")


main()

#!/usr/bin/env python3
"""Counts the places of the design pass in crates/*/src, point by point: docs/DESIGN-PASS.md has the points.

    tools/design_places.py              the counts
    tools/design_places.py POINT        the places of a point, as 1a, a line each
"""
import collections
import glob
import os
import re
import sys

TOP = os.path.dirname(os.path.dirname(os.path.abspath(__file__)))


def sources():
    for path in sorted(glob.glob(os.path.join(TOP, 'crates/*/src/*.rt'))):
        with open(path, encoding='utf-8') as file:
            yield os.path.relpath(path, TOP), file.read().split('\n')


def blocks(lines, head):
    """The blocks that begin with a line that matches, to the line with its closing brace."""
    for at, line in enumerate(lines):
        if re.match(head, line) and line.endswith('{'):
            depth = len(line) - len(line.lstrip())
            for end in range(at + 1, len(lines)):
                if lines[end].startswith(' ' * depth + '}'):
                    yield at, lines[at:end + 1]
                    break


def functions(lines):
    """The functions: where each begins, its name, its parameters, its clauses and its body."""
    at = 0
    while at < len(lines):
        found = re.match(r'(\s*)(?:pub )?(?:extern "C" )?fn (\w+)', lines[at])
        if not found:
            at += 1
            continue
        depth = found.group(1)
        end = at
        while end < len(lines) and lines[end] != depth + '}' and not (lines[end].rstrip().endswith('}') and end == at):
            end += 1
        text = lines[at:end + 1]
        brace = next((i for i, line in enumerate(text) if line == depth + '{' or (i == 0 and line.endswith('{'))), 0)
        head, body = text[:brace + 1], text[brace + 1:]
        clauses = [line.strip() for line in head if re.match(r'\s*(requires|ensures)\b', line)]
        joined = ' '.join(line.strip() for line in head)
        parameters = re.search(r'\((.*?)\)(?: ->|\s*requires|\s*ensures|\s*\{|$)', joined)
        names = re.findall(r'(\w+): ([^,()]+(?:\([^)]*\))?[^,]*)', parameters.group(1)) if parameters else []
        yield at, found.group(2), [(n, t.strip()) for n, t in names], clauses, body
        at = end + 1


OTHER = {'Refused', 'Nothing', 'Neither', 'Misshapen', 'Stopped', 'Over', 'Missing', 'Nowhere'}


def point_1a():
    """Own enums of the shape of Option or Result: one variant says that there is no value."""
    for path, lines in sources():
        for at, block in blocks(lines, r'(pub )?enum '):
            variants = {m.group(1) for line in block[1:] if (m := re.match(r' {4}(\w+)', line))}
            if variants & OTHER:
                yield path, at, block[0].strip(' {')


def point_1b():
    """A flag with a value beside it: a struct with a field of type bool and others."""
    for path, lines in sources():
        for at, block in blocks(lines, r'(pub )?struct '):
            fields = [line.strip() for line in block[1:-1] if ':' in line and not line.strip().startswith('//')]
            flags = [f for f in fields if f.rstrip(',').endswith(': bool')]
            if flags and len(fields) > 1:
                yield path, at, block[0].strip(' {') + ': ' + ', '.join(flags)


def point_1c():
    """Numbers for kinds and refusals: constants of one or two octets that are no sizes."""
    for path, lines in sources():
        for at, line in enumerate(lines):
            if re.match(r'\s*(pub )?const \w+: u(8|16) = [0-9]+;', line):
                yield path, at, line.strip()


def point_1d():
    """Refusals passed up by hand: an arm or a return that only wraps the refusal again."""
    for path, lines in sources():
        for at, line in enumerate(lines):
            if re.search(r'Refused\((\w+)\) => (return )?\w+(::\w+)*\((\w+::)?\1\)', line) or re.search(r'\w+::Refused\(\w+\.refusal\(\)\)', line):
                yield path, at, line.strip()
            elif re.search(r'Err\((\w+)\) => (return )?Err\(\1\)', line):
                yield path, at, line.strip()


def shape(text):
    """A function's tokens, its names numbered in the order in which they come, all numbers alike."""
    text = re.sub(r'//.*', '', text)
    tokens = re.findall(r'[A-Za-z_]\w*|\d\w*|[^\s\w]', text)
    keep = {'fn', 'pub', 'let', 'mut', 'if', 'else', 'match', 'while', 'for', 'in', 'return', 'as', 'true', 'false', 'loop'}
    seen = {}
    return tuple(t if t in keep or not re.match(r'[\w]', t) else '0' if t[0].isdigit() else str(seen.setdefault(t, len(seen))) for t in tokens)


def point_2():
    """Twins: functions that are alike but for names and numbers, of at least 30 tokens; each but the first of a shape counts."""
    found = collections.defaultdict(list)
    for path, lines in sources():
        if path.startswith('crates/host_c/'):
            continue  # it repeats host's exports, as the archive that C links with
        for at, name, names, clauses, body in functions(lines):
            made = shape(', '.join(t for _, t in names) + ' ' + '\n'.join(body))
            if len(made) >= 30:
                found[made].append((path, at, name))
    for places in found.values():
        for path, at, name in places[1:]:
            yield path, at, f'{name}, as {places[0][2]} in {places[0][0]}'


def loops():
    for path, lines in sources():
        for at, line in enumerate(lines):
            found = re.match(r'(\s*)(?:\'\w+: )?(?:while|loop)\b(.*)\{$', line)
            if found:
                body = []
                for more in lines[at + 1:]:
                    if more.startswith(found.group(1) + '}'):
                        break
                    body.append(more)
                yield path, at, line.strip(), body


def counted(line, body):
    test = set(re.findall(r'[a-z_]\w*', line))
    steps = {m.group(1) for more in body if (m := re.match(r'\s*(\w+) [+-]= 1;', more))}
    return bool(test & steps)


def point_3():
    """Loops that count an index by hand: a name in the loop's test goes up or down by one in its body."""
    for path, at, line, body in loops():
        if counted(line, body):
            yield path, at, line


def point_3b():
    """The other loops with while: a cursor that moves by what was read."""
    for path, at, line, body in loops():
        if not counted(line, body):
            yield path, at, line


def point_4a():
    """A wider number by `as`, or by a function of the repository's own."""
    for path, lines in sources():
        for at, line in enumerate(lines):
            code = line.split('//')[0]
            for found in re.finditer(r'\bas (usize|u16|u32|u64)\b|\b(?:octets::|length::)?(?:wide|data_size)\(', code):
                if not re.match(r'\s*(ghost )?use ', code):
                    yield path, at, line.strip()


def point_4b():
    """The library's functions by path where it has methods."""
    for path, lines in sources():
        for at, line in enumerate(lines):
            if re.search(r'std::num::\w+', line) and not line.startswith('use '):
                yield path, at, line.strip()


def point_4c():
    """Copies field by field: `let n = s.n;` of a plain field, to pass it on under the same name."""
    for path, lines in sources():
        for at, line in enumerate(lines):
            if re.match(r'\s*let (\w+) = \w+\.\1;$', line):
                yield path, at, line.strip()


HELD = ('base', 'counts', 'table', 'octets', 'messages')


def point_5a():
    """Functions with three or more of a session's parts as parameters."""
    for path, lines in sources():
        for at, name, names, clauses, body in functions(lines):
            if sum(1 for n, _ in names if n in HELD) >= 3:
                yield path, at, name


def point_5b():
    """Clauses of `requires` that stand in three or more functions of a crate, with the same words."""
    found = collections.defaultdict(list)
    for path, lines in sources():
        crate = path.split('/')[1]
        for at, name, names, clauses, body in functions(lines):
            for clause in clauses:
                if clause.startswith('requires'):
                    found[crate, re.sub(r'^requires (\w+ )?\{', '{', clause)].append((path, at, name))
    for (crate, clause), places in sorted(found.items()):
        if len(places) >= 3:
            yield places[0][0], places[0][1], f'{clause} in {len(places)} functions'


def point_6():
    """Arrays of a fixed size with a count beside them, as parameters or fields."""
    for path, lines in sources():
        for at, name, names, clauses, body in functions(lines):
            for (n, t), (beside, kind) in zip(names, names[1:]):
                if re.match(r'(&(mut )?)?\[\w+(::\w+)*; ', t) and kind == 'usize' and re.match(r'(count|size|used|end|length|n|m)$', beside):
                    yield path, at, f'{name}: {n}, {beside}'
        for at, block in blocks(lines, r'(pub )?struct '):
            if any(re.search(r': \[\w+(::\w+)*; ', line) for line in block) and any(re.match(r'\s*(pub )?(count|size|used|end|length): ', line) for line in block):
                yield path, at, block[0].strip(' {')


def point_7():
    """A number or name that says which step to run: a match or a tower of ifs over it with a call in each arm; function pointers."""
    for path, lines in sources():
        for at, line in enumerate(lines):
            if re.search(r': fn\(|&dyn |Box<dyn ', line):
                yield path, at, line.strip()
        for at, name, names, clauses, body in functions(lines):
            tests = [m.group(1) for line in body if (m := re.match(r'\s*(?:\} else )?if (\w+(?:\.\w+)?(?:\[\d+\])?) == ', line))]
            for test, times in collections.Counter(tests).items():
                if times >= 3:
                    yield path, at, f'{name}: {times} tests of {test}'


POINTS = {name[len('point_'):]: value for name, value in list(globals().items()) if name.startswith('point_')}


def main(words):
    if not words:
        for name, places in POINTS.items():
            print(f'{name:3} {len(list(places())):4}  {places.__doc__}')
        return 0
    if len(words) != 1 or words[0] not in POINTS:
        print(__doc__, file=sys.stderr)
        return 2
    for path, at, text in POINTS[words[0]]():
        print(f'{path}:{at + 1}: {text}')
    return 0


if __name__ == '__main__':
    sys.exit(main(sys.argv[1:]))

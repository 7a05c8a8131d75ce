"""The changes of a definition, one token at a time, and where they stand. A file of specs/ is read as blocks: a line in the first column
and the indented lines under it. Only clauses (`name patterns = term`) are changed, right of their `=`; comments, imports, types and
records are not. Each change keeps the shape of the term, so that most have a type."""

import collections
import re

# What is changed: the bounds in the text, what stands there instead, and the kind of change.
Change = collections.namedtuple('Change', 'start end new kind')
# One wrong definition: the file, its number of line, the old and new lines (stripped, joined by ' // '), the whole new text and the kind.
Mutant = collections.namedtuple('Mutant', 'file line old new text kind')

PAIRS = {'leb': 'ltb', 'ltb': 'leb', 'eqb': 'leb', 'true': 'false', 'false': 'true', 'take': 'drop', 'drop': 'take', 'any': 'all',
         'all': 'any'}
SIGNS = {' && ': ' || ', ' || ': ' && ', ' + ': ' - ', ' - ': ' + ', ' / ': ' % ', ' % ': ' / '}
PRELUDE = 'Rattle.std.specs.Prelude'
HOME = dict.fromkeys('leb ltb eqb true false not ◌&&◌ ◌||◌ take drop ◌+◌ ◌-◌ ◌/◌ ◌%◌'.split(), PRELUDE)

NAME = r"[^\W\d][\w'-]*"
NUMBER = re.compile(r"(?<![\w.'-])(0x[0-9A-Fa-f]+|\d+)(?![\w.'])")
WORD = re.compile(r"(?<![\w.'«-])(%s)(?![\w'»-])" % NAME)
SIGNATURE = re.compile(r'^(?:abbrev |unfoldable |opaque |pub )*(\S+) : (.*)$', re.S)
KEYWORD = re.compile(r'^(use|pub use|pub mod|mod|pub record|record|pub data|data|infix[lr]?|ruleset|open)\b')


def masked(text):
    """The text with blanks for its comments."""
    return re.sub(r'--[^\n]*', lambda found: ' ' * len(found[0]), text)


def blocks(text):
    """The bounds of each block: from a line that begins in the first column up to the next one."""
    starts = [found.start() for found in re.finditer(r'^(?=\S)', text, re.M)] + [len(text)]
    return [(start, end) for start, end in zip(starts, starts[1:]) if text[start:end].strip()]


def closing(text, start):
    """Where the bracket at `start` is closed."""
    depth = 0
    for at in range(start, len(text)):
        depth += text[at] in '({['
        depth -= text[at] in ')}]'
        if not depth:
            return at + 1
    return len(text)


def equals(text, start, end):
    """Where the right side of a clause begins, or None."""
    depth = 0
    for at in range(start, end):
        depth += text[at] in '({'
        depth -= text[at] in ')}'
        if not depth and text[at] == '=' and text[at - 1] == ' ' and text[at + 1:at + 2] in (' ', '\n'):
            return at + 1
    return None


def arguments(kind):
    """The types of a function's arguments, as they are written."""
    parts, depth, last = [], 0, 0
    for at, letter in enumerate(kind):
        depth += letter in '({'
        depth -= letter in ')}'
        if letter == '→' and not depth:
            parts.append(kind[last:at].strip())
            last = at + 1
    return [part for part in parts if not part.startswith('{')]


def atoms(text):
    """The patterns of a clause's left side, after the name."""
    found, at = [], 0
    while at < len(text):
        if text[at] == '(':
            found.append(text[at:closing(text, at)])
            at = closing(text, at)
        elif text[at].isspace():
            at += 1
        else:
            word = re.match(r'\S+', text[at:])[0]
            found.append(word)
            at += len(word)
    return found


def records(texts):
    """For each field of a record of the crate the next one of the same type."""
    nexts = {}
    for text in texts:
        for found in re.finditer(r'^(?:pub )?record [^\n]* where\n((?:[ \t]+[^\n]*\n|\n)*)', masked(text), re.M):
            fields = re.findall(r'^\s+(?:pub )?(%s) : (.*?)\s*$' % NAME, found[1], re.M)
            for kind in {kind for _, kind in fields}:
                same = [name for name, its in fields if its == kind]
                for here, after in zip(same, same[1:] + same[:1]):
                    if here != after:
                        nexts.setdefault(here, after)
    return nexts


def typed(text):
    """The names of a file with their types, constructors too."""
    bare, found = masked(text), {}
    for start, end in blocks(bare):
        block = ' '.join(bare[start:end].split())
        signature = SIGNATURE.match(block)
        if signature and not KEYWORD.match(block):
            found[signature[1]] = signature[2]
    for data in re.finditer(r'^(?:pub )?data [^\n]* where\n((?:[ \t]+[^\n]*\n|\n)*)', bare, re.M):
        found.update(re.findall(r'^\s+(%s) : (.*?)\s*$' % NAME, data[1], re.M))
    return found


def neighbours(text, file_of):
    """For each imported name, or constructor of the file, the next one of its type in the same line of imports. `file_of` has the text of a
    module of the project, or None; of the variants of a declared type the types are not known."""
    nexts, groups = {}, collections.defaultdict(list)
    for at, (source, names) in enumerate(re.findall(r'^(?:pub )?use (\S+?)\.\{([^}]*)\}', text, re.M)):
        named = file_of(source)
        types = typed(named) if named is not None else {}
        for name in (name.strip() for name in names.split(',') if ' as ' not in name):
            if source.endswith('.TheVariants') or name in types:
                groups[at, types.get(name)].append(name)
    for data in re.finditer(r'^(?:pub )?data [^\n]* where\n((?:[ \t]+[^\n]*\n|\n)*)', masked(text), re.M):
        for name, kind in re.findall(r'^\s+(%s) : (.*?)\s*$' % NAME, data[1], re.M):
            groups[data.start(), 'constructors', kind].append(name)
    for names in groups.values():
        names = [name for name in names if re.fullmatch(NAME, name)]
        for here, after in zip(names, names[1:] + names[:1]):
            if here != after:
                nexts[here] = after
    return nexts


def elements(text, start, end):
    """The elements of each list `a ∷ b ∷ ..` within the bounds, as bounds; the tail is left out."""
    spans, stack = [], [[start]]
    at = start
    while at < end:
        if text[at] in '({[':
            stack.append([at + 1])
        elif text[at] in ')}]' and len(stack) > 1:
            spans.append(stack.pop())
        elif text[at] == '∷':
            stack[-1].append(at)
        elif text[at] in ';=':
            spans.append(stack[-1])
            stack[-1] = [at + 1]
        at += 1
    for marks in spans + stack:
        begins = [marks[0]] + [mark + 1 for mark in marks[1:]]
        yield [(begin, mark) for begin, mark in zip(begins, marks[1:])]


def trimmed(text, start, end):
    """The bounds without the blanks at both ends."""
    while start < end and text[start].isspace():
        start += 1
    while end > start and text[end - 1].isspace():
        end -= 1
    return start, end


def exchanged(text, one, other):
    """The change that exchanges two stretches of the text."""
    (a, b), (c, d) = one, other
    return Change(a, d, text[c:d] + text[b:c] + text[a:b], 'rows')


def of_clause(text, bare, start, end, types, next_field, next_name, aliases):
    """The changes of one clause; `aliases` are the file's names for modules."""
    right = equals(bare, start, end)
    if right is None:
        return
    body = bare[right:end]
    for found in NUMBER.finditer(body):
        value, at = int(found[0], 0), right + found.start()
        for other in (value + 1, value - 1):
            if other >= 0:
                yield Change(at, right + found.end(), '0x%02X' % other if found[0].startswith('0x') else str(other), 'number')
    names = atoms(bare[start:right - 1])[1:]
    for found in WORD.finditer(body):
        word, at, stop = found[0], right + found.start(), right + found.end()
        if word in PAIRS:
            yield Change(at, stop, PAIRS[word], 'comparison' if word in ('leb', 'ltb', 'eqb') else 'word')
        if word in next_name:
            yield Change(at, stop, next_name[word], 'name')
        if word == 'cond':
            test = at + len('cond')
            while test < end and bare[test].isspace():
                test += 1
            if bare[test] == '(':
                stop = closing(bare, test)
            else:
                stop = test + len(re.match(r'\S+', bare[test:])[0])
            yield Change(test, stop, '(not %s)' % text[test:stop], 'branch')
        if word in names and len(names) == len(types):
            here = names.index(word)
            others = [other for other in range(len(names))
                      if other != here and types[other] == types[here] and re.fullmatch(NAME, names[other])]
            if others:
                nearest = min(others, key=lambda other: (abs(other - here), -other))
                yield Change(at, right + found.end(), names[nearest], 'argument')
    for found in re.finditer(r' (?:&&|\|\||\+|-|/|%) ', body):
        yield Change(right + found.start(), right + found.end(), SIGNS[found[0]], 'sign')
    for found in re.finditer(r"(?<=[\w')])\.(%s)" % NAME, body):
        first = re.search(r"(?<![\w.'])%s$" % NAME, body[:found.start()])
        if found[1] in next_field and not (first and first[0] in aliases):
            yield Change(right + found.start(1), right + found.end(1), next_field[found[1]], 'field')
    for row in elements(bare, right, end):
        row = [trimmed(bare, *bounds) for bounds in row]
        for one, other in zip(row, row[1:]):
            if text[one[0]:one[1]] != text[other[0]:other[1]] and one[0] < one[1] and other[0] < other[1]:
                yield exchanged(text, one, other)


def changes(text, next_field, file_of):
    """All changes of a file."""
    bare, types, last, next_name = masked(text), [], None, neighbours(text, file_of)
    aliases = set(re.findall(r'^(?:pub )?use \S+ as (%s)$' % NAME, text, re.M))
    for start, end in blocks(bare):
        block = bare[start:end].rstrip()
        if KEYWORD.match(block):
            last = None
            continue
        signature = SIGNATURE.match(block)
        right = equals(bare, start, end)
        if signature and (right is None or right - start > block.index(' : ')):
            types, last = arguments(' '.join(signature[2].split())), None
            continue
        if right is None:
            continue
        yield from of_clause(text, bare, start, end, types, next_field, next_name, aliases)
        side = trimmed(bare, right, end)
        name = bare[start:right].split()[0]
        if last and last[0] == name and text[last[1][0]:last[1][1]] != text[side[0]:side[1]]:
            if binds_all(bare, last[2], side, (start, right)) and binds_all(bare, (start, right), last[1], last[2]):
                yield exchanged(text, last[1], side)
        last = (name, side, (start, right))


def imported(text, name):
    """The text with a name among its imports, if there is a line of imports to put it in."""
    home = HOME.get(name)
    if not home or re.search(r'^use %s\.\{[^}]*(?<![\w])%s(?![\w])[^}]*\}' % (re.escape(home), re.escape(name)), text, re.M):
        return text
    line = re.search(r'^use %s\.\{' % re.escape(home), text, re.M)
    if line:
        return text[:line.end()] + name + ', ' + text[line.end():]
    return 'use %s.{%s}\n' % (home, name) + text


def binds_all(bare, clause, right, other):
    """Whether a clause's patterns have every variable that another clause's right side takes from its own patterns."""
    mine, its = (set(WORD.findall(bare[start:end - 1])) for start, end in (clause, other))
    return not (its - mine) & set(WORD.findall(bare[right[0]:right[1]]))


def lines_of(text, start, end):
    """The lines that hold the bounds, stripped."""
    begin = text.rfind('\n', 0, start) + 1
    stop = text.find('\n', end)
    return [line.strip() for line in text[begin:stop if stop >= 0 else len(text)].split('\n') if line.strip()]


def mutants(file, text, next_field, file_of):
    """All wrong forms of a file, each once."""
    seen = set()
    for change in changes(text, next_field, file_of):
        new = text[:change.start] + change.new + text[change.end:]
        if new == text or new in seen:
            continue
        seen.add(new)
        old_lines = lines_of(text, change.start, change.end)
        new_lines = lines_of(new, change.start, change.start + len(change.new))
        if len(old_lines) == len(new_lines):
            pairs = [pair for pair in zip(old_lines, new_lines) if pair[0] != pair[1]]
            old_lines, new_lines = [pair[0] for pair in pairs], [pair[1] for pair in pairs]
        whole = new
        for word in re.findall(NAME, change.new):
            whole = imported(whole, word)
        sign = change.new.strip()
        if '◌%s◌' % sign in HOME:
            whole = imported(whole, '◌%s◌' % sign)
        yield Mutant(file, text.count('\n', 0, change.start) + 1, ' // '.join(old_lines), ' // '.join(new_lines), whole, change.kind)

#!/usr/bin/env python3
# check: beside
# self-test: beside
# says: a public call's promise is cited by no theorem, or docs/PROMISES-CITED.md is stale
# counts: checks of documents
"""For each public call the promise that its contract cites, the field of `demands` (CallContracts) that ties the contract to it, and
the theorems that cite that very promise: the same name of the same file. --write writes the table docs/PROMISES-CITED.md. A call without a tie or
without a theorem is a failure, unless promises-without.txt names it with a reason. The theorems are the fields of `Claims` of `demands`,
those of the records that these fields are, and so on. Nothing is proved here: the files are read as texts."""

import argparse
import pathlib
import re
import shutil
import sys
import tempfile

sys.path[0] = str(pathlib.Path(__file__).resolve().parents[1])  # the folder tests/

from support.failing import Cases

SELF = pathlib.Path(__file__).resolve()
ROOT = next(folder for folder in SELF.parents if (folder / 'crates.txt').exists())
TABLE, WITHOUT = 'docs/PROMISES-CITED.md', 'tests/checks/promises-without.txt'
CLAIMS, CONTRACTS = 'demands.specs.Claims', 'demands.specs.CallContracts.'
# the crates that users call: all their public functions
CRATES = ('length_code', 'datagram_reader', 'datagram_writer', 'packet_reader', 'packet_pencil', 'packet_writer', 'session_calls',
          'sender_calls', 'frame_joiner', 'frame_feed', 'image_writer', 'image_reader', 'trace_replay_code', 'trace_compare_code', 'host')
# and calls of other crates: crate, type or none, function
MORE = (('session_held', 'Session', 'fresh'), ('sender', 'Sender', 'fresh'), ('frame', 'Joiner', 'fresh'),
        ('line_hex', '', 'hex_to_octets'))

NAME = r"[^\W\d][\w'-]*"
USE = re.compile(r'^(?:ghost )?use (Rattle\.(?!std\.)[^\s{;]+?)(?:\.\{([^}]*)\}| as (%s))?;?$' % NAME, re.M)
FUNCTION = re.compile(r'^\s*pub (?:extern "C" )?fn (\w+)\b(.*?)^\s*\{$', re.M | re.S)
CLAIM = re.compile(r'\bensures(?: \w+)? \{(.*?)\}(?=\s*(?:ensures\b|ghost\b|$))', re.S)
RECORD = re.compile(r'^( *)pub (?:record|data) (%s)\b' % NAME)
FIELD = re.compile(r'^( +)pub (%s) :(.*)$' % NAME)
MEANING = re.compile(r'^( *)(?:abbrev|unfoldable) pub (%s) :' % NAME)


class Wrong(Exception):
    """What is wrong."""


def module(path):
    """A module's name from its crate on: Rattle.packet.specs.Promise is packet.specs.Promise."""
    return path.removeprefix('Rattle.')


class File:
    """A file of specs/ or src/: what it imports and, of specs/, its records with their fields, and its definitions."""

    def __init__(self, path, name):
        self.name, self.names, self.aliases = name, {}, {}
        self.records, self.meanings = {}, {}
        text = path.read_text(encoding='utf-8')
        for where, names, alias in USE.findall(text):
            if names:
                for one in names.split(','):
                    first, *other = one.strip().split(' as ')
                    self.names[(other or [first])[0]] = (module(where), first)
            elif alias:
                self.aliases[alias] = module(where)
        self.text = text
        if path.suffix == '.antt':
            self.declared(re.sub(r'--.*', '', text).splitlines())

    def declared(self, lines):
        """The records, each a dictionary from field to statement, and the definitions, each its text."""
        record, taken, depth = None, None, 0
        for line in lines:
            begun, field, meaning = RECORD.match(line), FIELD.match(line), MEANING.match(line)
            if begun:
                record = self.records.setdefault(begun[2], {})
                depth, taken = len(begun[1]), None
            elif field and record is not None and len(field[1]) == depth + 2:
                taken = (record, field[2])
                record[field[2]] = field[3]
            elif meaning:
                record, taken = None, (self.meanings, meaning[2])
                self.meanings[meaning[2]] = ''
            elif taken and line.strip():
                taken[0][taken[1]] += ' ' + line.strip()
        self.meanings = {name: text.partition(' = ')[2] for name, text in self.meanings.items()}

    def found(self, word):
        """The module and the name that a word of this file means, or None."""
        if word in self.names:
            return self.names[word]
        first, dot, rest = word.partition('.')
        if dot and first in self.aliases:
            return (self.aliases[first], rest)
        if word in self.records or word in self.meanings:
            return (self.name, word)
        return None


class Tree:
    """The files of a tree, each read once."""

    def __init__(self, root):
        self.root, self.files = root, {}

    def file(self, name):
        """The file of a module, or None if there is none."""
        if name not in self.files:
            path = self.root / 'crates' / (name.replace('.', '/') + '.antt')
            self.files[name] = File(path, name) if path.exists() else None
        return self.files[name]

    def record(self, found):
        """The fields of a record, or None if this is no record."""
        file = found and self.file(found[0])
        return file.records.get(found[1]) if file else None


def head(statement):
    """The word that a statement ends in: behind its last arrow outside of brackets, or its first word."""
    depth, last = 0, 0
    for at, sign in enumerate(statement):
        depth += (sign in '({') - (sign in ')}')
        if sign == '→' and depth == 0:
            last = at + 1
    word = re.match(r'[\s(]*((?:%s\.)?%s)' % (NAME, NAME), statement[last:])
    return word[1] if word else ''


def theorems(tree):
    """All theorems: the file, the record, the field and its statement, with the text of a definition that the statement is."""
    found, seen, open_ = [], set(), [(CLAIMS, 'Claims')]
    while open_:
        where = open_.pop()
        if where in seen:
            continue
        seen.add(where)
        fields = tree.record(where)
        if fields is None:
            continue
        file = tree.file(where[0])
        for field, statement in fields.items():
            last = file.found(head(statement))
            texts = [(file, statement)]
            passed = set()
            while last and tree.record(last) is None and last not in passed:
                passed.add(last)
                other = tree.file(last[0])
                body = other and other.meanings.get(last[1])
                if body:
                    texts.append((other, body))
                    last = other.found(head(body))
            found += [(where, field, of, text) for of, text in texts]
            if last:
                open_.append(last)
    return found


def cites(file, statement, promise):
    """Whether a statement cites this promise: its name by way of the same file; of `Puts (X ..)` both, together."""
    (whole, inner) = promise
    for word in re.finditer(r'(?:%s\.)?%s' % (NAME, NAME), statement):
        if file.found(word[0]) == whole:
            if inner is None:
                return True
            more = re.match(r'\s*\(((?:%s\.)?%s)' % (NAME, NAME), statement[word.end():])
            if more and file.found(more[1]) == inner:
                return True
    return False


def contract(file, text, call):
    """The promise that a contract cites: the first word of its claim, or what the result equals; of `Puts (X ..)` both words."""
    claims = CLAIM.findall(text)
    if not claims:
        raise Wrong('%s promises nothing' % call)
    claim = claims[0].split('≡', 1)[1] if re.match(r'\s*result ≡', claims[0]) else claims[0]
    words = [found for found in (file.found(word[0]) for word in re.finditer(r'(?:%s\.)?%s' % (NAME, NAME), claim)) if found]
    if not words:
        raise Wrong('%s: no promise of specs/ in its contract: %s' % (call, ' '.join(claims[0].split())))
    return (words[0], words[1] if words[0][1] == 'Puts' else None)


def functions(tree, crate):
    """The public functions of a crate, by their names: the file and the text up to the body."""
    found = {}
    folder = tree.root / 'crates' / crate / 'src'
    top = (folder / 'lib.rt').read_text(encoding='utf-8')
    used = ' '.join(re.findall(r'^pub use (?:\w+::)+(\w+|\{[^}]*\});', top, re.M))
    shown = set(re.findall(r'\w+', used)) | {name for name, _ in FUNCTION.findall(top)}
    for path in sorted(folder.rglob('*.rt')):
        file = File(path, '')
        for name, text in FUNCTION.findall(file.text):
            if name in shown or crate not in CRATES:
                found[name] = (file, text)
    return found


def calls(tree):
    """All public calls: the name, the path of its contract in `demands`, the file and the text."""
    for crate in CRATES:
        for name, (file, text) in functions(tree, crate).items():
            yield '%s::%s' % (crate, name), '%s.proofs.%s.Reads' % (crate, name), file, text
    for crate, kind, name in MORE:
        file, text = functions(tree, crate)[name]
        middle, dotted = (kind + '::', kind + '.') if kind else ('', '')
        yield '%s::%s%s' % (crate, middle, name), '%s.proofs.%s%s.Reads' % (crate, dotted, name), file, text


def ties(tree):
    """For each contract that a field of Contracts begins with: the field's record and name, its file and statement."""
    found = {}
    for path in sorted((tree.root / 'crates/demands/specs/CallContracts').glob('*.antt')):
        file = tree.file(CONTRACTS + path.stem)
        for record, fields in file.records.items():
            for field, statement in fields.items():
                for alias in re.findall(r'→ (%s)\.Learnt\b' % NAME, statement):
                    found[file.aliases.get(alias)] = (record, field, file, statement)
    return found


def excused(tree):
    """The calls of promises-without.txt with the reason of each."""
    found = {}
    for line in (tree.root / WITHOUT).read_text(encoding='utf-8').splitlines():
        if line.strip() and not line.startswith('#'):
            call, mark, reason = line.partition(': ')
            if not mark or not reason.strip():
                raise Wrong('%s: no reason for %s' % (WITHOUT, line))
            found[call] = reason.strip()
    return found


def rows(tree):
    """A row for each call: its name, its promise, the tie, the theorems by record; a call without one is wrong."""
    all_, tied, without, found = theorems(tree), ties(tree), excused(tree), []
    for call, path, file, text in calls(tree):
        promise = contract(file, text, call)
        tie, by = tied.get(path), {}
        for where, field, of, statement in all_:
            if not where[0].startswith(CONTRACTS) and not where[0].endswith('.Promise') and cites(of, statement, promise):
                by.setdefault(where, []).append(field)
        if tie and not cites(tie[2], tie[3], promise):
            raise Wrong('%s: `%s` of %s does not cite the promise %s' % (call, tie[1], tie[0], promise[0][1]))
        if (tie and by) and call in without:
            raise Wrong('%s: %s has both, a tie and a theorem' % (WITHOUT, call))
        if not (tie and by) and call not in without:
            what = 'no theorem cites its promise ' + promise[0][1] if tie else 'no field of CallContracts has its contract'
            raise Wrong('%s: %s' % (call, what))
        found.append((call, promise, tie, by, without.get(call)))
    names = [row[0] for row in found]
    for call in without:
        if call not in names:
            raise Wrong('%s: %s is no public call' % (WITHOUT, call))
    return found


def shown(where):
    """A record, with its file unless that has the record's name, and with its crate unless that is `demands`."""
    crate, *_, file = where[0].split('.')
    return ('' if crate == 'demands' else '`%s`, ' % crate) + ('`%s`' % where[1] if file == where[1] else '`%s.%s`' % (file, where[1]))


def table(found):
    """The text of the table."""
    lines = ['# Which theorems cite which promise', '',
             'Written by `tests/checks/promises.py --write` from the contracts and the statements, and checked by the same script.',
             '*Tied by* is the field of `crates/demands/specs/CallContracts` which says that what a caller learns from the contract is this',
             'promise: if the contract says less, `demands` is not proved. The theorems are fields of records in `crates/demands/specs`,',
             'or in the crate that is named; [PROMISES.md](PROMISES.md) says what they mean.', '',
             '| Call | Promise | Tied by | Theorems that cite it |', '|---|---|---|---|']
    for call, (whole, inner), tie, by, reason in found:
        promise = '`%s`' % whole[1] if inner is None else '`%s (%s ..)`' % (whole[1], inner[1])
        cited = '; '.join('%s: %s' % (shown(where), ', '.join('`%s`' % field for field in fields)) for where, fields in sorted(by.items()))
        said = '. '.join(filter(None, (cited, reason and 'No tie: ' + reason)))
        lines.append('| `%s` | %s | %s | %s |' % (call, promise, '`%s`' % tie[1] if tie else '', said))
    return '\n'.join(lines) + '\n'


def check(root):
    """The calls and the table, a line for each."""
    found = rows(Tree(root))
    tied = sum(1 for row in found if row[4] is None)
    yield '%d public calls: %d with a tie and a theorem, %d with a reason' % (len(found), tied, len(found) - tied)
    path = root / TABLE
    if not path.exists() or path.read_text(encoding='utf-8') != table(found):
        raise Wrong('%s is stale: python3 %s --write' % (TABLE, SELF.relative_to(ROOT)))
    yield '%s is not stale' % TABLE


def self_test():
    """Broken trees: a promise that no theorem cites, a contract that nothing ties, a tie to another promise, a stale table."""
    test = Cases('promises.py')

    def broken(root):
        try:
            for _ in check(root):
                pass
        except Wrong as wrong:
            return str(wrong)
        return None

    def case(name, words, *edits):
        with tempfile.TemporaryDirectory() as folder:
            root = pathlib.Path(folder)
            for file in (file for part in ('specs', 'src') for file in ROOT.glob('crates/*/%s/**/*' % part)):
                if file.is_file():
                    (root / file.relative_to(ROOT)).parent.mkdir(parents=True, exist_ok=True)
                    shutil.copy(file, root / file.relative_to(ROOT))
            for one in (TABLE, WITHOUT):
                (root / one).parent.mkdir(parents=True, exist_ok=True)
                shutil.copy(ROOT / one, root / one)
            for path, old, new in edits:
                text = (root / path).read_text(encoding='utf-8')
                assert old in text, (path, old)
                (root / path).write_text(text.replace(old, new, 1), encoding='utf-8')
            found = broken(root)
            test.case('%s: %s' % (name, words), found is not None and words in found, found)

    second, tied = 'crates/packet_pencil/src/whole.rt', 'crates/demands/specs/CallContracts/LibraryContracts.antt'
    another = second, '{ ReadBy edition ending', '{ ChosenTaken edition ending'
    owes = '→ second_read.Learnt κs (edition, (octets, (ending, tt))) r end\n      → '
    case('another promise', 'does not cite the promise', another)
    case('a promise that no theorem cites', 'no theorem cites its promise', another,
         (tied, owes + 'ReadBy', owes + 'ChosenTaken'),
         (tied, '\nuse Rattle.packet_reader.p', '\nuse Rattle.packet_pencil.specs.Packet.{ChosenTaken}\nuse Rattle.packet_reader.p'))
    case('a contract that says nothing', 'promises nothing',
         (second, 'ensures { ReadBy edition ending octets.now result }', ''))
    case('a contract that nothing ties', 'no field of CallContracts', (tied, '→ second_read.Learnt', '→ read_packet.Learnt'))
    case('a tie to another promise', 'does not cite the promise', (tied, '→ SolveOwes s r', '→ OfferOwes s r'))
    case('a reason left out', 'no reason', (WITHOUT, '::put_octets: ', '::put_octets '))
    put = 'datagram_writer::put_octets: '
    case('a reason without need', 'has both', (WITHOUT, put, 'datagram_writer::write: none\n' + put))
    case('a row of the table altered', 'stale', (TABLE, '| `session_calls::offer` |', '| `session_calls::offers` |'))
    test.end()


def main():
    """Checks calls and table, or writes the table; ends with status 1 at the first failure."""
    parser = argparse.ArgumentParser(description=__doc__)
    parser.add_argument('--write', action='store_true', help='write %s' % TABLE)
    parser.add_argument('--self-test', action='store_true', help='check that broken trees are reported')
    given = parser.parse_args()
    if given.self_test:
        self_test()
        return
    passed = 0
    try:
        if given.write:
            (ROOT / TABLE).write_text(table(rows(Tree(ROOT))), encoding='utf-8')
        for line in check(ROOT):
            print('ok ' + line)
            passed += 1
    except Wrong as wrong:
        print('FAILED: %s\n%d passed, 1 failed' % (wrong, passed))
        sys.exit(1)
    print('%d passed, 0 failed' % passed)


if __name__ == '__main__':
    main()

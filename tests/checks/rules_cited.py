#!/usr/bin/env python3
# check: beside
# self-test: beside
# says: a citation names no rule of docs/RULES.md, a hole has no reason, or docs/RULES-CITED.md is stale
# counts: checks of documents
"""Citations of docs/RULES.md: each must name a rule, and docs/RULES-CITED.md must be the table of who cites what; --write writes the table.
A citation is `rule 4.3`, or `rules` with two numbers or more, joined by commas, `and` and `to` (`rules 4.3, 4.5 and 6.1 to 6.3`); `to`
has both ends in one section. It may break across the lines of a comment. Definitions are the files of specs/ and code those of src/;
cases are the worked files of specs/ and proofs/ (CASES below) and the rows of cases/README.md; of an edit its comment counts. In the
files that make scripts and mistakes (ABOUT below) a range says what the file is about, and not that it tests each rule: it does not
count as a test. A rule that nothing of a kind cites is a hole. rules-holes.txt has the reason for each, and the table shows it: a line
is `RULES | KIND | reason`, where RULES is a section (26) or a list as in a citation, KIND is definition, case or test, and a reason that
begins with `open` says that it should be filled. Of several lines the one that names the fewest rules holds. A rule that has a case
needs no edit or test of its own: the case is proved or run."""

import argparse
import collections
import os
import pathlib
import re
import shutil
import sys
import tempfile

sys.path[0] = str(pathlib.Path(__file__).resolve().parents[1])  # the folder tests/

from support.failing import Cases

SELF = pathlib.Path(__file__).resolve()
ROOT = next(folder for folder in SELF.parents if (folder / 'crates.txt').exists())
RULES, TABLE = 'docs/RULES.md', 'docs/RULES-CITED.md'
PLACES = ('crates', 'tests', 'docs', 'bin', 'tools', 'examples', 'include')
TEXTS = ('.antt', '.rt', '.edit', '.py', '.md', '.c', '.h', '.sh', '')
CASES = re.compile(r'(Cases|Example|Instances?)$|^(Sheet|Burst)$')
KINDS = ('definitions', 'code', 'cases', 'edits', 'tests')

NUMBER = r'\d+\.\d+(?!\.?\d)'
RULE = re.compile(r'^(?:- |\| )\*\*(%s)\*\*' % NUMBER, re.M)
LIST = re.compile(r'\b([Rr]ules?) (%s(?:(?:, and |, | and | to )%s)*)' % (NUMBER, NUMBER))
OTHER_FORM = re.compile(r'\b[Rr]ules? %s ?[-–/&] ?\d' % NUMBER)
BREAK = re.compile(r'\n[ \t]*(?:--|//|#|\*)?[ \t]*')
ROW = re.compile(r'^\| `([^`]+)` \|(.*)$', re.M)

HOLES = 'tests/checks/rules-holes.txt'
ABOUT = ('making', 'mutants', 'independent', 'support')
PROVED = 'its case is proved, and `tests/meaning` tries changes of its definition'
RUN = 'its stored case is run'


class Wrong(Exception):
    """What is wrong."""


def order(number):
    """A rule's number as a key: 4.10 comes after 4.9."""
    return tuple(map(int, number.split('.')))


def rules_in(text):
    """The rules of the page in order; a number occurs once, under its section's heading, and no number of a section is left out."""
    found, section, last = [], None, {}
    for line in text.splitlines():
        heading = re.match(r'## (\d+) ', line)
        section = heading[1] if heading else section
        rule = RULE.match(line)
        if rule:
            number = rule[1]
            if number in found:
                raise Wrong('%s: rule %s occurs twice' % (RULES, number))
            if number.split('.')[0] != section:
                raise Wrong('%s: rule %s is in section %s' % (RULES, number, section))
            found.append(number)
    for number in found:
        last[order(number)[0]] = max(order(number)[1], last.get(order(number)[0], 0))
    for section, most in last.items():
        for at in range(1, most + 1):
            if '%d.%d' % (section, at) not in found:
                raise Wrong('%s: rule %d.%d is left out: a rule that no longer holds stays, as retired' % (RULES, section, at))
    if not found:
        raise Wrong('%s: no rule is found' % RULES)
    return sorted(found, key=order)


def spread(numbers):
    """The numbers of one citation, each `to` spread out; and those that a `to` gave."""
    found, ranged = [], []
    for part in re.split(r', and |, | and ', numbers):
        first, *end = part.split(' to ')
        if len(end) > 1 or (end and (order(first)[0] != order(end[0])[0] or order(first) >= order(end[0]))):
            raise Wrong("'%s' is no range within a section" % part)
        section = order(first)[0]
        here = ['%d.%d' % (section, at) for at in range(order(first)[1], order(end[0] if end else first)[1] + 1)]
        found += here
        ranged += here if end else []
    return found, ranged


def cited_in(text):
    """The rules that a text cites, in its order, and those that it cites one by one."""
    joined, found, single = BREAK.sub(' ', text), [], set()
    other = OTHER_FORM.search(joined)
    if other:
        raise Wrong("'%s' is no citation: write 'rules 4.3 and 4.5' or 'rules 4.3 to 4.7'" % other[0])
    for match in LIST.finditer(joined):
        numbers, ranged = spread(match[2])
        if (match[1].lower() == 'rule') != (len(numbers) == 1):
            raise Wrong("'%s': 'rule' has one number, 'rules' several" % match[0])
        found += numbers
        single.update(set(numbers) - set(ranged))
    return found, single


def files(root):
    """The files that may cite a rule, but for this one, the table and what is made (target/, out/)."""
    tops = [path for path in sorted(root.iterdir()) if path.is_file()]
    for path in tops + [path for place in PLACES for path in sorted(inside(root / place))]:
        if path.is_file() and path.suffix in TEXTS and path.name != SELF.name and path.relative_to(root).as_posix() != TABLE:
            yield path


def inside(folder):
    """All files of a folder, but for what rt makes (crates/NAME/out)."""
    for at, folders, names in os.walk(folder):
        folders[:] = [name for name in folders if name != 'out']
        yield from (pathlib.Path(at) / name for name in names)


def sources(path, text):
    """Who cites in a file: kind, name in the table and the text, for each; a kind of None is not in the table."""
    parts = path.with_suffix('').parts if path.suffix in ('.antt', '.edit') else path.parts
    if parts[0] == 'crates' and len(parts) > 3:
        crate, folder, rest = parts[1], parts[2], '/'.join(parts[3:])
        if folder in ('specs', 'proofs') and CASES.search(path.stem):
            return [('cases', '%s/%s' % (crate, rest), text)]
        if folder in ('specs', 'src'):
            kind = {'specs': 'definitions', 'src': 'code'}[folder]
            return [(kind, '%s/%s' % (crate, rest), text)]
        if folder in ('must-fail', 'twins'):
            comment = '\n'.join(line for line in text.splitlines() if line.startswith('#'))
            return [('edits', '%s/%s' % (crate, rest), comment), (None, '', text)]
    if parts[0] == 'tests' and parts[-1] == 'README.md':
        rows = ROW.findall(text) if 'cases' in parts else []
        return [('cases', name, row) for name, row in rows] + [(None, '', text)]
    return [('tests' if parts[0] == 'tests' else None, '/'.join(parts), text)]


def citations(root, rules):
    """For each kind and rule who cites it, and how many citations there are; a citation of no rule is wrong."""
    found, count = {kind: collections.defaultdict(set) for kind in (*KINDS, 'about')}, 0
    for path in files(root):
        try:
            text = path.read_text(encoding='utf-8')
        except UnicodeDecodeError:
            continue
        at = path.relative_to(root)
        for kind, name, part in sources(at, text):
            try:
                numbers, single = cited_in(part)
            except Wrong as wrong:
                raise Wrong('%s: %s' % (at, wrong)) from None
            for number in numbers:
                if number not in rules:
                    raise Wrong('%s cites rule %s, and %s has no such rule' % (at, number, RULES))
                if kind:
                    about = kind == 'tests' and at.parts[1] in ABOUT and number not in single
                    found['about' if about else kind][number].add(name)
                    count += 1
    return found, count


def holes(found, rules):
    """The rules without a definition or code, without a case, and without an edit or a test."""
    return {name: [rule for rule in rules if not any(found[kind][rule] for kind in kinds)]
            for name, kinds in (('definition', ('definitions', 'code')), ('case', ('cases',)), ('test', ('edits', 'tests')))}


def reasons(root, rules):
    """The lines of rules-holes.txt in their order: the rules, the kind and the reason."""
    found, file = [], root / HOLES
    for line in file.read_text(encoding='utf-8').splitlines() if file.exists() else []:
        if line.strip() and not line.startswith('#'):
            which, kind, reason, *more = [part.strip() for part in line.split(' | ')] + [''] * 3
            if more[0] or not reason or kind not in ('definition', 'case', 'test'):
                raise Wrong("%s: '%s' is not of the form 'RULES | definition, case or test | reason'" % (HOLES, line))
            try:
                named = [rule for rule in rules if rule.split('.')[0] == which] if which.isdigit() else spread(which)[0]
            except (Wrong, ValueError):
                named = []
            if not named or not set(named) <= set(rules):
                raise Wrong('%s: no rules are %s' % (HOLES, which))
            found.append((set(named), kind, reason))
    return found


def reason_of(rule, kind, told):
    """The reason of a hole: that of the line that names the fewest rules."""
    fitting = [(len(named), reason) for named, its, reason in told if its == kind and rule in named]
    return min(fitting, key=lambda pair: pair[0])[1] if fitting else None


def reasoned(found, rules, told):
    """For each kind the reason of each hole; a hole without one is wrong."""
    why = {kind: {rule: reason_of(rule, kind, told) for rule in missing} for kind, missing in holes(found, rules).items()}
    for rule, reason in why['test'].items():
        if (reason or 'open').startswith('open') and found['cases'][rule]:
            why['test'][rule] = PROVED if any('/' in name for name in found['cases'][rule]) else RUN
    bare = ['%s (%s)' % (rule, kind) for kind in why for rule, reason in why[kind].items() if reason is None]
    if bare:
        raise Wrong('holes without a reason in %s: %s' % (HOLES, ', '.join(bare)))
    return why


def table(found, rules, told):
    """The text of the table."""
    why = reasoned(found, rules, told)
    numbers = {}
    for kind in why:
        for reason in why[kind].values():
            numbers.setdefault(reason, len(numbers) + 1)
    lines = ['# Who cites which rule', '',
             'Written by `tests/checks/rules_cited.py --write` from the comments, and checked by the same script. The rules are in',
             '[RULES.md](RULES.md). Definitions are files of `specs/`, code files of `src/`, cases worked files (`crate/File`) or',
             'stored cases (a name of `tests/cases`), edits `crate/NAME` of `must-fail/`. **none** is a hole: nothing of that kind',
             'cites the rule. The number behind it is the reason, below; those that begin with *open* should be filled. A test in',
             'brackets is about a range of rules, this one among them, and does not count.', '',
             '| Section | Rules | no definition or code | open | no case | open | no edit or test | open |',
             '|---|---|---|---|---|---|---|---|']

    def counted(section):
        """The cells of a section, or of all."""
        for kind in why:
            its = [reason for rule, reason in why[kind].items() if section in (None, order(rule)[0])]
            yield from (len(its), sum(reason.startswith('open') for reason in its))

    for section in sorted({order(rule)[0] for rule in rules}):
        many = sum(order(rule)[0] == section for rule in rules)
        lines.append('| %d | %d | %s |' % (section, many, ' | '.join(map(str, counted(section)))))
    lines.append('| all | %d | %s |' % (len(rules), ' | '.join(map(str, counted(None)))))
    lines += [''] + ['%d. %s%s' % (number, reason[0].upper() + reason[1:], '' if reason.endswith('.') else '.')
                     for reason, number in numbers.items()]
    lines += ['', '| Rule | Definitions | Code | Cases | Edits | Tests |', '|---|---|---|---|---|---|']
    for rule in rules:
        cells = {kind: ', '.join('`%s`' % name for name in sorted(found[kind][rule])) for kind in KINDS}
        for kind, cell in (('definition', 'definitions'), ('case', 'cases'), ('test', 'edits')):
            if rule in why[kind]:
                cells[cell] = '**none** %d' % numbers[why[kind][rule]]
        cells['tests'] = ', '.join([cells['tests']] * bool(cells['tests']) + ['(`%s`)' % name for name in sorted(found['about'][rule])])
        lines.append('| %s | %s |' % (rule, ' | '.join(cells[kind] for kind in KINDS)))
    return '\n'.join(lines) + '\n'


def as_written(root, text):
    """The table in the tree is this one."""
    path = root / TABLE
    if not path.exists() or path.read_text(encoding='utf-8') != text:
        raise Wrong('%s is stale: python3 %s --write' % (TABLE, SELF.relative_to(ROOT)))


def check(root):
    """The rules, the citations and the table, a line for each."""
    rules = rules_in((root / RULES).read_text(encoding='utf-8'))
    yield '%d rules, each number once' % len(rules)
    found, count = citations(root, set(rules))
    yield '%d citations, each of a rule' % count
    why = reasoned(found, rules, reasons(root, rules))
    yield 'each hole has a reason; open are %s' % ', '.join('%d of %d without a %s' % (
        sum(reason.startswith('open') for reason in why[kind].values()), len(why[kind]), kind) for kind in why)
    as_written(root, table(found, rules, reasons(root, rules)))
    yield '%s is not stale' % TABLE


def write(root):
    """Writes the table."""
    rules = rules_in((root / RULES).read_text(encoding='utf-8'))
    (root / TABLE).write_text(table(citations(root, set(rules))[0], rules, reasons(root, rules)), encoding='utf-8')


def run(root):
    """All checks; ends with status 1 at the first that is wrong."""
    passed = 0
    try:
        for said in check(root):
            print('ok %s' % said, flush=True)
            passed += 1
    except Wrong as wrong:
        print('wrong: %s' % wrong)
        print('%d passed, 1 failed' % passed)
        sys.exit(1)
    print('%d passed, 0 failed' % passed)


SAMPLE = {
    'crates.txt': 'a:\n',
    'docs/RULES.md': '# The rules\n\n## 1 One\n\n- **1.1** A.\n- **1.2** B.\n\n## 2 Two\n\n| Rule | |\n|---|---|\n'
                     '| **2.1** | C |\n| **2.2** | D |\n| **2.3** | E |\n',
    'crates/a/specs/A.antt': '-- rule 1.1 and so on: rules 2.1 to 2.3\n',
    'crates/a/specs/Cases.antt': '-- rules 1.1,\n-- 1.2 and 2.1\n',
    'crates/a/src/lib.rt': '// Rule 2.2.\n',
    'crates/a/must-fail/b.edit': '# rule 1.2 is not held\nfile: specs/A.antt\nold: -- rule 2.3\nnew: --\n',
    'tests/c.py': '"""It tests rule 2.1."""\n',
    'tests/making/d.py': '"""About rules 2.1 to 2.3 and 1.1."""\n',
    HOLES: '# why\n1.2 | definition | it is a case\n2 | definition | it is new\n2 | case | open: none is written\n'
           '2.3 | case | no case can show it\n2 | test | scripts\n'
           '2.1 | test | open: none is named for it\n',
    'tests/cases/README.md': '| case | |\n|---|---|\n| `one` | rule 1.1 |\n',
}


def self_test():
    """Each thing that is checked fails in a small tree, and what is said; the tree itself passes."""
    test = Cases('rules_cited.py')
    with tempfile.TemporaryDirectory() as folder:
        root = pathlib.Path(folder) / 'tree'

        def made(changes=(), table_too=True):
            """The tree with changes: a file, what is altered, its replacement."""
            shutil.rmtree(root, ignore_errors=True)
            for name, text in SAMPLE.items():
                for changed, old, new in changes:
                    if changed == name:
                        assert text.count(old) == 1, (name, old)
                        text = text.replace(old, new)
                (root / name).parent.mkdir(parents=True, exist_ok=True)
                (root / name).write_text(text, encoding='utf-8')
            if table_too:
                write(root)
            return root

        test.passes('the tree as it should be', run, made())
        written = (root / TABLE).read_text(encoding='utf-8')
        test.says('the counts', 'open are 0 of 1 without a definition, 1 of 2 without a case, 0 of 2 without a test', list(check(root))[2])
        for words in ('| 1.1 | `a/A` |  | `a/Cases`, `one` |  | `tests/making/d.py` |', '| 1.2 | **none** 1 |  | `a/Cases` | `a/b` |  |',
                      '| 2.1 | `a/A` |  | `a/Cases` |  | `tests/c.py`, (`tests/making/d.py`) |',
                      '| 2.2 | `a/A` | `a/lib.rt` | **none** 2 | **none** 4 | (`tests/making/d.py`) |',
                      '| 2.3 | `a/A` |  | **none** 3 | **none** 4 | (`tests/making/d.py`) |', '| all | 5 | 1 | 0 | 2 | 1 | 2 | 0 |',
                      '1. It is a case.', '2. Open: none is written.', '3. No case can show it.'):
            test.says('the table', words, written)
        for name, words, *change in (
                ('a rule twice', 'rule 1.1 occurs twice', 'docs/RULES.md', '**1.2**', '**1.1**'),
                ('a rule in another section', 'rule 1.2 is in section 2', 'docs/RULES.md',
                 '- **1.2** B.\n\n## 2 Two\n', '\n## 2 Two\n\n- **1.2** B.\n'),
                ('no rule', 'no rule is found', 'docs/RULES.md', SAMPLE['docs/RULES.md'], '# The rules\n'),
                ('a rule left out', 'rule 2.2 is left out', 'docs/RULES.md', '| **2.2** | D |\n', '')):
            test.fails(name, words, run, made([change], False))
        for name, words, *change in (
                ('a definition', 'crates/a/specs/A.antt cites rule 1.9, and docs/RULES.md has no such rule',
                 'crates/a/specs/A.antt', '1.1 ', '1.9 '),
                ('a case', 'crates/a/specs/Cases.antt cites rule 2.9', 'crates/a/specs/Cases.antt', '2.1', '2.9'),
                ('a stored case', 'tests/cases/README.md cites rule 1.4', 'tests/cases/README.md', '1.1', '1.4'),
                ('code', 'crates/a/src/lib.rt cites rule 3.1', 'crates/a/src/lib.rt', '2.2', '3.1'),
                ('an edit', 'crates/a/must-fail/b.edit cites rule 1.3', 'crates/a/must-fail/b.edit', '1.2', '1.3'),
                ('what an edit alters', 'crates/a/must-fail/b.edit cites rule 2.4', 'crates/a/must-fail/b.edit', '2.3', '2.4'),
                ('a test', 'tests/c.py cites rule 2.5', 'tests/c.py', '2.1', '2.5'),
                ('the end of a range', 'cites rule 2.4', 'crates/a/specs/A.antt', 'to 2.3', 'to 2.4'),
                ('a range over sections', "'1.2 to 2.3' is no range", 'crates/a/specs/A.antt', '2.1 to', '1.2 to'),
                ('a range backwards', "'2.3 to 2.1' is no range", 'crates/a/specs/A.antt', '2.1 to 2.3', '2.3 to 2.1'),
                ('another form', "'rules 2.1-2' is no citation", 'crates/a/specs/A.antt', '2.1 to 2.3', '2.1-2.3'),
                ('one number for several', "'rules 2.1': 'rule' has one number", 'crates/a/specs/A.antt', '2.1 to 2.3', '2.1'),
                ('several for one', "'Rule 2.2 and 2.3': 'rule' has one number", 'crates/a/src/lib.rt', '2.2', '2.2 and 2.3')):
            test.fails('a wrong citation, ' + name, words, lambda change=change: run(made([change], False)))
        made([('tests/c.py', 'rule 2.1', 'it')])
        test.says('a case and no test', '. ' + PROVED[0].upper() + PROVED[1:], (root / TABLE).read_text(encoding='utf-8'))
        made([('tests/c.py', 'rule 2.1', 'it'), ('crates/a/specs/Cases.antt', ' and 2.1', ''),
              ('tests/cases/README.md', 'rule 1.1', 'rule 2.1'), ('crates/a/specs/Cases.antt', 'rules 1.1,\n-- 1.2', 'rules 1.1 and 1.2')])
        test.says('a stored case and no test', '. ' + RUN[0].upper() + RUN[1:], (root / TABLE).read_text(encoding='utf-8'))
        for name, words, old, new in (
                ('no reason', 'holes without a reason in tests/checks/rules-holes.txt: 1.2 (definition)',
                 '1.2 | definition | it is a case\n', ''),
                ('a reason of another kind', 'is not of the form', '2 | test', '2 | tests'),
                ('a line without a reason', 'is not of the form', 'it is a case', ''),
                ('a reason for no section', 'no rules are 3', '2 | test', '3 | test'),
                ('a reason for no rule', 'no rules are 1.9', '1.2 |', '1.9 |')):
            test.fails('a hole, ' + name, words, lambda change=(HOLES, old, new): run(made([change], False)))
        test.fails('no table', 'docs/RULES-CITED.md is stale', run, made(table_too=False))
        for name, file, old, new in (('a citation more', 'crates/a/src/lib.rt', '2.2.', '2.2. Rule 1.1.'),
                                     ('a citation less', 'tests/c.py', 'rule 2.1', 'it'),
                                     ('a rule more', 'docs/RULES.md', '| **2.3** | E |\n', '| **2.3** | E |\n| **2.4** | F |\n')):
            made()
            text = (root / file).read_text(encoding='utf-8')
            (root / file).write_text(text.replace(old, new), encoding='utf-8')
            test.fails('a stale table, ' + name, '%s is stale: python3' % TABLE, run, root)
        made()
        (root / TABLE).write_text((root / TABLE).read_text(encoding='utf-8') + '\n', encoding='utf-8')
        test.fails('a table altered by hand', 'is stale', run, root)
    test.end()


def main():
    """Checks the citations; ends with status 1 if one is wrong."""
    parser = argparse.ArgumentParser(description=__doc__)
    parser.add_argument('--write', action='store_true', help='write the table')
    parser.add_argument('--self-test', action='store_true', help='check that what is wrong is reported')
    arguments = parser.parse_args()
    if arguments.self_test:
        self_test()
        return
    if arguments.write:
        try:
            write(ROOT)
        except Wrong as wrong:
            sys.exit('wrong: %s' % wrong)
    run(ROOT)


if __name__ == '__main__':
    main()

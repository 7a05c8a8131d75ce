#!/usr/bin/env python3
# check: after
# self-test: beside
# says: a must-fail edit is refused, but not for what its name says, or its twin is missing
# counts: edits read
"""What each must-fail edit is refused for, by the line that `rt ci` or `rt must-fail` writes of it (target/rt-ci.log). An edit must change
an answer and keep the shape. So its first error is no missing name or field, nothing that does not parse, and stands in no definition. If
it stands in a proof, and not in a case or claim, perhaps any other text there would be refused: then the edit has a twin,
CRATE/twins/NAME.twin, which has the form of an edit, changes the same place and means the same. edits-without-twin.txt lists the
edits that have none, each with the reason; a line that is not needed any more must go. As long as a line says that no twin is written
yet, what is wrong with its edit, and that the line is not needed, is only noted. --long tries the twins: each must be proved. --write
writes the list for the log as it is: it keeps the reasons, and where there is none it says so."""

import argparse
import pathlib
import re
import shutil
import sys
import tempfile

sys.path[0] = str(pathlib.Path(__file__).resolve().parents[1])  # the folder tests/

from support.failing import Cases
from support.places import TOP
from support.proving import FOLLOWS, Broken, Prover, copied, errors_in, part_of, place_for_a_copy

LIST, LOG = 'tests/checks/edits-without-twin.txt', 'target/rt-ci.log'
TRIED = re.compile(r'^rt: must-fail (\S+)\.edit: (?!NOT TRIED)(.*)$', re.M)
REFUSED = re.compile(r'refused, as it must be(?: \(only ([^:]*):[^)]*\))?(?:: (.*))?$')
NOT_YET = 'no twin is written yet'
HEAD = '# Edits whose first error is in a proof, and not in a case or claim, and that have no twin: CRATE/NAME | the reason.\n'
FAULTS = (('a name that is not there', re.compile(r'is not in scope')),
          ('a field that is missing or not there', re.compile(r'missing field\(s\) of|is not a field of|has no field')),
          ('a text that does not parse', re.compile(r'^(?!`|[^`]*: `)(?=.*(column|expected|unexpected|parse|bracket|indent))')))


class Wrong(Exception):
    """What is wrong."""


def edits_in(root, suffix='.edit'):
    """The files of that kind: crate, name and path."""
    folder = 'twins' if suffix == '.twin' else 'must-fail'
    return [(path.parts[-3], path.stem, path) for path in sorted(root.glob('crates/*/%s/*%s' % (folder, suffix)))]


def replacements(path):
    """The replacements of an edit or a twin: file, old text, new text."""
    found, file, old = [], None, None
    for line in path.read_text(encoding='utf-8').splitlines():
        word, _, rest = line.partition(':')
        if word == 'file':
            file = rest.strip()
        elif word == 'old':
            old = rest[1:] if rest.startswith(' ') else rest
        elif word == 'new' and old is not None:
            found.append((file, old, rest[1:] if rest.startswith(' ') else rest))
            old = None
    if not found:
        raise Wrong('%s: it has no old: and new:' % path.name)
    return found


def applied(path, folder):
    """Puts an edit or a twin into a crate's folder."""
    for file, old, new in replacements(path):
        text = (folder / file).read_text(encoding='utf-8')
        if text.count(old) != 1:
            raise Wrong('%s: its old text is in %s %d times' % (path.name, file, text.count(old)))
        (folder / file).write_text(text.replace(old, new), encoding='utf-8')


def reasons(root):
    """The list: for each edit without a twin the reason."""
    found, file = {}, root / LIST
    for line in file.read_text(encoding='utf-8').splitlines() if file.exists() else []:
        if line.strip() and not line.startswith('#'):
            name, mark, reason = line.partition(' | ')
            if not mark or not reason.strip():
                raise Wrong("%s: '%s' is not of the form 'CRATE/NAME | reason'" % (LIST, line))
            found[name.strip()] = reason.strip()
    return found


def told(root):
    """What the last line of the log on each edit says."""
    log = root / LOG
    return dict(TRIED.findall(log.read_text(encoding='utf-8', errors='replace') if log.exists() else ''))


def first_error(said, crate, name):
    """Where an edit is refused first, and what is said there, by what the log says of all."""
    name = '%s/%s' % (crate, name)
    if name not in said:
        raise Wrong('%s has no line in %s: rt must-fail %s >>%s writes it' % (name, LOG, crate, LOG))
    refused = REFUSED.match(said[name])
    if not refused:
        raise Wrong('%s is not refused: %s' % (name, said[name][:200]))
    if refused[1]:
        raise Wrong('%s is refused, but only %s: %s' % (name, refused[1], (refused[2] or '')[:200]))
    errors = errors_in(refused[2] or '')
    if not errors:
        raise Wrong('%s: its line has no error: %s' % (name, said[name][:200]))
    return errors[0]


def fault_of(crate, name, file, line, text):
    """What is wrong with an edit whatever stands beside it, or None."""
    for fault, words in FAULTS:
        if words.search(text):
            return '%s/%s is refused for %s, and not for what it does: %s:%d: %s' % (crate, name, fault, file, line, text[:200])
    if part_of(file, text) == 'definition':
        return '%s/%s is refused in a definition, and not for what it does: %s:%d: %s' % (crate, name, file, line, text[:200])
    return None


def read(root):
    """For each edit the part where its first error is, and where; and what is wrong with edits whatever stands beside them, by name."""
    found, wrong, said = {}, {}, told(root)
    for crate, name, _ in edits_in(root):
        try:
            file, line, text = first_error(said, crate, name)
        except Wrong as missing:
            wrong['%s/%s' % (crate, name)] = str(missing)
            continue
        fault = fault_of(crate, name, file, line, text)
        if fault:
            wrong['%s/%s' % (crate, name)] = fault
        else:
            found['%s/%s' % (crate, name)] = part_of(file, text), '%s:%d' % (file, line)
    return found, wrong


def twins_in(root):
    """The names of the edits that have a twin."""
    return {'%s/%s' % (crate, name) for crate, name, _ in edits_in(root, '.twin')}


def check(root):
    """The edits, their twins and the list: a line for each edit, then all that is wrong."""
    (edits, faults), listed, twins = read(root), reasons(root), twins_in(root)
    for name in [name for name in faults if listed.get(name) == NOT_YET and 'has no line' not in faults[name]]:
        print('note: %s' % faults.pop(name))
    wrong = list(faults.values())
    there = {'%s/%s' % (crate, name) for crate, name, _ in edits_in(root)}
    wrong += ['%s.twin stands beside no edit' % twin for twin in sorted(twins - there)]
    for name, (part, where) in edits.items():
        if part == 'proof' and name not in twins and name not in listed:
            wrong.append('%s is refused first in a proof (%s): it needs a twin, or a line in %s' % (name, where, LIST))
        else:
            yield '%s is refused by a %s, %s%s' % (name, part, where, '; it has a twin' if name in twins else '')
    for name, reason in listed.items():
        why = 'there is no such edit' if name not in there else 'it has a twin' if name in twins else None
        if not why and name in edits and edits[name][0] != 'proof':
            why = 'a %s refuses it' % edits[name][0]
        if why and reason == NOT_YET:
            print('note: --write takes %s from %s: %s' % (name, LIST, why))
        elif why:
            wrong.append('%s needs no line in %s: %s' % (name, LIST, why))
    if wrong:
        raise Wrong('\nwrong: '.join(wrong))


def write(root):
    """Writes the list for the logs as they are."""
    edits, listed, twins = read(root)[0], reasons(root), twins_in(root)
    lines = ['%s | %s\n' % (name, listed.get(name, NOT_YET)) for name, (part, _) in edits.items() if part == 'proof' and name not in twins]
    (root / LIST).write_text(HEAD + ''.join(lines), encoding='utf-8')


def try_twins(root, crates):
    """Each twin must be proved; a line for each."""
    twins = [twin for twin in edits_in(root, '.twin') if not crates or twin[0] in crates]
    for crate in sorted({crate for crate, _, _ in twins}):
        folder = place_for_a_copy('twins.')
        try:
            copied(root, folder, [], [crate])
            prover = Prover(folder, crate)
            prover.save(crate)
            for _, name, path in (twin for twin in twins if twin[0] == crate):
                prover.fresh()
                applied(path, prover.place)
                status, said = prover.check()
                errors = errors_in(said)
                if status:
                    raise Wrong('%s/%s.twin means the same, and is not proved: %s' % (
                        crate, name, '%s:%d: %s' % errors[0] if errors else said[-300:]))
                yield '%s/%s.twin is proved' % (crate, name)
        except Broken as broken:
            raise Wrong(str(broken)) from None
        finally:
            shutil.rmtree(folder, ignore_errors=True)


def run(lines):
    """Prints a line for each; ends with status 1 at the first that is wrong."""
    passed = 0
    try:
        for said in lines:
            print('ok %s' % said, flush=True)
            passed += 1
    except Wrong as wrong:
        print('wrong: %s' % wrong)
        print('%d passed, 1 failed' % passed)
        sys.exit(1)
    print('%d passed, 0 failed' % passed)


SAMPLE = {
    'by_case': ': ./proofs/Cases.antt:3:1: error: `cases`: `refl` does not fit',
    'by_claim': ': ./proofs/Claims.antt:3:1: error: `claims`: two types differ',
    'by_proof': ': ./proofs/f/Answers.antt:3:1: error: `returns`: `search`: no proof of',
    'by_search': ': note: src/lib.rt:16:12: it is not proved that what the function ensures holds when it returns (`returns`)',
    'listed': ': ./proofs/Laws.antt:3:1: error: `law`: two types differ',
}


def self_test():
    """Each thing that is checked fails in a small tree, and what is said; the tree itself passes."""
    test = Cases('edits.py')
    with tempfile.TemporaryDirectory() as folder:
        root = pathlib.Path(folder) / 'tree'

        def made(logs=(), twins=('by_proof', 'by_search'), listed=('a/listed | it has no other form',)):
            """The tree, with other logs; a check of it."""
            shutil.rmtree(root, ignore_errors=True)
            lines = ['rt: a proved', 'rt: must-fail a/by_case.edit: refused, as it must be: an earlier line']
            for name, said in {**SAMPLE, **dict(logs)}.items():
                edit = root / 'crates/a/must-fail' / (name + '.edit')
                edit.parent.mkdir(parents=True, exist_ok=True)
                edit.write_text('# wrong\nfile: src/lib.rt\nold: 1\nnew: 2\n', encoding='utf-8')
                if said is None:
                    lines = [line for line in lines if name not in line]
                else:
                    lines.append('rt: must-fail a/%s.edit: %s%s' % (name, '' if 'EDIT' in said else 'refused, as it must be', said))
            (root / LOG).parent.mkdir(parents=True, exist_ok=True)
            (root / LOG).write_text('\n'.join(lines + ['rt: ok', '']), encoding='utf-8')
            for name in twins:
                twin = root / 'crates/a/twins' / (name + '.twin')
                twin.parent.mkdir(parents=True, exist_ok=True)
                twin.write_text('# right\nfile: src/lib.rt\nold: 1\nnew: 0 + 1\n', encoding='utf-8')
            (root / LIST).parent.mkdir(parents=True, exist_ok=True)
            (root / LIST).write_text(HEAD + ''.join(line + '\n' for line in listed), encoding='utf-8')
            return lambda: run(check(root))

        def another(log):
            """A check of the tree with another log of an edit."""
            return lambda: made([('by_case', log)])()

        test.passes('the tree as it should be', made())
        test.passes('a fault that waits with the others',
                    made([('by_case', ': specs/A.antt:3:1: error: `a`: no')],
                         listed=('a/listed | so', 'a/by_case | ' + NOT_YET)))
        test.passes('a line that waited for a twin', made(listed=('a/listed | so', 'a/by_proof | ' + NOT_YET)))
        for name, words, wrong in (
                ('a missing name', 'refused for a name that is not there',
                 another(': ./proofs/Cases.antt:3:1: error: `cases`: `x` is not in scope')),
                ('a missing field', 'refused for a field that is missing',
                 another(': ./proofs/Cases.antt:3:1: error: `cases`: missing field(s) of `Step`: handed')),
                ('another field', 'refused for a field',
                 another(': ./proofs/Cases.antt:3:1: error: `cases`: `y` is not a field of record `Step`')),
                ('what does not parse', 'refused for a text that does not parse',
                 another(': ./proofs/Cases.antt:3:1: error: this line starts at column 1, but the bracket is still open')),
                ('a definition', 'refused in a definition', another(': specs/A.antt:3:1: error: `a`: two types differ')),
                ('names that went', 'is refused, but only because a proof file names what the edit took away',
                 another(' (only because a proof file names what the edit took away, so this says little of the contract: change a value and'
                         ' keep the names): ./proofs/Laws.antt:3:1: error: `law`: `x` is not in scope')),
                ('a limit', 'is refused, but only by a limit of the prover',
                 another(' (only by a limit of the prover, which gave no verdict, so this says less of the contract: choose a change that it'
                         ' refuses sooner): ./proofs/Laws.antt:3:1: error: `law`: the steps')),
                ('a bad edit', 'by_case is not refused: BAD EDIT: it changes nothing', another('BAD EDIT: it changes nothing')),
                ('no line', 'by_case has no line', another(None)),
                ('a line without an error', 'its line has no error', another('')),
                ('a proof without a twin', 'a/by_proof is refused first in a proof (proofs/f/Answers.antt:3): it needs a twin',
                 lambda: made(twins=('by_search',))()),
                ('a twin without an edit', 'a/other.twin stands beside no edit', lambda: made(twins=('by_proof', 'by_search', 'other'))()),
                ('a line for what has a twin', 'a/listed needs no line', lambda: made(twins=('by_proof', 'by_search', 'listed'))()),
                ('a line for what a case refuses', 'a case refuses it',
                 lambda: made(listed=('a/listed | it has no other form', 'a/by_case | it has none'))()),
                ('a line for no edit', 'there is no such edit', lambda: made(listed=('a/listed | it has no other form', 'a/gone | so'))()),
                ('a line without a reason', "is not of the form 'CRATE/NAME | reason'", lambda: made(listed=('a/listed',))())):
            test.fails(name, words, wrong)
        made(twins=('by_proof',), listed=())
        write(root)
        test.says('the list written', 'a/by_search | %s\na/listed | %s\n' % (NOT_YET, NOT_YET), (root / LIST).read_text(encoding='utf-8'))
        twin = root / 'crates/a/twins/by_proof.twin'
        (root / 'src').mkdir()
        (root / 'src/lib.rt').write_text('a 1 b', encoding='utf-8')
        applied(twin, root)
        test.says('a twin in its place', 'a 0 + 1 b', (root / 'src/lib.rt').read_text(encoding='utf-8'))
        (root / 'src/lib.rt').write_text('1 1', encoding='utf-8')
        test.fails('a twin in two places', 'its old text is in src/lib.rt 2 times', applied, twin, root)
    test.end()


def main():
    """Reads the log, or tries the twins; ends with status 1 if something is wrong."""
    parser = argparse.ArgumentParser(description=__doc__)
    parser.add_argument('--long', nargs='*', metavar='CRATE', help='try the twins, of these crates or of all')
    parser.add_argument('--write', action='store_true', help='write the list of edits without a twin')
    parser.add_argument('--self-test', action='store_true', help='check that what is wrong is reported')
    arguments = parser.parse_args()
    if arguments.self_test:
        self_test()
        return
    if arguments.long is not None:
        run(try_twins(TOP, arguments.long))
        return
    if arguments.write:
        try:
            write(TOP)
        except Wrong as wrong:
            sys.exit('wrong: %s' % wrong)
    run(check(TOP))


if __name__ == '__main__':
    main()

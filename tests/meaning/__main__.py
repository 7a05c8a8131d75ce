#!/usr/bin/env python3
"""meaning [--crate NAME ..] [--sample N [--seed S]] [--list] [--kept] [--at FOLDER] [--results FILE] | --self-test

Are the definitions held down by cases and claims? Each definition of the crates of meaning is changed one token at a time: a number by
one, a comparison by its neighbour, two rows of a table exchanged, a branch negated, an argument, field or name replaced by its
neighbour of the same type. Each wrong definition is given to the prover, in a copy of the project. It is refused by a case (a literal
example), by a claim, by a proof alone, or it survives. A survivor is a mistake that definition and code could share without any claim
noticing: it needs a case, or a line with its reason in survivors/CRATE.txt."""

import argparse
import collections
import hashlib
import pathlib
import random
import re
import shutil
import sys
import time

sys.path[:1] = [str(folder) for folder in pathlib.Path(__file__).resolve().parents[:2]]  # the folders tests/meaning/ and tests/

import changes
import trying
from support.proving import CASES, CLAIMS, Broken, below, copied, listed, place_for_a_copy

HERE = pathlib.Path(__file__).resolve().parent
ROOT = HERE.parents[1]
CRATES = ('datagram_sizes octets length format datagram packet session session_held solve_algebra solve sender sender_to_modem frame line'
          ' image trace_replay trace_compare host_answers').split()
WORDS = ('case', 'claim', 'proof', 'survived', 'undecided')


def meaning_files(crate):
    """The files of a crate's definitions."""
    for file in sorted((ROOT / 'crates' / crate / 'specs').glob('**/*.antt')):
        text = file.read_text(encoding='utf-8')
        head = ' '.join(line[2:].strip() for line in text.splitlines()[:8] if line.startswith('--'))
        if file.stem != 'Lib' and not CASES.search(file.stem) and not CLAIMS.search(file.stem) and 'Statements only' not in head:
            yield file, text


def module_text(module):
    """The text of a module of the project's specs/, or None."""
    found = re.match(r'Rattle\.(\w+)\.specs\.([\w.]+)$', module)
    file = ROOT / 'crates' / found[1] / 'specs' / (found[2].replace('.', '/') + '.antt') if found else None
    return file.read_text(encoding='utf-8') if file and file.is_file() else None


def mutants_of(crate):
    """All wrong definitions of a crate."""
    next_field = changes.records([file.read_text(encoding='utf-8') for file in (ROOT / 'crates' / crate / 'specs').glob('**/*.antt')])
    return [mutant for file, text in meaning_files(crate)
            for mutant in changes.mutants(file.relative_to(ROOT / 'crates' / crate).as_posix(), text, next_field, module_text)]


def line_of(mutant):
    """A wrong definition as a line of survivors/."""
    return '%s: %s  =>  %s' % (mutant.file, mutant.old, mutant.new)


def reasons(crate):
    """The survivors that have a reason, each with it."""
    file, found = HERE / 'survivors' / (crate + '.txt'), {}
    for number, line in enumerate(file.read_text(encoding='utf-8').splitlines() if file.exists() else [], 1):
        if line.strip() and not line.startswith('#'):
            text, mark, reason = line.rpartition(' | ')
            if not mark or not reason.strip() or '  =>  ' not in text:
                raise Broken("%s:%d: not of the form 'specs/FILE: OLD  =>  NEW | reason'" % (file.relative_to(ROOT), number))
            found[' '.join(text.split())] = reason.strip()
    return found


def texts_of(crate, needs):
    """A number for all that the verdict on a crate rests on: its files, and those of the crates below it."""
    told = hashlib.sha256()
    names = below(needs, crate).union(*(below(needs, name) for name in trying.STATED_BY.get(crate, ())))
    for name in sorted(names):
        for part in ('src', 'specs', 'proofs'):
            for file in sorted((ROOT / 'crates' / name / part).rglob('*')):
                if file.is_file():
                    told.update(file.relative_to(ROOT).as_posix().encode() + b'\0' + file.read_bytes() + b'\0')
    return told.hexdigest()[:16]


class Results:
    """The results so far, a line for each: crate, number of the texts, number of the change, word, where, seconds, the change."""

    def __init__(self, file):
        self.file, self.known, self.earlier = file, {}, {}
        file.parent.mkdir(parents=True, exist_ok=True)
        for line in file.read_text(encoding='utf-8').splitlines() if file.exists() else []:
            crate, texts, change, word, where, *_ = line.split('\t')
            self.known[crate, texts, change] = word, where
            self.earlier[crate, change] = word, where

    def add(self, crate, texts, change, word, where, seconds, mutant):
        """One more result."""
        self.known[crate, texts, change] = word, where
        with self.file.open('a', encoding='utf-8') as out:
            out.write('\t'.join((crate, texts, change, word, where.replace('\t', ' '), '%.1f' % seconds, line_of(mutant))) + '\n')


def number_of(mutant):
    """A number for a change: the same as long as its file's lines and the change are the same."""
    return hashlib.sha256((line_of(mutant) + '\0' + mutant.text).encode()).hexdigest()[:16]


def try_crate(crate, mutants, given, results, copy):
    """Tries the changes of one crate; how many of each kind there are, and the survivors without a reason."""
    texts, known_reasons = texts_of(crate, listed(ROOT)), reasons(crate)
    score, bare, used, trier = collections.Counter(), [], set(), None
    for at, mutant in enumerate(mutants, 1):
        change, began = number_of(mutant), time.time()
        result = results.known.get((crate, texts, change))
        if not result and given.kept and results.earlier.get((crate, change), ('',))[0] in ('case', 'no definition'):
            result = results.earlier[crate, change]
        if not result:
            trier = trier or trying.Trier(copy(), crate)
            result = trier.tried(mutant)
            results.add(crate, texts, change, *result, time.time() - began, mutant)
            print('%s %d/%d %s %s: %s:%d: %s  =>  %s' % (
                crate, at, len(mutants), *result, mutant.file, mutant.line, mutant.old, mutant.new), file=sys.stderr, flush=True)
        score[result[0]] += 1
        if result[0] in ('survived', 'undecided'):
            if ' '.join(line_of(mutant).split()) in known_reasons:
                score['with a reason'] += 1
                used.add(' '.join(line_of(mutant).split()))
            else:
                bare.append(mutant)
    for line in sorted(set(known_reasons) - used) if not given.sample else ():
        print('note: survivors/%s.txt names what does not survive: %s' % (crate, line))
    return score, bare


def report(rows):
    """The table, as docs/PROOFS.md has it."""
    print('| Crate | Files | Mutants | Refused by a case | by a claim | by a proof alone | Survive with a reason | without |')
    print('|---|---|---|---|---|---|---|---|')
    total = collections.Counter()
    for crate, files, score in rows + [('all', None, total)]:
        if crate != 'all':
            score['files'] = files
            total.update(score)
        lone = score['survived'] + score['undecided'] - score['with a reason']
        print('| %s | %d | %d | %d | %d | %d | %d | %d |' % (
            '`%s`' % crate if crate != 'all' else crate, score['files'], sum(score[word] for word in WORDS), score['case'], score['claim'],
            score['proof'], score['with a reason'], lone))
    print('%d changes were no definitions: they had no type' % total['no definition'])


def main():
    """Tries the changes; ends with status 1 if a survivor has no reason."""
    ask = argparse.ArgumentParser(prog='python3 tests/meaning', description=__doc__, formatter_class=argparse.RawDescriptionHelpFormatter)
    ask.add_argument('--crate', nargs='+', default=CRATES, metavar='NAME', help='these crates alone')
    ask.add_argument('--sample', type=int, default=0, metavar='N', help='at most N changes of a crate, chosen by the seed')
    ask.add_argument('--seed', type=int, default=1)
    ask.add_argument('--list', action='store_true', help='list the changes and try none')
    ask.add_argument('--kept', action='store_true', help='take a change that a case refused on an earlier text of the crate as refused')
    ask.add_argument('--at', type=pathlib.Path, metavar='FOLDER', help='where the copy is made, and stays; else a temporary folder')
    ask.add_argument('--results', type=pathlib.Path, default=ROOT / 'target/meaning.tsv', metavar='FILE', help='where results are kept')
    ask.add_argument('--self-test', action='store_true', help='show the changes of a small file')
    given = ask.parse_args()
    if given.self_test:
        import self_test
        self_test.main()
        return
    unknown = [name for name in given.crate if not (ROOT / 'crates' / name).is_dir()]
    if unknown:
        ask.error('no crate %s' % ', '.join(unknown))
    made = []

    def copy():
        """The copy of the project, made when it is first needed."""
        if not made:
            at = given.at or place_for_a_copy('meaning.')
            made.append(at.resolve())
            print('meaning: a copy is made at %s' % at, file=sys.stderr, flush=True)
            copied(ROOT, made[0], set(given.crate).union(*(trying.STATED_BY.get(name, ()) for name in given.crate)))
        return made[0]

    rows, lone, results = [], [], Results(given.results)
    try:
        for crate in given.crate:
            mutants = mutants_of(crate)
            if given.sample and len(mutants) > given.sample:
                chosen = random.Random('%d %s' % (given.seed, crate)).sample(range(len(mutants)), given.sample)
                mutants = [mutants[at] for at in sorted(chosen)]
            if given.list:
                for mutant in mutants:
                    print('%s/%s:%d: %s: %s  =>  %s' % (crate, mutant.file, mutant.line, mutant.kind, mutant.old, mutant.new))
                continue
            score, bare = try_crate(crate, mutants, given, results, copy)
            rows.append((crate, len(list(meaning_files(crate))), score))
            lone += [(crate, mutant) for mutant in bare]
    except Broken as broken:
        sys.exit('meaning: %s' % broken)
    finally:
        if made and not given.at:
            shutil.rmtree(made[0], ignore_errors=True)
    if given.list:
        return
    for crate, mutant in lone:
        print('survives without a reason: %s/%s' % (crate, line_of(mutant)))
    report(rows)
    sys.exit(1 if lone else 0)


if __name__ == '__main__':
    main()

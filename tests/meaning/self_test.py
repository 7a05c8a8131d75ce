"""Cases of the tool: the changes of a small file, and how the prover's answers are read."""

import changes
import trying
from support.failing import Cases
from support.proving import FOLLOWS

FILE = """-- A sample. Definitions only.
use Rattle.std.specs.Prelude.{Bool, true, cond}
use Rattle.length.specs.Refusals.{early, late, at}
use Rattle.length.specs.Other as other

pub record Two : Type 0 where
  pub one : ℕ -- a field
  pub other : ℕ
  pub list : List ℕ

pub data State : Type 0 where
  open : State
  closed : State
  held : ℕ → State

-- the limit is 7
abbrev pub limit : ℕ
limit = 7

abbrev pub inside : ℕ → Bool → ℕ → Bool
inside n b m = cond (leb n m) true b

abbrev pub table : State → List ℕ
table open = 0x0F ∷ limit ∷ []
table closed = two.one + 1 ∷ []
table (held n) = n ∷ []

abbrev pub answer : State → ℕ
answer s = cond s early (other.one open)
"""
REFUSALS = 'abbrev pub early : ℕ\nearly = 1\n\nabbrev pub late : ℕ\nlate = 2\n\nabbrev pub at : ℕ → ℕ\nat n = n\n'

WANTED = """
limit = 7  =>  limit = 8
limit = 7  =>  limit = 6
inside n b m = cond (leb n m) true b  =>  inside n b m = cond (not (leb n m)) true b
inside n b m = cond (leb n m) true b  =>  inside n b m = cond (ltb n m) true b
inside n b m = cond (leb n m) true b  =>  inside n b m = cond (leb n m) false b
inside n b m = cond (leb n m) true b  =>  inside n b m = cond (leb m m) true b
inside n b m = cond (leb n m) true b  =>  inside n b m = cond (leb n n) true b
table open = 0x0F ∷ limit ∷ []  =>  table open = 0x10 ∷ limit ∷ []
table open = 0x0F ∷ limit ∷ []  =>  table open = 0x0E ∷ limit ∷ []
table open = 0x0F ∷ limit ∷ []  =>  table open = limit ∷ 0x0F ∷ []
table closed = two.one + 1 ∷ []  =>  table closed = two.one + 2 ∷ []
table closed = two.one + 1 ∷ []  =>  table closed = two.one + 0 ∷ []
table closed = two.one + 1 ∷ []  =>  table closed = two.one - 1 ∷ []
table closed = two.one + 1 ∷ []  =>  table closed = two.other + 1 ∷ []
table open = 0x0F ∷ limit ∷ [] // table closed = two.one + 1 ∷ []  =>  table open = two.one + 1 ∷ [] // table closed = 0x0F ∷ limit ∷ []
answer s = cond s early (other.one open)  =>  answer s = cond (not s) early (other.one open)
answer s = cond s early (other.one open)  =>  answer s = cond s late (other.one open)
answer s = cond s early (other.one open)  =>  answer s = cond s early (other.one closed)
"""

CASCADE = "/w/x/proofs/Cases.antt:4:1: error: `cases`: `law` %s\n" % FOLLOWS
ANSWERS = (
    ('proved', 0, 'logic=proved\n', 'survived'),
    ('a case', 1, '/w/x/proofs/Laws.antt:3:1: error: `law`: no\n/w/x/proofs/Cases.antt:4:1: error: `cases`: no\n'
                  'logic=not-proved\n', 'case'),
    ('a case in a file of claims', 1, '/w/x/proofs/Claims.antt:4:1: error: `cases`: no\nlogic=not-proved\n', 'case'),
    ('a claim', 1, '/w/x/proofs/Claims.antt:4:1: error: `claims`: no\nlogic=not-proved\n', 'claim'),
    ('a proof, and a case that rests on it', 1, '/w/x/proofs/Laws.antt:3:1: error: `law`: no\n%slogic=not-proved\n' % CASCADE, 'proof'),
    ('a definition without a type', 1, '/w/x/specs/A.antt:3:1: error: `a`: no\n/w/x/proofs/Cases.antt:4:1: error: `cases`: no\n'
                                       'logic=not-proved\n', 'no definition'),
    ('what does not parse', 1, '/w/x/specs/A.antt:3:1: error: no\n', 'no definition'),
    ('no verdict', 3, 'rattle: no verdict: the arena is full\n', 'undecided'),
)


def main():
    """All cases."""
    test = Cases('meaning')
    made = changes.mutants('specs/A.antt', FILE, changes.records([FILE]), lambda module: REFUSALS if module.endswith('Refusals') else None)
    found = ['%s  =>  %s' % (mutant.old, mutant.new) for mutant in made]
    wanted = WANTED.strip().splitlines()
    for line in wanted:
        test.case('it makes the change %s' % line, line in found, '; '.join(found))
    test.case('no other change', sorted(found) == sorted(wanted), '; '.join(set(found) - set(wanted)))
    for name, status, said, word in ANSWERS:
        test.case('it reads %s' % name, trying.judged(status, said)[0] == word, trying.judged(status, said)[0])
    test.end()

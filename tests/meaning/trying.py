"""Tries one wrong definition: whether the prover refuses the crate with it, and where."""

from support.proving import Broken, Prover, errors_in, part_of

# Where the cases of a crate are stated, beside its own: tried if the crate's own check does not refuse a change.
STATED_BY = {'octets': ('session', 'solve'), 'format': ('packet',), 'datagram_sizes': ('datagram', 'session'),
             'session_held': ('line', 'image'), 'solve_algebra': ('solve',)}


def judged(status, said):
    """What the prover's answer says of a change. A case or claim refuses it if it is rejected itself, first or not; one that only rests on
    what was rejected does not count."""
    if status == 0:
        return 'survived', ''
    lines = said.strip().splitlines() or ['']
    if status not in (1, 3):
        raise Broken(said[-3000:])
    if status == 1 and 'logic=not-proved' not in said:
        return 'no definition', lines[0][:200]
    found = [(part_of(file, text), '%s:%d' % (file, line)) for file, line, text in errors_in(said)]
    if found and found[0][0] == 'definition':
        return 'no definition', found[0][1]
    for part in ('case', 'claim', 'proof'):
        for its, where in found:
            if its == part:
                return part, where
    return ('undecided', lines[-1][:200]) if status == 3 else ('proof', lines[0][:200])


class Trier(Prover):
    """Tries the changes of one crate in a copy of the project."""

    def tried(self, mutant):
        """What becomes of a change: a word, and where it is refused."""
        file = self.place / mutant.file
        before = file.read_text(encoding='utf-8')
        self.save(self.crate)
        file.write_text(mutant.text, encoding='utf-8')
        try:
            word, where = judged(*self.check())
            for name in STATED_BY.get(self.crate, ()) if word == 'survived' else ():
                word, where = judged(*self.check(name, self.library()))
                if word != 'survived':
                    return word, '%s/%s' % (name, where)
            return word, where
        finally:
            file.write_text(before, encoding='utf-8')

"""Asks the prover about a changed crate, in a copy of the project: the checkout is never edited. rt builds the libraries there, over what
checks of the same crates in other folders kept, so that nothing is proved twice, and a check takes all that a change does not touch from an
incremental folder."""

import pathlib
import re
import shutil
import subprocess
import tempfile

CASES = re.compile(r'Cases$|^(Sheet|Example|Burst|Instances?)$')  # files of worked cases, as in checks/rules_cited.py
CLAIMS = re.compile(r'Claims$|^Sharp$')
ERROR = re.compile(r'^(?:\S*?/)?((?:src|specs|proofs)/\S+?):(\d+):\d+: error: (.*)$', re.M)
NOTE = re.compile(r'^note: (?:what antt said [^\n]*? )??(?:[^\s:]*?/)?((?:src|specs|proofs)/[^\s:]+):(\d+):\d+: ?(.*)$', re.M)
FOLLOWS = 'was not admitted (it has holes or undetermined implicits, or was rejected), so this cannot be checked'
LONGEST = 600  # seconds


class Broken(Exception):
    """The toolchain could not be asked."""


def toolchain():
    """The folder of the toolchain."""
    rt = shutil.which('rt')
    if not rt:
        raise Broken('no rt is found')
    return pathlib.Path(rt).resolve().parents[1]


def listed(root):
    """The crates of crates.txt, each with those it depends on."""
    found = {}
    for line in (root / 'crates.txt').read_text(encoding='utf-8').splitlines():
        name, mark, needs = line.split('#')[0].partition(':')
        if mark:
            found[name.split()[0]] = needs.split()
    return found


def below(needs, crate):
    """A crate and all of the project that it depends on."""
    found, left = set(), [crate]
    while left:
        name = left.pop()
        if name in needs and name not in found:
            found.add(name)
            left += needs[name]
    return found


def place_for_a_copy(prefix):
    """A new folder for a copy: in memory, if there is room."""
    room = shutil.disk_usage('/dev/shm').free if pathlib.Path('/dev/shm').is_dir() else 0
    return pathlib.Path(tempfile.mkdtemp(prefix=prefix, dir='/dev/shm' if room > 4 << 30 else None))


def copied(root, copy, crates, above=()):
    """Makes a copy of the crates and of what they depend on, and builds the libraries that the check of one of them reads. Of the crates
    `above` only what they depend on is built."""
    needs = listed(root)
    wanted = set().union(*(below(needs, crate) for crate in (*crates, *above)))
    copy.mkdir(parents=True, exist_ok=True)
    # for rt, it is the top of a repository
    (copy / '.git').mkdir(exist_ok=True)
    lines = (root / 'crates.txt').read_text(encoding='utf-8').splitlines()
    (copy / 'crates.txt').write_text(''.join(line + '\n' for line in lines if re.split('[ :]', line)[0] in wanted), encoding='utf-8')
    for name in wanted:
        place = copy / 'crates' / name
        for part in ('src', 'specs', 'proofs'):
            shutil.rmtree(place / part, ignore_errors=True)
            if (root / 'crates' / name / part).is_dir():
                shutil.copytree(root / 'crates' / name / part, place / part)
    for name in [name for name in needs if name in wanted - set(above)]:
        place = copy / 'crates' / name
        if (place / 'src/lib.rt').exists():
            said = subprocess.run(['rt', 'lib'], cwd=place, capture_output=True, text=True)
            if said.returncode:
                raise Broken('%s is not proved as it is: rt lib\n%s' % (name, (said.stdout + said.stderr)[-3000:]))


def words(top, needs, name, folder, others=()):
    """What every command of the toolchain on a crate takes that lies in this folder, over the libraries in crates/*/out of the folder `top`;
    `others` has another folder for some of them."""
    kit = toolchain()
    file = next(folder / 'src' / file for file in ('main.rt', 'lib.rt') if (folder / 'src' / file).exists())
    places = {need: top / 'crates' / need / 'out/rlib' for need in below(needs, name) - {name}}
    places.update(others)
    found = ['--crate-name', name, str(file), '--links', name + '=', '--extern', 'std=%s' % (kit / 'rlibs/std.rlib')]
    for need in needs[name]:
        found += ['--extern', '%s=%s' % (need, places.get(need, kit / 'rlibs') / (need + '.rlib'))]
    for place in [places[need] for need in sorted(places)] + [kit / 'rlibs']:
        found += ['-L', 'dependency=%s' % place]
    return found + ['--antt-project', str(kit / 'rattle/logic/antt-project.json'), '--logic-built', str(kit / 'logic_built')]


class Prover:
    """Checks one crate of a copy, changed in the folder `place`, and others over its changed library."""

    def __init__(self, copy, crate):
        self.copy, self.crate, self.needs = copy, crate, listed(copy)
        self.work = copy / 'work'
        shutil.rmtree(self.work, ignore_errors=True)
        self.place = self.work / crate
        self.saved = {}
        self.fresh()

    def fresh(self):
        """Puts the crate as it is into the folder `place`."""
        shutil.rmtree(self.place, ignore_errors=True)
        shutil.copytree(self.copy / 'crates' / self.crate, self.place, ignore=shutil.ignore_patterns('out'))

    def words(self, name, folder, other=None):
        """What every command on a crate takes; `other` is a folder with another library of the changed crate."""
        return words(self.copy, self.needs, name, folder, {self.crate: other} if other else {})

    def asked(self, verb, words):
        """The prover's status, and what it says."""
        try:
            said = subprocess.run([str(toolchain() / 'bin/rattle'), verb] + words, stdout=subprocess.PIPE, stderr=subprocess.STDOUT,
                                  text=True, errors='replace', timeout=LONGEST)
        except subprocess.TimeoutExpired:
            return 3, 'rattle: no verdict: it took more than %d s' % LONGEST
        return said.returncode, said.stdout

    def save(self, name):
        """Checks a crate as it is, and keeps what was checked."""
        if name not in self.saved:
            folder = self.copy / 'incremental' / name
            shutil.rmtree(folder, ignore_errors=True)
            folder.mkdir(parents=True)
            place = self.place if name == self.crate else self.copy / 'crates' / name
            status, said = self.asked('check', self.words(name, place) + ['--incremental', str(folder)])
            if status:
                raise Broken('%s is not proved as it is\n%s' % (name, said[-3000:]))
            self.saved[name] = folder
        return self.saved[name]

    def check(self, name=None, other=None):
        """Checks the changed crate, or another one over its changed library, and takes what did not change from what was kept."""
        folder = self.work / 'incremental'
        name = name or self.crate
        shutil.rmtree(folder, ignore_errors=True)
        shutil.copytree(self.save(name), folder)
        place = self.place if name == self.crate else self.copy / 'crates' / name
        return self.asked('check', self.words(name, place, other) + ['--incremental', str(folder)])

    def library(self):
        """A folder with the library of the changed crate."""
        folder = self.work / 'library'
        shutil.rmtree(folder, ignore_errors=True)
        folder.mkdir()
        status, said = self.asked('build', self.words(self.crate, self.place) + ['-o', str(folder / (self.crate + '.rlib'))])
        if status:
            raise Broken('%s has no library\n%s' % (self.crate, said[-3000:]))
        return folder


def errors_in(said):
    """What the prover rejects by itself, in its order: file, line and text; what only rests on that is left out."""
    found = [(file, int(line), text) for file, line, text in ERROR.findall(said) if FOLLOWS not in text]
    return found or [(file, int(line), text) for file, line, text in NOTE.findall(said)][:1]


def part_of(file, text):
    """Whether an error is in a case, a claim, a definition or a proof. In a file of claims what is called cases is cases."""
    stem, name = pathlib.PurePath(file).stem, re.match(r'`([^`]+)`', text)
    if CASES.search(stem) or (name and name[1].lower().endswith('cases')):
        return 'case'
    if CLAIMS.search(stem):
        return 'claim'
    return 'definition' if file.startswith('specs/') else 'proof'

"""The header and the library as a C programmer gets them (rules 24.13, 24.14 and 24.16): no warning, no variables, one version, the rules'
names, and what make installs. A part of checks/host.py."""

import os
import pathlib
import re
import subprocess
import tempfile

from support.c_tools import tools
from support.comparing import Failed
from support.places import TOP

VERSIONS = (('include/tubarexi.h', r'^#define TBX_VERSION "(.*)"$'), ('README.md', r'^Version ([0-9.]*[0-9])\b'),
            ('CHANGELOG.md', r'^## (.*)$'))
# A size of the header, and the constant of the library that it repeats: the crate's file, the struct, the constant.
SIZES = (('PACKET_LIMIT', 'datagram_sizes/src/lib.rt', 'Packet', 'LIMIT'),
         ('DATAGRAM_LIMIT', 'datagram_sizes/src/lib.rt', 'Datagram', 'LIMIT'),
         ('MESSAGES', 'datagram_sizes/src/lib.rt', 'Parity', 'MESSAGES'), ('FRAME_LIMIT', 'frame/src/lib.rt', 'Joiner', 'LIMIT'),
         ('FIELDS', 'packet/src/types.rt', 'Field', 'LIMIT'), ('HEARD', 'session_held/src/lib.rt', 'Session', 'HEARD'),
         ('NUMBERS', 'session_held/src/lib.rt', 'Session', 'LIMIT'), ('HISTORY', 'sender/src/lib.rt', 'Sender', 'HISTORY'))


# Calls over the header, and one with two arguments exchanged, which must not compile where warnings are errors.
CALL = ('#include "tubarexi.h"\nint made(uint8_t *, size_t *);\nint made(uint8_t *out, size_t *written)\n'
        '{ return tbx_packet_write(%s, 0, 0, 0, 0, 0, 0, out, 9, written); }\n')
LIBRARY_FILES = 'libtubarexi.a', 'log', 'made', 'new.a', 'proved', 'proved.a', 'proved.new', 'tubarexi.o'
RIGHT, EXCHANGED = 'TBX_EDITION_1998, TBX_DATA', 'TBX_DATA, TBX_EDITION_1998'


def header_compiles(header=TOP / 'include', call=CALL):
    """The header in C99, and in C++ 2011 where there is a compiler for it, without a warning; but not with arguments exchanged."""
    asked = [each for each in zip(tools('cc', 'c++'), ('c99', 'c++11'), ('c', 'c++')) if each[0]]
    for compiler, standard, language in asked:
        for arguments in (RIGHT, EXCHANGED):
            ran = subprocess.run([*compiler, '-std=' + standard, '-x', language, '-Wall', '-Wextra', '-Wpedantic', '-Werror', '-c',
                                  '-o', os.devnull, '-I', str(header), '-'], input=(call % arguments).encode(),
                                 stdout=subprocess.PIPE, stderr=subprocess.STDOUT)
            if ran.returncode and arguments == RIGHT:
                raise Failed('header: as %s it does not compile\n%s' % (standard, ran.stdout.decode()))
            if not ran.returncode and arguments == EXCHANGED:
                raise Failed('header: as %s it compiles with %s' % (standard, EXCHANGED))
    return ' and '.join(standard for _, standard, _ in asked)


def one_version(top=TOP):
    """Header, README and CHANGELOG name the same version."""
    named = [re.findall(pattern, (top / name).read_text(), re.MULTILINE)[:1] for name, pattern in VERSIONS]
    if not named[0] or any(each != named[0] for each in named):
        raise Failed('version: header, README and CHANGELOG name %s' % named)
    return named[0][0]


def rules_names():
    """Annex A's names, as explain has them: of indicators, of data kinds and of field types, each in the order of their numbers."""
    text = (TOP / 'crates/explain/src/names.rt').read_text()
    return {what: re.findall(r'^([\w-]+), ', found, re.M) for what, found in
            zip(('indicator', 'data', 'type'), re.findall(r'"(.*?)"', text, re.S)[-3:])}


def named(command):
    """The library's names of indicators, data kinds and field types are the rules', and each refusal has words of its own."""
    said = subprocess.run(command, shell=True, stdout=subprocess.PIPE).stdout.decode().splitlines()
    texts = {}
    for line in said:
        what, number, words = line.split(' ', 2)
        texts.setdefault(what, {})[int(number)] = words
    for what, names in rules_names().items():
        owed = dict(enumerate((*names, 'not assigned', 'not assigned')))
        if texts.get(what) != owed:
            raise Failed('names: of %s %s, and should be %s' % (what, texts.get(what), owed))
    refusals = texts.get('refusal', {})
    known = {number for number in range(1, 24) if number not in (11, 19)}
    none = {number for number, words in refusals.items() if words == 'no refusal'}
    if set(refusals) - none != known or len(set(refusals.values())) != len(known) + 1:
        raise Failed('names: of refusals %s' % refusals)
    return '%d names' % len(said)


def written():
    """When each file of the library was written, those of bin/build-host without arguments: other checks build programs beside them."""
    return {each.name: each.stat().st_mtime_ns for each in (TOP / 'target/host').iterdir() if each.name in LIBRARY_FILES}


def installed():
    """make installs the library, the header and a pkg-config file, where PREFIX, LIBDIR and DESTDIR say; uninstall leaves nothing. Once all
    is built, it needs no rt and writes nothing in the tree."""
    with tempfile.TemporaryDirectory() as directory:
        top = pathlib.Path(directory)
        settings = ['DESTDIR=' + directory, 'PREFIX=/of/this', 'LIBDIR=/of/this/lib64']
        path = ':'.join(place for place in os.environ['PATH'].split(':') if not (pathlib.Path(place) / 'rt').exists())
        before = written()
        files = ['of/this/include/tubarexi.h', 'of/this/lib64/libtubarexi.a', 'of/this/lib64/pkgconfig/tubarexi.pc']
        for asked, owed in (('install', files), ('uninstall', [])):
            ran = subprocess.run(['make', '-s', '-C', str(TOP), asked, *settings], stdout=subprocess.PIPE, stderr=subprocess.STDOUT,
                                 env={**os.environ, 'PATH': path})
            found = sorted(str(each.relative_to(top)) for each in top.rglob('*') if each.is_file())
            if ran.returncode or found != owed:
                raise Failed('make %s: %s; %s' % (asked, found, ran.stdout.decode()))
            if asked == 'install':
                text = (top / owed[2]).read_text()
                if 'libdir=/of/this/lib64\n' not in text or 'Version: %s\n' % one_version() not in text or '@' in text:
                    raise Failed('make install: tubarexi.pc is %s' % text)
        if before != written():
            raise Failed('make install: it wrote in target/host')
    return 'three files, and none after make uninstall'


def numbers_agree(header=TOP / 'include/tubarexi.h'):
    """The sizes, the refusals and the names of the header are the library's: nothing else ties a session's memory in C to the library's."""
    named = {name: int(value) for name, value in re.findall(r'\bTBX_(\w+) = ([0-9]+)\b', header.read_text())}
    constants = re.compile(r'pub const (\w+): \w+ = ([0-9]+);')

    def declared(file, struct):
        found = re.search(r'^impl %s \{(.*?)^\}' % struct, (TOP / 'crates' / file).read_text(), re.M | re.S)
        return {name: int(value) for name, value in constants.findall(found.group(1))}

    told = (TOP / 'crates/length/src/lib.rt').read_text()
    asked = {re.sub(r'\B([A-Z])', r'_\1', name).upper(): int(number) for name, number in re.findall(r'Reason::(\w+) => ([0-9]+),', told)}
    asked.update((name, declared(file, struct)[constant]) for name, file, struct, constant in SIZES)
    asked['KEPT'] = declared('session_held/src/lib.rt', 'Session')['BEFORE'] + asked['HEARD']
    asked.update((name.upper().replace('-', '_'), number) for names in rules_names().values() for number, name in enumerate(names))
    wrong = ['%s is %s, and %d in the library' % (name, named.get(name), value)
             for name, value in asked.items() if named.get(name) != value]
    if wrong:
        raise Failed('numbers: ' + '; '.join(wrong))
    return '%d sizes, refusals and names' % len(asked)


def library_is_plain(library=TOP / 'target/host/libtubarexi.a'):
    """The library has no variables, calls nothing of the C library but two that copy and clear, and has each call of the header."""
    ran = subprocess.run([*tools('nm')[0], str(library)], stdout=subprocess.PIPE, stderr=subprocess.PIPE)
    found = [line.split()[-2:] for line in ran.stdout.decode().splitlines() if re.search(' [A-Za-z] ', line)]
    own = {name for letter, name in found if letter == 'T'}
    odd = [' '.join(each) for each in found if each[0] in 'bBcCdDsS' or each[0] == 'U' and each[1] not in {'memcpy', 'memset', *own}]
    calls = re.findall(r'^(?:TBX_CALL )?[\w ]+[ *](tbx_\w+)\(', (TOP / 'include/tubarexi.h').read_text(), re.M)
    missing = [name for name in calls if name not in own and name not in ('tbx_octet', 'tbx_told')]
    if ran.returncode or odd or not found or missing:
        raise Failed('library: %s' % (odd or ran.stderr.decode() or 'it has no %s' % ' and no '.join(missing or ['functions'])))
    return '%d functions' % sum(each[0] == 'T' for each in found)

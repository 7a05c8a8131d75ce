#!/usr/bin/env python3
# check: beside
# says: ./receive, ./explain, ./replay, bin/run or bin/long does not do what its usage promises
"""The commands that prove and run a program (./receive, ./explain and ./replay all run bin/prove), with a stub in place of rt and of the
program; bin/run; and bin/long with wrong programs."""

import os
import pathlib
import shutil
import sys
import tempfile

sys.path[0] = str(pathlib.Path(__file__).resolve().parents[1])  # the folder tests/

from support.failing import Cases, altered
from support.places import BIN, TOP

RT = '''#!/bin/sh
case $1 in
version) echo "${RT_VERSION:-stub}" ;;
run)
    waited=0
    until [ -z "$RT_WAITS" ] || [ -s ../../errors ] || [ "$waited" = 300 ]; do sleep 1; waited=$((waited + 1)); done
    printf "$RT_SAYS" >&2
    mkdir -p out
    echo program >out/receive
    echo "what the program writes"
    exit "${RT_RUN:-0}"
    ;;
esac
'''
RUN = '''#!/bin/sh
echo "$* ran"
[ "$1" != explain ] || cat
'''
RUNS = 'rt: running out/%s; to give it other input, run that file yourself\\n'
SAME = 'rt: nothing has changed since the last proved build, by out/receive.stamp, so nothing is checked now\\n' + RUNS % 'receive'
BEGUN = 'receive: proving what it needs, 3 crates, some minutes the first time ..\n'
ANEW = ''.join('fn %s::f: proved\\ncrate %s: modules loaded=0 checked=3\\nlogic=proved functions=1\\n' % (name, name)
               for name in ('two', 'receive')) + RUNS % 'receive'
FAILED = 'fn one::f: not proved\nlogic=not-proved\nrt: the library one did not build, so nothing above it was checked\n'


def with_stubs(directory):
    """The scripts at the top in a folder of their own, with stubs in place of rt and bin/run; what to run them with."""
    for name, text in (('path/rt', RT), ('bin/run', RUN), ('toolchain', 'stub\n'), ('trace', '\n'),
                       ('crates.txt', 'one:\ntwo: one\nreceive: json two\nexplain: two\nreplay: one\n'),
                       *(('crates/%s/src/main.rt' % name, name) for name in ('one', 'two', 'receive', 'explain', 'replay'))):
        path = directory / name
        path.parent.mkdir(parents=True, exist_ok=True)
        path.write_text(text)
        path.chmod(0o755)
    for name in ('receive', 'explain', 'replay', 'bin/prove', 'bin/sum', 'bin/toolchain'):
        shutil.copy(TOP / name, directory / name)
    prove = (directory / 'bin/prove').read_text()
    (directory / 'bin/prove').write_text(prove.replace('quiet=3 ', 'quiet=${QUIET:-60} '))
    return {**os.environ, 'PATH': '%s:%s' % (directory / 'path', os.environ['PATH'])}


def of_prove(test, directory):
    """../receive runs what is proved alone, and asks rt only if something changed since; it says on standard error that it proves, and
    nothing if there is nothing to say. The arguments of ../explain are a packet (rule 19.10), and ../replay without a trace writes its usage
    (rule 21.10)."""
    top = pathlib.Path(directory)
    environment = with_stubs(top)
    usage = 'usage: ./' + (TOP / 'receive').read_text().splitlines()[1][2:] + '\n'

    def ends(name, status, written, command, **settings):
        """A command in the folder: its status, and what it writes, with what it says behind."""
        command += ' >out 2>errors; status=$?; echo [; cat out; echo ,; cat errors; echo ]; exit $status'
        test.ends(name, status, written, ['sh', '-c', command], cwd=directory, env={**environment, 'RT_SAYS': SAME, **settings})

    def anew(*given, **settings):
        """The same where no program was taken before."""
        shutil.rmtree(top / 'target', ignore_errors=True)
        ends(*given, **settings)

    wrong = FAILED.replace('\n', '\\n')
    anew('all proved', 0, '[\nreceive ran\n,\n]\n', './receive')
    ends('all proved, and nothing changed', 0, '[\nreceive ran\n,\n]\n', './receive', RT_SAYS=wrong, RT_RUN='3')
    each = BEGUN + 'receive: proved: two\nreceive: proved: receive\n'
    (top / 'crates/two/src/main.rt').write_text('another text')
    ends('two proved anew', 0, '[\nreceive ran\n,\n%s]\n' % each, './receive', RT_SAYS=ANEW)
    anew('a crate that takes long', 0, '[\nreceive ran\n,\n%s]\n' % BEGUN, './receive', QUIET='1', RT_WAITS='1')
    anew('not proved', 3, '[\n,\n%sreceive: NOT PROVED, so it is not run: rt run in crates/receive ended with status 3\n]\n' % FAILED,
         './receive', RT_SAYS=wrong, RT_RUN='3')
    anew('a program with a status', 0, '[\nreceive ran\n,\n]\n', './receive', RT_RUN='2')
    ends('another toolchain', 0, 'other\n]\n', './receive', RT_VERSION='other')
    ends('help', 0, '[\n%s,\n]\n' % usage, './receive --help')
    ends('an argument that is none', 2, '[\n,\n%s]\n' % usage, './receive TRACE')
    for name in ('explain', 'replay'):
        take = 'mkdir -p crates/{0}/out && echo program >crates/{0}/out/{0} && bin/prove --take "$(bin/sum {0})" {0}'.format(name)
        test.ends('%s taken' % name, 0, '', ['sh', '-c', take], cwd=directory, env=environment)
    ends('a packet as arguments', 0, '[\nexplain ran\nrepaired 06 00\n,\n]\n', './explain repaired 06 00')
    ends('a trace and numbers', 0, '[\nreplay %s/trace 2 0x5 ran\n,\n]\n' % directory, './replay trace 2 0x5')
    ends('no trace', 2, 'usage: ./replay TRACE NUMBER..', './replay')
    ends('a trace that is not there', 2, 'replay: nowhere: no file that can be read', './replay nowhere')


def of_run(test):
    """What cannot be run is said."""
    test.ends('no name', 2, 'run NAME [ARGUMENTS..]', [str(BIN / 'run')])
    test.ends('a name that is not built', 2, 'nowhere is not built', [str(BIN / 'run'), 'nowhere'])


def of_long(test):
    """A difference ends it with status 1, with the lines that are left."""
    for name, option, command, words in (('wrong calls', '--calls', altered('calls 14 9'), 'cut down to 1 lines:\n14\n'),
                                         ('a wrong program', '--program', altered('program 03 5'), 'cut down to 1 lines:\n\n')):
        test.ends(name, 1, words, [str(BIN / 'long'), '0', option, command, '--start', 'one'])


def main():
    """All cases."""
    test = Cases('')
    with tempfile.TemporaryDirectory() as directory:
        test.of_what = 'prove'
        of_prove(test, directory)
    for test.of_what, cases in (('run', of_run), ('long', of_long)):
        cases(test)
    test.end()


if __name__ == '__main__':
    main()

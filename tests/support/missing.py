"""Cases of another machine: each missing tool is named with its package, and so is a missing toolchain. A part of checks/host.py, for its
self-test."""

import pathlib
import shutil
import subprocess
import sys
import tempfile

from support.places import BIN, TESTS

COMPILER = '#!/bin/sh\ncase $1 in -dumpmachine) echo %s ;; -E) exit %d ;; esac\n'
UNAME = '#!/bin/sh\necho %s\n'
RT = '''#!/bin/sh
case $1 in
version) echo "$RT_VERSION"; exit "${RT_STATUS:-0}" ;;
lib) mkdir -p out && echo "$RT_VERSION" >out/libhost_c.a ;;
esac
'''
NEEDED = 'awk', 'cat', 'cp', 'cut', 'dirname', 'find', 'flock', 'grep', 'mkdir', 'mv', 'readlink', 'sed', 'sh', 'sha256sum', 'sort', 'xargs'


class Machine:
    """A machine in a folder: the commands that it has, and those alone."""

    def __init__(self, top, processor, **commands):
        self.path = pathlib.Path(tempfile.mkdtemp(dir=top))
        for name in NEEDED:
            (self.path / name).symlink_to(shutil.which(name))
        self.has(uname=UNAME % processor, **commands)
        self.environment = {'PATH': str(self.path)}

    def has(self, **commands):
        """Commands more, two low lines in a name for each hyphen; itself."""
        for name, text in commands.items():
            path = self.path / name.replace('__', '-')
            path.write_text(text)
            path.chmod(0o755)
        return self


def of_c_tools(test, top):
    """bin/c-tools names the tools for x86-64 on each processor, and what is missing."""
    ours, others = (COMPILER % ('%s-linux-gnu' % name, 0) for name in ('x86_64', 'aarch64'))
    cross = {'x86_64__linux__gnu__gcc': ours, 'x86_64__linux__gnu__nm': ''}
    intel = Machine(top, 'x86_64', gcc=ours, nm='')
    bare = Machine(top, 'x86_64')
    arm = Machine(top, 'aarch64', gcc=others, nm='', valgrind='', **{'g++': others})
    for name, machine, asked, status, words, *settings in (
            ('x86-64', intel, 'cc nm', 0, '/gcc\nnm\n'),
            ('x86-64, no clang and no C++', intel, 'clang c++ nm', 0, '/gcc\n\nnm\n'),
            ('x86-64, clang', Machine(top, 'x86_64', gcc=ours, clang=ours, **{'g++': ours}), 'clang', 0, '/clang\n'),
            ('x86-64, no compiler', bare, 'cc', 4, 'gcc is not here: in Debian the package gcc\n'),
            ('x86-64, no headers', Machine(top, 'x86_64', gcc=COMPILER % ('x86_64', 1)), 'cc', 4,
             'stdio.h is not here for gcc: in Debian the package libc6-dev\n'),
            ('x86-64, no nm', bare, 'nm', 4, 'nm is not here: in Debian the package binutils\n'),
            ('x86-64, no objdump', intel, 'objdump', 4, 'objdump is not here: in Debian the package binutils\n'),
            ('x86-64, no addr2line', intel, 'addr2line', 4, 'addr2line is not here: in Debian the package binutils\n'),
            ('x86-64, no valgrind', intel, 'valgrind', 4, 'valgrind is not here: in Debian the package valgrind\n'),
            ('x86-64, the packages', bare, '--packages', 0, 'gcc\nbinutils\nlibc6-dev\npython3\nmake\n'),
            ('Arm, no cross compiler', arm, 'cc', 4, 'x86_64-linux-gnu-gcc is not here: in Debian the package gcc-x86-64-linux-gnu\n'),
            ('Arm, no nm for x86-64', arm, 'nm', 4, 'x86_64-linux-gnu-nm is not here: in Debian the package binutils-x86-64-linux-gnu\n'),
            ('Arm, valgrind', arm, 'valgrind', 4, 'valgrind is not here: it counts x86-64 programs on x86-64 alone\n'),
            ('Arm, the packages', arm, '--packages', 0,
             'gcc-x86-64-linux-gnu\nbinutils-x86-64-linux-gnu\nlibc6-dev-amd64-cross\npython3\nmake\n'),
            ('Arm', Machine(top, 'aarch64', gcc=others, nm='', **{'g++': others}, **cross), 'cc c++ nm', 0,
             '/x86_64-linux-gnu-gcc\n\nx86_64-linux-gnu-nm\n'),
            ('Arm, the native compiler', arm, 'cc', 4, 'gcc builds for aarch64-linux-gnu, and the library is for x86-64\n', 'gcc'),
            ('a compiler that is not here', intel, 'cc', 4, 'CC names nowhere, which is not here\n', 'nowhere'),
            ('no such tool', intel, 'ld', 4, 'no tool is called ld\n')):
        environment = {**machine.environment, **dict(zip(['CC'], settings))}
        test.ends('c-tools, ' + name, status, words, [str(BIN / 'c-tools'), *asked.split()], env=environment)


def of_toolchain(test, top):
    """toolchain says nothing of a toolchain that is listed, warns of another, and ends with status 4 if there is none."""
    (top / 'bin').mkdir()
    shutil.copy(BIN / 'toolchain', top / 'bin/toolchain')
    (top / 'toolchain').write_text('one logic 1\ntwo logic 2\n')
    with_rt, command = Machine(top, 'x86_64', rt=RT), ['sh', '-c', 'said=$(bin/toolchain 2>&1); echo "$? [$said]"']
    for name, machine, status, words, settings in (
            ('the first', with_rt, 0, '', {'RT_VERSION': 'one logic 1'}), ('the second', with_rt, 0, '', {'RT_VERSION': 'two logic 2'}),
            ('another', with_rt, 0, 'this library was proved with one logic 1 and with two logic 2, this machine has one logic',
             {'RT_VERSION': 'one logic'}),
            ('one without a version', with_rt, 4, 'no Rattle toolchain is here: rt version ends with status 3', {'RT_STATUS': '3'}),
            ('none', Machine(top, 'x86_64'), 4, 'no Rattle toolchain is here: rt is not in PATH', {})):
        test.ends('toolchain, ' + name, 0, '%d [%s]\n' % (status, words), command, cwd=top, env={**machine.environment, **settings})


def of_scripts(test, top):
    """Without the toolchain nothing is called not proved: a library that is built is taken, everything else says what is missing."""
    without, with_rt = Machine(top, 'x86_64'), Machine(top, 'x86_64', rt=RT, gcc=COMPILER % ('x86_64', 0), ar='')
    none = 'no Rattle toolchain is here: rt is not in PATH\n'
    arm, started = Machine(top, 'aarch64'), [str(BIN / 'run'), str(BIN / 'run-host')]
    test.ends('run without rt', 2, 'run-host NAME', started, env=without.environment)
    test.ends('run without an emulator', 4, 'qemu-x86_64 is not here: in Debian the package qemu-user\n', started, env=arm.environment)
    test.ends('run under an emulator', 0, 'emulated %s\n' % started[1], started,
              env=arm.has(**{'qemu-x86_64': '#!/bin/sh\necho emulated "$@"\n'}).environment)
    test.ends('prove without rt', 4, 'receive: ' + none, [str(BIN / 'prove'), 'receive'], env=without.environment)
    test.ends('measure without valgrind', 4, 'valgrind is not here: in Debian the package valgrind\n',
              [sys.executable, str(TESTS / 'host/measure')], env=without.environment)
    for name in ('build-host', 'c-tools', 'sum'):
        shutil.copy(BIN / name, top / 'bin' / name)
    for name, text in (('crates.txt', 'one:\nhost_c staticlib: one\n'), ('crates/one/src/lib.rt', ''), ('crates/host_c/src/lib.rt', ''),
                       ('include/tubarexi.c', ''), ('include/tubarexi.h', '')):
        (top / name).parent.mkdir(parents=True, exist_ok=True)
        (top / name).write_text(text)
    command, needed = ['bin/build-host'], 'host: rt is not in PATH: the Rattle toolchain is needed to prove and build libtubarexi.a\n'
    test.ends('build, nothing there, without rt', 4, needed, command, cwd=top, env=without.environment)
    subprocess.run(command, cwd=top, env={**with_rt.environment, 'RT_VERSION': 'one'}, stderr=subprocess.DEVNULL)
    quiet = ['sh', '-c', 'said=$(bin/build-host 2>&1); echo "$? [$said]"; cat target/host/libtubarexi.a']
    test.ends('build, all there', 0, '0 []\none\n', quiet, cwd=top, env={**with_rt.environment, 'RT_VERSION': 'one'})
    test.ends('build, all there, without rt', 0, '0 []\none\n', quiet, cwd=top, env=without.environment)
    test.ends('build, another toolchain', 0, '..]\ntwo\n', quiet, cwd=top, env={**with_rt.environment, 'RT_VERSION': 'two'})
    (top / 'crates/one/src/lib.rt').write_text('changed')
    test.ends('build, a source changed, without rt', 4, needed, command, cwd=top, env=without.environment)


def of_machines(test):
    """All of them."""
    with tempfile.TemporaryDirectory() as directory:
        for cases in (of_c_tools, of_toolchain, of_scripts):
            cases(test, pathlib.Path(directory))

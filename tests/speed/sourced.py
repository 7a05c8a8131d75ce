"""A program of this repository, built with a place in the source for each instruction, though its function be inlined.

The program is built anew from what the toolchain's compiler is given, with its options: the same code as the program that `rt run` links,
with debug information that names the functions. For x86-64, on x86-64."""

import re
import subprocess
import sys

from support.c_tools import missing, native, toolchain as kit
from support.places import TOP
from support.proving import listed, words

TARGET = 'x86_64-unknown-linux-gnu'
# for a processor without vectors; gcc and clang take the same words
WITHOUT_VECTORS = ('-mno-sse', '-mno-sse2', '-mno-mmx')


def watching_compiler(tools, room):
    """The toolchain with a compiler that also keeps what it is given for the optimized program, and its options."""
    watching = room / 'tools'
    (watching / 'bin').mkdir(parents=True)
    for path in (tools / 'bin').iterdir():
        if path.name != 'clang':
            (watching / 'bin' / path.name).symlink_to(path)
    (watching / 'lib').symlink_to((tools / 'lib').resolve())
    compiler = watching / 'bin' / 'clang'
    compiler.write_text('#!/bin/sh\ncase " $* " in *" -O3 "*) cp module.bc %s/; printf "%%s\\n" "$@" >%s/options ;; esac\n'
                        'exec %s/bin/clang "$@"\n' % (room, room, tools))
    compiler.chmod(0o755)
    return watching


def placed(text):
    """LLVM's text of a program with a place for each instruction: the function that it is in, and its line."""
    unit = 1 + max([int(number) for number in re.findall(r'^!(\d+) =', text, re.M)] + [0])
    file, kind, nothing, free = unit + 1, unit + 2, unit + 3, unit + 4
    out, scope, in_cases = [], None, False
    notes = ['!%d = distinct !DICompileUnit(language: DW_LANG_C, file: !%d, isOptimized: true, emissionKind: FullDebug)' % (unit, file),
             '!%d = !DIFile(filename: "program", directory: "")' % file, '!%d = !DISubroutineType(types: !%d)' % (kind, nothing),
             '!%d = !{}' % nothing]
    for number, line in enumerate(text.split('\n'), 1):
        begun = re.match(r'define .*?@("[^"]*"|[\w.$]+)\(', line)
        if begun:
            scope, free = free, free + 1
            notes.append('!%d = distinct !DISubprogram(name: "%s", scope: !%d, file: !%d, line: %d, type: !%d, spFlags: DISPFlagDefinition'
                         ' | DISPFlagOptimized, unit: !%d)' % (scope, begun[1].strip('"'), file, file, number, kind, unit))
            line = re.sub(r' \{$', ' !dbg !%d {' % scope, line)
        elif line == '}':
            scope = None
        elif scope is not None and line.startswith('  '):
            # the cases of a switch are on lines of their own, up to its bracket
            in_cases = line.endswith('[') or in_cases and not line.strip().startswith(']')
            if not in_cases:
                notes.append('!%d = !DILocation(line: %d, scope: !%d)' % (free, number, scope))
                line, free = '%s, !dbg !%d' % (line, free), free + 1
        out.append(line)
    notes += ['!llvm.dbg.cu = !{!%d}' % unit, '!llvm.module.flags = !{!%d, !%d}' % (free, free + 1),
              '!%d = !{i32 2, !"Debug Info Version", i32 3}' % free, '!%d = !{i32 7, !"Dwarf Version", i32 4}' % (free + 1)]
    return '\n'.join(out + notes) + '\n'


def built(crate, room, more=()):
    """The path of the program, compiled with these options more."""
    if not native():
        missing('functions are counted on x86-64 alone')
    tools, program, folder = kit() / 'toolchain', room / crate, TOP / 'crates' / crate
    # the libraries below, and what a check of the program keeps
    proved = subprocess.run(['rt', 'run'], stdin=subprocess.DEVNULL, stdout=subprocess.DEVNULL, stderr=subprocess.PIPE, cwd=str(folder))
    if not (folder / 'out' / (crate + '.stamp')).exists():
        sys.exit('%s is not proved: %s' % (crate, proved.stderr.decode()[-3000:]))
    said = subprocess.run([str(kit() / 'bin' / 'rattle'), 'build', *words(TOP, listed(TOP), crate, folder), '--toolchain',
                           str(watching_compiler(tools, room)), '--incremental', str(folder / 'out' / 'incremental'), '--backend', 'llvm',
                           '-o', str(room / 'first.o')], stdin=subprocess.DEVNULL, stdout=subprocess.PIPE, stderr=subprocess.STDOUT)
    if not (room / 'module.bc').exists():
        sys.exit('%s does not compile: %s' % (crate, said.stdout.decode()))
    clang = str(tools / 'bin' / 'clang')
    dropped = ('module.bc', 'module.o', '-o', '-c')
    options = [word for word in (room / 'options').read_text().split('\n')[:-1] if word not in dropped and not word.startswith('--sysroot')]
    subprocess.run([clang, '--target=' + TARGET, '-x', 'ir', '-S', '-emit-llvm', '-Xclang', '-disable-llvm-passes', str(room / 'module.bc'),
                    '-o', str(room / 'module.ll')], check=True)
    (room / 'placed.ll').write_text(placed((room / 'module.ll').read_text()))
    subprocess.run([clang, *options, *more, '-c', str(room / 'placed.ll'), '-o', str(room / 'module.o')], check=True)
    linked = [str(kit() / 'bin' / 'rattle-link'), '--target', TARGET, '--toolchain', str(tools), '-o', str(program), str(room / 'module.o'),
              str(kit() / 'c' / 'libos_c.a'), str(kit() / 'c' / 'liblibc_c.a')]
    subprocess.run(linked, check=True, stdout=subprocess.DEVNULL, stderr=subprocess.DEVNULL)
    return str(program.resolve())

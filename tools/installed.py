#!/usr/bin/env python3
"""Fails where what the maker of a case takes home isn't what the header and the README say of it.

- The archive wants memcpy and memset, nothing else, and its names are the header's calls.
- The header compiles alone, without a warning, as C11, C99 and C++ (where the compiler has it); structs laid out otherwise are refused,
  and a dropped answer is warned of. The module for Rust warns of one too, and refuses a sheet that a call has taken.
- `make install` brings header, archive and pkg-config file of this version, and by its flags the example in C compiles and prints
  examples/answers.txt.

Run at the root of the project, after `make archive`: python3 tools/installed.py
"""
import os
import re
import shutil
import subprocess
import sys
from pathlib import Path
from typing import Iterator

ARCHIVE = Path('target/staticlib/libfummidrake.a')
HEADER = Path('include/fummidrake.h')
WANTED = {'memcpy', 'memset'}
PREFIX = Path('target/installed').absolute()
PACKAGE = PREFIX / 'lib/pkgconfig/fummidrake.pc'
ANSWERS = Path('examples/answers.txt')
COMPILER = ['gcc']
STRICT = ['-Wall', '-Wextra', '-Werror', '-S', '-o', '/dev/null']

# A program that only takes the header, and one that drops an answer, the sheet of an undo in it.
ALONE = f'#include "{HEADER.absolute()}"\n'
DROPPED = ALONE + 'void undone(fummidrake_sheet sheet);\nvoid undone(fummidrake_sheet sheet) { fummidrake_undo(sheet); }\n'
DROPPED_IN_PLACE = DROPPED.replace('fummidrake_undo(sheet)', 'fummidrake_undo_on(&sheet)')


def run(*words: str, given: str = '') -> subprocess.CompletedProcess:
    around = {name: value for name, value in os.environ.items() if not name.startswith('MAKE')} | {'LC_ALL': 'C'}
    return subprocess.run(words, input=given, stdout=subprocess.PIPE, stderr=subprocess.STDOUT, text=True, env=around)


# The archive

def archive_faults() -> Iterator[str]:
    listed = run('nm', '-g', str(ARCHIVE)).stdout
    found = re.findall(r'(?m)^(?:[0-9a-f]+| +) ([A-Z]) (\w+)$', listed)
    wanted = {name for letter, name in found if letter == 'U'}
    own = {name for letter, name in found if letter == 'T'}
    if wanted != WANTED:
        yield f'{ARCHIVE}: wants {", ".join(sorted(wanted))}, not {", ".join(sorted(WANTED))}'
    if not all(name in HEADER.read_text().split('#ifndef')[0] for name in WANTED):
        yield f'{HEADER}: doesn\'t say what the archive wants'
    calls = set(re.findall(r'(?m)^\w+ (fummidrake_\w+)\(', HEADER.read_text()))
    if own != calls:
        yield f'{ARCHIVE}: has other names than the header\'s calls: {", ".join(sorted(own ^ calls))}'


# The header

def compiles(text: str, *flags: str) -> str:
    """What the compiler says against a program; nothing where it takes it."""
    tried = run(*COMPILER, *STRICT, *flags, '-', given=text)
    return tried.stdout if tried.returncode else ''


def header_faults() -> Iterator[str]:
    languages = [['-x', 'c', '-std=c11', '-Wpedantic'], ['-x', 'c', '-std=c99', '-Wpedantic']]
    if not compiles('', '-x', 'c++'):
        languages += [['-x', 'c++', '-std=c++98'], ['-x', 'c++', '-std=c++17']]
    for language in languages:
        if said := compiles(ALONE, *language):
            yield f'{HEADER}: not taken by {" ".join(language)}:\n{said}'
    if 'static assertion failed' not in compiles(ALONE, '-x', 'c', '-fpack-struct'):
        yield f'{HEADER}: structs that are laid out otherwise are taken'
    for dropped in DROPPED, DROPPED_IN_PLACE:
        if 'unused-result' not in compiles(dropped, '-x', 'c'):
            yield f'{HEADER}: no warning where an answer is dropped:\n{dropped}'


# The module for Rust

MODULE = '#[path = "RUST"]\n#[allow(dead_code)]\nmod fummidrake;\nfn main() {\n    let opened = fummidrake::Sheet::open(4800, 0);\nLINE\n}\n'
LINES = {
    'let _kept = opened.sheet.undo();': '',
    'opened.sheet.undo();': 'unused_must_use',
    'let _kept = (opened.sheet.undo(), opened.sheet.redo());': 'E0382',
}


def rust_faults() -> Iterator[str]:
    """Each line, and what the compiler must say against it."""
    for line, expected in LINES.items():
        program = MODULE.replace('RUST', str(Path('rust/fummidrake.rs').absolute())).replace('LINE', line)
        tried = run('rustc', '--edition', '2021', '-D', 'warnings', '--emit=metadata', '-o', 'target/line.rmeta', '-', given=program)
        if bool(tried.returncode) != bool(expected) or expected not in tried.stdout.replace('unused-must-use', 'unused_must_use'):
            yield f'rust/fummidrake.rs: {line} is not answered by {expected or "nothing"}:\n{tried.stdout}'


# What is installed

def flags_of_package() -> list[str]:
    """The flags that pkg-config gives, or, where it isn't there, the file itself."""
    if shutil.which('pkg-config'):
        return run('env', f'PKG_CONFIG_PATH={PACKAGE.parent}', 'pkg-config', '--cflags', '--libs', 'fummidrake').stdout.split()
    text = PACKAGE.read_text()
    flags = ' '.join(re.findall(r'(?m)^(?:Cflags|Libs): (.*)$', text))
    for name, value in reversed(re.findall(r'(?m)^(\w+)=(.*)$', text)):
        flags = flags.replace(f'${{{name}}}', value)
    return flags.split()


def install_faults() -> Iterator[str]:
    shutil.rmtree(PREFIX, ignore_errors=True)
    made = run('make', '--no-print-directory', 'install', f'PREFIX={PREFIX}')
    if made.returncode:
        yield f'make install: exit status {made.returncode}\n{made.stdout}'
        return
    brought = {str(path.relative_to(PREFIX)) for path in PREFIX.rglob('*') if path.is_file()}
    if brought != {'include/fummidrake.h', 'lib/libfummidrake.a', 'lib/pkgconfig/fummidrake.pc'}:
        yield f'make install: brings {", ".join(sorted(brought))}'
        return
    if f'\nVersion: {Path("VERSION").read_text()}' not in PACKAGE.read_text():
        yield f'{PACKAGE}: not the version in VERSION'
    built = run(*COMPILER, 'examples/c/survey.c', *flags_of_package(), '-o', 'target/survey_installed')
    printed = built if built.returncode else run('target/survey_installed')
    if printed.returncode or printed.stdout != ANSWERS.read_text():
        yield f'the example against what is installed: not {ANSWERS}:\n{printed.stdout}'


def main() -> int:
    found = [*archive_faults(), *header_faults(), *rust_faults(), *install_faults()]
    print(*found, sep='\n', end='\n' if found else '')
    return 1 if found else 0


if __name__ == '__main__':
    sys.exit(main())

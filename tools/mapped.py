#!/usr/bin/env python3
"""Fails where docs/PROMISES.md names something that doesn't exist, or quotes a statement that isn't in its file word for
word.

Run at the root of the project: python3 tools/mapped.py [-v]   (-v lists every name)

A name stands between backticks:

    crate/specs/File.name, crate/proofs/File.name   declared `pub` in that file; name.field is a field of a record
    crate::module::name, crate::Type::method        declared in that file of code; in an `impl` of that type
    crate/must-fail/name                            an edit that the prover must refuse
    reference/test_x.py::Class.test                 a test of the second program, or a class of them
    reference/x.py::section                         a section of a generated script
    tools/x.py, docs/X.md, crates/x/stdin, ..       a file

Other words between backticks are not looked at, but in a table every column behind the first has names only. A block
marked `antt` holds the whole statement of each name in the line above it; a line `..` in it is something left out.
"""
import ast
import re
import sys
from functools import cache
from pathlib import Path
from typing import Iterator

MAP = Path('docs/PROMISES.md')
TICKED = re.compile(r'`([^`]+)`')
STATED = re.compile(r'(\w+)/((?:specs|proofs)(?:/\w+)*)\.([^.\s]+)(?:\.([^.\s]+))?')
CODED = re.compile(r'(\w+)::(\w+)::(\w+)')
EDITED = re.compile(r'(\w+)/must-fail/(\w+)')
RUN = re.compile(r'(reference/\w+\.py)::(\w+(?:\.\w+)?)')
FILED = re.compile(r'(?:crates|docs|examples|reference|tools)/[\w./-]+')
BLOCK = re.compile(r'^```antt\n(.*?)^```$', re.M | re.S)


@cache
def text_of(path: Path) -> str:
    return path.read_text() if path.is_file() else ''


def words(text: str) -> str:
    """The text with one space between its words, and at both ends."""
    return f' {" ".join(text.split())} '


# Definitions and theorems

def indent(line: str) -> int:
    return len(line) - len(line.lstrip())


def statement(text: str, name: str) -> str:
    """A public declaration with the lines that are further in: a type, or a record with its fields. None is empty."""
    head = re.search(rf'^ *(?:unfoldable |abbrev )?pub (?:record |data )?{re.escape(name)}(?= )', text, re.M)
    if not head:
        return ''
    first, *others = text[head.start():].split('\n')
    end = next((i for i, line in enumerate(others) if line and indent(line) <= indent(first)), len(others))
    return '\n'.join([first, *others[:end]])


def stated(crate: str, module: str, name: str, field: str | None) -> bool:
    found = statement(text_of(Path('crates', crate, f'{module}.antt')), name)
    return bool(found and (not field or statement(found.partition('\n')[2], field)))


# Code

def in_type(text: str, name: str) -> str:
    """What stands in the `impl` blocks of a type."""
    return '\n'.join(re.findall(rf'^impl {name} \{{$(.*?)^\}}$', text, re.M | re.S))


def coded(crate: str, home: str, name: str) -> bool:
    source = Path('crates', crate, 'src')
    module = text_of(source / f'{home}.rt')
    text = module or '\n'.join(in_type(text_of(path), home) for path in sorted(source.glob('**/*.rt')))
    return bool(re.search(rf'^[ \t]*(?:pub(?:\(crate\))? )?(?:fn|struct|enum|const) {name}\b', text, re.M))


# Runs

def sections(tree: ast.Module) -> set[str]:
    """The names in the tuple SECTIONS."""
    assigned = [node for node in tree.body if isinstance(node, ast.AnnAssign) and ast.unparse(node.target) == 'SECTIONS']
    return {name.id for node in assigned for name in ast.walk(node.value) if isinstance(name, ast.Name)}


@cache
def runs(path: Path) -> set[str]:
    """What can be named of a file of the second program."""
    tree = ast.parse(text_of(path))
    classes = [node for node in tree.body if isinstance(node, ast.ClassDef)]
    tests = {f'{of.name}.{node.name}' for of in classes for node in of.body if isinstance(node, ast.FunctionDef)}
    return sections(tree) | {of.name for of in classes} | tests


# The map

@cache
def exists(name: str) -> bool | None:
    """Whether there is what a name names; none where it is no name."""
    if found := STATED.fullmatch(name):
        return stated(*found.groups())
    if found := CODED.fullmatch(name):
        return coded(*found.groups())
    if found := EDITED.fullmatch(name):
        return Path('crates', found[1], 'must-fail', f'{found[2]}.edit').is_file()
    if found := RUN.fullmatch(name):
        return found[2] in runs(Path(found[1]))
    return Path(name).is_file() if FILED.fullmatch(name) else None


def names_in(lines: list[str]) -> Iterator[tuple[int, str, bool]]:
    """The words between backticks: the line from 1, the word, and whether it stands where only names do."""
    for number, line in enumerate(lines, 1):
        first, others = line, ''
        if line.startswith('|'):
            _, first, others = line.split('|', 2)
        yield from ((number, word, False) for word in TICKED.findall(first))
        yield from ((number, word, True) for word in TICKED.findall(others))


def unquoted(above: str, block: str) -> Iterator[str]:
    """What is wrong with a block of statements under a line that names them."""
    named = [found for word in TICKED.findall(above) if (found := STATED.fullmatch(word))]
    if not named:
        yield 'a statement without a name in the line above it'
    files = [words(text_of(Path('crates', found[1], f'{found[2]}.antt'))) for found in named]
    for part in re.split(r'^[ \t]*\.\.$', block, flags=re.M):
        if not any(words(part) in text for text in files):
            yield f'not in the file word for word: {words(part).strip()[:100]}'
    for found in named:
        whole = statement(text_of(Path('crates', found[1], f'{found[2]}.antt')), found[3])
        if words(whole) not in words(block):
            yield f'not the whole statement of {found[3]}'


def main() -> int:
    text = MAP.read_text()
    blank = BLOCK.sub(lambda block: '\n' * block[0].count('\n'), text)
    faults = []
    for number, word, must in names_in(blank.split('\n')):
        there = exists(word)
        if there is False or (must and there is None):
            faults.append((number, f'{word} {"is no name" if there is None else "does not exist"}'))
        elif there and '-v' in sys.argv:
            print(f'{MAP}:{number}: {word}')
    for block in BLOCK.finditer(text):
        above = text[:block.start()].rstrip().rpartition('\n')[2]
        number = text.count('\n', 0, block.start()) + 1
        faults += [(number, fault) for fault in unquoted(above, block[1])]
    for number, fault in sorted(faults):
        print(f'{MAP}:{number}: {fault}')
    return 1 if faults else 0


if __name__ == '__main__':
    sys.exit(main())

#!/usr/bin/env python3
"""Fails where include/fummidrake.h, or the Rust module over it, declares something else than the source exports.

From the functions that crates/fummidrake_c exports and the structs that they hand over, the C and the Rust declarations are worked
out, with where each field lies and each struct's size as C lays it out, and compared with those of the header and the module and with
their assertions. Each exported function has the parameters, the answer and the contract of the call of its name in crates/fummidrake,
word for word, and no call lacks one. For each call that takes a sheet and hands one back the header must have its one form in place,
word for word. It must have a sentence for each declaration, the stack that each call takes, the README's table of refusals and the
version in VERSION.

Run at the root of the project: python3 tools/header.py
"""
import re
import sys
from pathlib import Path
from typing import Iterator, NamedTuple

SOURCE = Path('crates/fummidrake_c/src/lib.rt')
CALLS = Path('crates/fummidrake/src/lib.rt')
HEADER = Path('include/fummidrake.h')
RUST_MODULE = Path('rust/fummidrake.rs')
README = Path('README.md')
VERSION = Path('VERSION')

# Each plain type with its name in C and its size, which is its alignment too.
PLAIN = {
    'u8': ('uint8_t', 1), 'u16': ('uint16_t', 2), 'u32': ('uint32_t', 4), 'u64': ('uint64_t', 8), 'usize': ('size_t', 8),
    'i8': ('int8_t', 1), 'bool': ('bool', 1),
}
SHEET = 'Sheet'
MUST_USE = 'FUMMIDRAKE_MUST_USE'
REFUSALS = 22  # 1 to 21, and 29
ARRAY = re.compile(r'\[(\w+); (\d+)\]')
SLICE = re.compile(r'&(mut )?\[(\w+)\]')
Fields = dict[str, str]  # each name with its type, in order


class Function(NamedTuple):
    name: str
    parameters: Fields
    result: str
    contract: str


# The source

def fields_of(text: str) -> Fields:
    """The fields of a struct, or the parameters of a function."""
    plain = re.sub(r'//[^\n]*|\bpub(\(crate\))? ', '', text)
    return dict(re.findall(r'(\w+): ([^,]+)', plain))


def functions(source: Path, head: str) -> list[Function]:
    found = re.findall(rf'{head}fn (\w+)\((.*?)\) -> (\w+)\n(.*?)^\{{$', source.read_text(), re.S | re.M)
    return [Function(name, fields_of(parameters), result, words(contract)) for name, parameters, result, contract in found]


def exports() -> list[Function]:
    return functions(SOURCE, r'#\[unsafe\(no_mangle\)\]\npub extern "C" ')


def calls() -> list[Function]:
    return functions(CALLS, '^pub (?:extern "C" )?')


def structs(used: set[str]) -> dict[str, Fields]:
    """The structs that are handed over, and those that they hold. A struct around one number crosses as that number."""
    sources = [path.read_text() for path in sorted(Path('crates').glob('*/src/*.rt'))]
    numbers = {name: kind for text in sources for name, kind in re.findall(r'pub struct (\w+)\((?:pub )?(\w+)\);', text)}
    all_of_them = {}
    for text in sources:
        for name, inside in re.findall(r'#\[repr\(C\)\]\n(?:#\[derive[^\n]*\n)*pub struct (\w+) \{(.*?)\n\}', text, re.S):
            all_of_them[name] = {field: numbers.get(kind, kind) for field, kind in fields_of(inside).items()}
    reached: dict[str, Fields] = {}
    waiting = sorted(used)
    while waiting:
        name = waiting.pop()
        if name in all_of_them and name not in reached:
            reached[name] = all_of_them[name]
            waiting += [element(kind) for kind in reached[name].values()]
    return reached


def element(kind: str) -> str:
    """The type itself, or that of an array's elements."""
    array = ARRAY.fullmatch(kind)
    return array[1] if array else kind


# As C and Rust have it

def name_in_c(kind: str) -> str:
    return PLAIN[kind][0] if kind in PLAIN else 'fummidrake_' + re.sub(r'(?<!^)(?=[A-Z])', '_', kind).lower()


def field_in_c(name: str, kind: str) -> str:
    array = ARRAY.fullmatch(kind)
    return f'{name_in_c(array[1])} {name}[{array[2]}]' if array else f'{name_in_c(kind)} {name}'


def count_of(name: str, kind: str) -> str:
    """The name of a slice's length: its bytes, or how many numbers it has."""
    return name + ('_bytes' if kind == 'u8' else '_count')


def parameters_in_c(parameters: Fields) -> Iterator[str]:
    for name, kind in parameters.items():
        if lent := SLICE.fullmatch(kind):
            yield f'{"" if lent[1] else "const "}{name_in_c(lent[2])} *{name}'
            yield f'size_t {count_of(name, lent[2])}'
        else:
            yield field_in_c(name, kind)


def parameters_in_rust(parameters: Fields) -> Iterator[str]:
    for name, kind in parameters.items():
        if lent := SLICE.fullmatch(kind):
            yield f'{name}: *{"mut" if lent[1] else "const"} {lent[2]}'
            yield f'{count_of(name, lent[2])}: usize'
        else:
            yield f'{name}: {kind}'


def declared_in_c(exported: list[Function], handed: dict[str, Fields]) -> Iterator[str]:
    for name, fields in handed.items():
        inside = ''.join(field_in_c(*field) + ';' for field in fields.items())
        yield f'typedef struct {{ {inside} }} {name_in_c(name)};'
    for function in exported:
        yield f'{MUST_USE} {name_in_c(function.result)} {function.name}({", ".join(parameters_in_c(function.parameters))});'
    yield from dict.fromkeys(one for function in exported if changes(function, handed) for one in in_place(function, handed))


def changes(function: Function, handed: dict[str, Fields]) -> bool:
    """Whether a call takes a sheet and hands one back."""
    return SHEET in function.parameters.values() and SHEET in handed.get(function.result, {}).values()


def in_place(function: Function, handed: dict[str, Fields]) -> Iterator[str]:
    """The call's form that replaces the caller's sheet and answers the other values: one of them as it is, several as a struct."""
    result, values = name_in_c(function.result), {name: kind for name, kind in handed[function.result].items() if kind != SHEET}
    taken = [re.sub(r' sheet$', ' *sheet', one) for one in parameters_in_c(function.parameters)]
    passed = ['*sheet' if one.endswith(' *sheet') else re.search(r'\w+$', one)[0] for one in taken]
    if len(values) == 1:
        (name, kind), kept = *values.items(), ''
        answered, answer = name_in_c(kind), f'answer.{name}'
    else:
        answered, answer = f'{result}_on', 'values'
        kept = f'{answered} values = {{{", ".join(f"answer.{name}" for name in values)}}};'
        yield f'typedef struct {{ {"".join(field_in_c(*value) + ";" for value in values.items())} }} {answered};'
    yield f'{MUST_USE} static inline {answered} {function.name}_on({", ".join(taken)}) {{' \
          f' {result} answer = {function.name}({", ".join(passed)}); {kept} *sheet = answer.sheet; return {answer}; }}'


def declared_in_rust(exported: list[Function], handed: dict[str, Fields]) -> Iterator[str]:
    for name, fields in handed.items():
        inside = ''.join(f'{field}: {kind},' for field, kind in fields.items())
        yield f'#[repr(C)] struct {name} {{ {inside} }}'
    for function in exported:
        yield f'fn {function.name}({", ".join(parameters_in_rust(function.parameters))}) -> {function.result};'


def laid_out(kind: str, handed: dict[str, Fields]) -> tuple[int, int]:
    """Size and alignment, as C lays a type out: each field at the next multiple of its alignment."""
    if array := ARRAY.fullmatch(kind):
        size, aligned = laid_out(array[1], handed)
        return size * int(array[2]), aligned
    if kind in PLAIN:
        return PLAIN[kind][1], PLAIN[kind][1]
    widest = max(laid_out(field, handed)[1] for field in handed[kind].values())
    last, first_byte = list(first_bytes(kind, handed).items())[-1]
    return up_to(first_byte + laid_out(handed[kind][last], handed)[0], widest), widest


def first_bytes(struct: str, handed: dict[str, Fields]) -> dict[str, int]:
    """Where each field of a struct begins."""
    found, end = {}, 0
    for name, kind in handed[struct].items():
        size, aligned = laid_out(kind, handed)
        found[name] = up_to(end, aligned)
        end = found[name] + size
    return found


def up_to(end: int, aligned: int) -> int:
    """The next multiple, or the number itself where it is one."""
    return -(-end // aligned) * aligned


def asserted_in_c(handed: dict[str, Fields]) -> Iterator[str]:
    for struct in handed:
        yield from (f'FUMMIDRAKE_FIELD({name_in_c(struct)}, {name}, {byte});' for name, byte in first_bytes(struct, handed).items())
        yield f'FUMMIDRAKE_SIZE({name_in_c(struct)}, {laid_out(struct, handed)[0]});'


def asserted_in_rust(handed: dict[str, Fields]) -> Iterator[str]:
    return (f'assert!(size_of::<{struct}>() == {laid_out(struct, handed)[0]});' for struct in handed)


# What the header and the module declare

def words(declaration: str) -> str:
    """A declaration without its layout."""
    return ' '.join(re.findall(r'\w+|[^\w\s]', re.sub(r',\s*([)}])', r'\1', declaration)))


def blocks_of_header() -> list[str]:
    """The header's declarations, each with its comment."""
    return [block.strip() for block in HEADER.read_text().split('\n\n') if block.rstrip().endswith((';', '}'))]


def found_in_c() -> Iterator[str]:
    for block in blocks_of_header():
        yield re.sub(r'/\*.*?\*/', '', block, flags=re.S)


def found_in_rust() -> Iterator[str]:
    text = re.sub(r'//[^\n]*|#\[(?:derive|must_use)[^\n]*\n|\bpub |\bsafe ', '', RUST_MODULE.read_text())
    yield from re.findall(r'(?:#\[repr\(C\)\]\s*)?struct \w+ \{.*?\}', text, re.S)
    yield from re.findall(r'fn fummidrake_\w+\([^)]*\)[^;{]*;', text)


def table(path: Path) -> list[str]:
    """The rows of the table of refusals."""
    text = path.read_text()
    rows = text[text.index('| No. | Refused when |'):]
    return [row for row in re.findall(r'(?m)^(?: \* )?(\| \d+ \| .* \|)$', rows[:rows.index('\n\n')])]


def defined() -> dict[str, str]:
    """Each constant of the header with its value."""
    return dict(re.findall(r'(?m)^#define (FUMMIDRAKE_\w+) (\S+)$', HEADER.read_text()))


# The comparison

def differences(what: Path, expected: Iterator[str], found: Iterator[str]) -> Iterator[str]:
    right, there = {words(one) for one in expected}, [words(one) for one in found]
    yield from (f'{what}: not what the source exports: {one}' for one in there if one not in right)
    yield from (f'{what}: missing: {one}' for one in sorted(right - set(there)))
    if len(there) != len(set(there)):
        yield f'{what}: something is declared twice'


def faults() -> Iterator[str]:
    exported = exports()
    handed = structs({kind for one in exported for kind in (one.result, *one.parameters.values())})
    if SOURCE.read_text().count('#[unsafe(no_mangle)]') != len(exported):
        yield f'{SOURCE}: an exported function that is not understood'
    yield from (f'{SOURCE}: {one.name} is not as in {CALLS}' for one in exported if one not in calls())
    yield from (f'{SOURCE}: lacks {one.name}' for one in calls() if one.name not in {other.name for other in exported})
    yield from differences(HEADER, declared_in_c(exported, handed), found_in_c())
    yield from differences(RUST_MODULE, declared_in_rust(exported, handed), found_in_rust())
    yield from (f'{HEADER}: no sentence: {block}' for block in blocks_of_header() if not block.startswith('/* '))
    yield from differences(HEADER, asserted_in_c(handed), re.findall(r'FUMMIDRAKE_(?:FIELD|SIZE)\([^)]*\);', HEADER.read_text()))
    yield from differences(RUST_MODULE, asserted_in_rust(handed), re.findall(r'assert!\(size_of[^;]*;', RUST_MODULE.read_text()))
    if table(HEADER) != table(README) or len(table(HEADER)) != REFUSALS:
        yield f'{HEADER}: the table of refusals is not the README\'s'
    yield from stack_faults(exported)
    version = VERSION.read_text().strip()
    if defined().get('FUMMIDRAKE_VERSION') != f'"{version}"':
        yield f'{HEADER}: FUMMIDRAKE_VERSION is not {VERSION}\'s {version}'
    if f'Fummidrake {version} for Rust' not in RUST_MODULE.read_text():
        yield f'{RUST_MODULE}: its first line doesn\'t name the version {version}'


def stack_faults(exported: list[Function]) -> Iterator[str]:
    """A number for each call, the greatest of them as FUMMIDRAKE_STACK and in the README."""
    stated = {name: value for name, value in defined().items() if name.startswith('FUMMIDRAKE_STACK_')}
    calls = {function.name.replace('fummidrake_', 'FUMMIDRAKE_STACK_', 1).upper() for function in exported}
    if stated.keys() != calls:
        yield f'{HEADER}: the stack of: {", ".join(sorted(stated.keys() ^ calls))}'
        return
    greatest = max(stated.values(), key=int)
    if stated.get(defined().get('FUMMIDRAKE_STACK')) != greatest:
        yield f'{HEADER}: FUMMIDRAKE_STACK is not the greatest, {greatest}'
    if f'{int(greatest):,} bytes of stack' not in README.read_text():
        yield f'{README}: doesn\'t say that a call takes at most {int(greatest):,} bytes of stack'


def main() -> int:
    found = list(faults())
    print(*found, sep='\n', end='\n' if found else '')
    return 1 if found else 0


if __name__ == '__main__':
    sys.exit(main())

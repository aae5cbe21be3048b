#!/usr/bin/env python3
"""Holds the theorem that no promise leaves room for a second answer (crates/demands, NoSecondAnswer) to the code: it has a row for
every public function of every library, no other row, and each row says the whole of it. Fails where it isn't so.

Run at the root of the project:
  python3 tools/promises.py           compare
  python3 tools/promises.py --rows    print the rows as they are to be
  python3 tools/promises.py --write   write them, and the `use` lines of the libraries, into the file
"""
import re
import sys
from dataclasses import dataclass
from difflib import unified_diff
from pathlib import Path
from typing import Iterator

THEOREM = Path('crates/demands/proofs/NoSecondAnswer.antt')
ROWS = '-- ---- the rows\n'  # what follows this line is as this program prints it
USES = re.compile(r"(?:^use Rattle\.\w+\.(?:proofs|specs\.contracts) as \w+'?\n)+", re.M)

# What is answered here is for whoever hands over a reader to say (docs/EXCEPTIONS.md).
WITH_A_READER = {'input::read_full'}

MODULE = re.compile(r'^pub mod (\w+);', re.M)
EXPORTED = re.compile(r'^pub use (\w+)::(?:(\w+)|\{([^}]*)\});', re.M)
TYPE = re.compile(r'^(?:pub )?(?:struct|enum) (\w+)', re.M)
IMPL = re.compile(r'^impl(?:<[^>]*>)? (\w+)(?:<[^>]*>)? \{$.*?^\}$', re.M | re.S)
HEAD = re.compile(r'^[ \t]*pub (?:extern "C" )?fn (\w+)(?:<[^>]*>)?\(', re.M)
PARAMETER = re.compile(r'(?:^|,)\s*(?:mut )?(self\b|\w+\s*:[^,]*)')
LENT = re.compile(r"&(?:'\w+ )?mut ")
BODY = re.compile(r'^[ \t]*\{$', re.M)
ENSURES = re.compile(r'^[ \t]*ensures(?: \w+)? \{\s*(.*)', re.M)
AND_MORE = re.compile(r'\(result(?:\.now)? ≡')
SEEN = re.compile(r'result((?:\.\w+)*\.now) ≡')


@dataclass
class Function:
    """A public function: where the check keeps its contract, which parameters are lent to change, what is seen of an answer that holds
    a part of a slice (`.now`, `.spaces.now`), and whether its contract says more than what the answer equals."""
    crate: str
    path: str
    lent: list[bool]
    seen: str
    and_more: bool

    def name(self) -> str:
        own = self.path.rpartition('.')[2].removeprefix(f'{self.crate}_')
        return f'{self.crate}_{own}'

    def row(self) -> str:
        """The statement and its proof, as `rt fmt` leaves them."""
        ended, reads = f"{self.crate}'.{self.path}.ended", f'{self.crate}.{self.path}.Reads'
        says, view = ('OneBy', f' (λ lives. (λ x. x{self.seen}))') if self.seen else ('One', '')
        return (f'pub {self.name()} :\n    {says} {ended} {reads}.Asked {reads}.Learnt{view}\n'
                f'{self.name()} _ ={self.proof()}\n')

    def proof(self) -> str:
        if not any(self.lent):
            answer = 'λ p q. agree p.0 q.0' if self.and_more else 'agree'
            return f' record {{ nothing_asked = tt; one_answer = {answer}; one_left = λ p q. refl }}'
        left = 'tt'
        for lent in reversed(self.lent):
            left = f'({"b" if lent else "tt"}, {left})'
        return ('\n    record { nothing_asked = tt; one_answer = λ p q. agree p.0 q.0; '
                f'one_left = λ p q. ap (λ b. {left}) (agree p.1 q.1) }}')


def closing(text: str, at: int) -> int:
    """The place behind the bracket that closes the one before `at`."""
    depth = 1
    while depth:
        depth += {'(': 1, ')': -1}.get(text[at], 0)
        at += 1
    return at


def public_functions(crate: str) -> Iterator[Function]:
    """The public functions of a library, as its sources have them: in a public module, or handed on by `pub use`; a method with its type."""
    source = Path('crates', crate, 'src')
    texts = {path.stem: re.sub(r'//[^\n]*', '', path.read_text()) for path in sorted(source.glob('*.rt'))}
    modules = set(MODULE.findall(texts['lib']))
    exported = {(module, name) for module, *names in EXPORTED.findall(texts['lib']) for name in re.findall(r'\w+', ' '.join(names))}
    homes = {name: module for module, text in texts.items() for name in TYPE.findall(text)}
    for module, text in texts.items():
        methods = [(block.start(), block.end(), block[1]) for block in IMPL.finditer(text)]
        for head in HEAD.finditer(text):
            of = next((name for start, end, name in methods if start < head.start() < end), None)
            home, item = (homes[of], of) if of else (module, head[1])
            if home != 'lib' and home not in modules and (home, item) not in exported:
                sys.exit(f'{source}/{module}.rt: {head[1]} is public, and neither its module nor a `pub use` is')
            if f'{crate}::{head[1]}' in WITH_A_READER:
                continue
            path = f'{home}.{of}.{head[1]}' if of else f'{home}.{head[1]}' if home in modules else head[1]
            end = closing(text, head.end())
            lent = [bool(LENT.search(each)) for each in PARAMETER.findall(text[head.end():end - 1])]
            contract = text[end:BODY.search(text, end).start()]
            ensured = ENSURES.findall(contract)
            seen = next((said[1] for said in map(SEEN.match, ensured) if said), '')
            yield Function(crate, path, lent, seen, len(ensured) > 1 or any(map(AND_MORE.match, ensured)))


def libraries() -> list[str]:
    """In the order of crates.txt. An archive (`NAME staticlib:`) isn't one: no crate can stand on it, so no row can speak of it."""
    names = re.findall(r'^(\w+):', Path('crates.txt').read_text(), re.M)
    return [name for name in names if Path('crates', name, 'src', 'lib.rt').exists()]


def theorem(text: str) -> str:
    """The theorem's file as it is to be."""
    functions = {crate: found for crate in libraries() if (found := list(public_functions(crate)))}
    uses = ''.join(f"use Rattle.{crate}.proofs as {crate}\nuse Rattle.{crate}.specs.contracts as {crate}'\n" for crate in sorted(functions))
    rows = [f'-- {crate}\n' + '\n'.join(each.row() for each in functions[crate]) for crate in functions]
    return USES.sub(uses, text.partition(ROWS)[0]) + ROWS + '\n' + '\n'.join(rows)


def main() -> int:
    text = THEOREM.read_text()
    due = theorem(text)
    if '--rows' in sys.argv:
        print(due.partition(ROWS)[2].strip())
    elif '--write' in sys.argv:
        THEOREM.write_text(due)
    elif text != due:
        print(f'{THEOREM}: not as the code has it; python3 tools/promises.py --write mends it')
        print('\n'.join(unified_diff(text.splitlines(), due.splitlines(), 'as it is', 'as it is to be', n=0, lineterm='')))
        return 1
    return 0


if __name__ == '__main__':
    sys.exit(main())

#!/usr/bin/env python3
"""Plays fresh scripts of calls at random on the proved program and on the second one, and stops at the first that they answer
differently: the script is left in target/fuzz.txt, and the first line that differs is printed.

Run at the root of the project, after `make survey`:  python3 tools/fuzz.py SCRIPTS [SEED]
"""
import subprocess
import sys
from pathlib import Path
from random import SystemRandom

sys.path.insert(0, '.')

from reference import survey  # noqa: E402
from reference.scripts import script  # noqa: E402

PROGRAM = ('crates/survey/out/survey',)
KEPT = Path('target/fuzz.txt')
CALLS = 1500  # of a script


def printed(text: str) -> str:
    """What the proved program answers to a script."""
    run = subprocess.run(PROGRAM, input=text.encode('latin-1'), stdout=subprocess.PIPE, check=True)
    return run.stdout.decode('latin-1')


def first_difference(expected: str, found: str) -> str:
    pairs = zip(expected.split('\n'), found.split('\n'))
    return next((f'expected {one!r}, found {other!r}' for one, other in pairs if one != other), 'one has more lines')


def main() -> int:
    if len(sys.argv) < 2:
        print(__doc__.strip(), file=sys.stderr)
        return 2
    first = int(sys.argv[2]) if len(sys.argv) > 2 else SystemRandom().randrange(10**9)
    answers = 0
    for seed in range(first, first + int(sys.argv[1])):
        text = script(seed, CALLS)
        expected, found = survey.answers(text), printed(text)
        if expected != found:
            KEPT.write_bytes(text.encode('latin-1'))
            print(f'seed {seed}: {first_difference(expected, found)}; the script is in {KEPT}')
            return 1
        answers += expected.count('\n')
    print(f'{answers} answers alike, from seed {first}')
    return 0


if __name__ == '__main__':
    sys.exit(main())

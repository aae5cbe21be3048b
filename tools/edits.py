#!/usr/bin/env python3
"""Fails where a must-fail edit shows nothing: one that was not tried, could not be applied or read, met a limit of the prover, or was
refused only because its proof no longer fits the code's shape. What is said first of an edit has to be a fact that no longer holds.

Run at the root of the project, on what `rt ci` said, which `make proofs` keeps: python3 tools/edits.py [LOG]

Of a goal that is new, and for which no values are found, nothing says whether it is false or has lost its answer. It is taken for a
fact, but where the proof file of its function answers it under a name with another comparison in it, or with another constant in that.
"""
import re
import sys
from pathlib import Path

LOG = Path(sys.argv[1] if len(sys.argv) > 1 else 'target/ci.log')
OK = re.compile(r'^rt: ok; .*', re.M)
BAD = re.compile(r', \d+ bad\b')
TRIED = re.compile(r'^rt: must-fail (\w+/[\w.-]+\.edit): (.*)', re.M)
REFUSED = 'refused, as it must be: '
SHAPE = re.compile(r'which was rejected, w|has no `|has no field|is not in scope|was not admitted|expected type `goal\.|has type `Lts\.')
UNANSWERED = re.compile(r'note: (src/\w+\.rt):(\d+):\d+: it is not proved .*\(`([^`]+)`\)(?:; `search` gave up.*)?')
ANSWER = re.compile(r'^(?:pub )?([a-z]\S*) :(?= |$)', re.M)
FUNCTION = re.compile(r'\bfn (\w+)')
COMPARISON = re.compile(r'(?<=-)(?:lt|le|gt|ge|eq|ne)(?:\d+|-[A-Z_]+)?(?![a-z])')


def lost_answer(crate: Path, source: str, line: int, goal: str) -> bool:
    """Whether the proof file of the function at a line answers a goal only under a name with another comparison in it."""
    lines = (crate / source).read_text().splitlines()
    before, behind = (FUNCTION.findall('\n'.join(part)) for part in (lines[:line], lines[line:]))
    function = (before[-1:] + behind[:1])[0]
    files = (path for path in crate.glob('proofs/**/Answers.antt') if path.parent.name.lstrip('+') == function)
    answers = {name for path in files for name in ANSWER.findall(path.read_text())}
    return goal not in answers and COMPARISON.sub('', goal) in {COMPARISON.sub('', name) for name in answers}


def fault(edit: Path, said: str) -> str:
    """What is wrong with an edit of which this was said; nothing where it was refused for a fact."""
    if not said.startswith(REFUSED):
        return said
    error = said.removeprefix(REFUSED)
    goal = UNANSWERED.fullmatch(error)
    if SHAPE.search(error) or (goal and lost_answer(edit.parent.parent, goal[1], int(goal[2]), goal[3])):
        return f'refused for the shape of its proof alone: {error}'
    return ''


def main() -> int:
    log = LOG.read_text()
    said = dict(TRIED.findall(log))
    faults = 0
    for edit in sorted(Path('crates').glob('*/must-fail/*.edit')):
        if found := fault(edit, said.get(f'{edit.parts[1]}/{edit.name}', 'not tried')):
            faults += 1
            print(f'{edit}: {found}')
    ended = OK.search(log)
    if not ended or BAD.search(ended[0]):
        faults += 1
        print(f'{LOG}: {ended[0] if ended else "no line `rt: ok`"}')
    return 1 if faults else 0


if __name__ == '__main__':
    sys.exit(main())

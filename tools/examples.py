#!/usr/bin/env python3
"""Builds and runs the examples in C and Rust by the README's own lines, and plays the tank's and the tug's script on the proved program.

Fails where one prints something else than the second program's answers, examples/answers.txt (with the listing), examples/tank_answers.txt
and examples/tug_answers.txt; where a day's file moved up isn't what the second program makes of it, examples/barge_form_2.day; and where the
README's few lines of C or Rust answer another number than it says of them, or its sections on the tank and the tug quote an answer that isn't
among these.

Run at the root of the project, after `make survey`: python3 tools/examples.py [-v]   (-v prints what each line prints)
"""
import re
import subprocess
import sys
from pathlib import Path

# The answers of each script: a line a call, its name and its answer.
ANSWERS = {
    'barge': Path('examples/answers.txt'),
    'tank': Path('examples/tank_answers.txt'),
    'tug': Path('examples/tug_answers.txt'),
}
# Each line of the README that must print the answers of a script; `survey` prints them without the calls' names.
RUNS = {'target/survey_c': 'barge', 'target/survey_rust': 'barge', 'target/tank_c': 'tank', 'target/tank_rust': 'tank'}
PLAYS = {'crates/survey/out/survey < examples/tank.txt': 'tank', 'crates/survey/out/survey < examples/tug.txt': 'tug'}
# The line that moves the example barge's file up to form 2; that file, what it must be there, and what the line writes.
MOVES = 'target/move_up < examples/barge.day > target/barge_form_2.day'
BARGE, BARGE_FORM_2, MOVED = Path('examples/barge.day'), Path('examples/barge_form_2.day'), Path('target/barge_form_2.day')
CODE = re.compile(r'```\w+\n(.*?)```', re.S)

# The sections of the README that quote answers, each with its script.
QUOTES = {'Vessels with screws': 'tug', 'A tank that follows the hull': 'tank'}
# All with lines that are run, and those of them with few lines of code: a program around these, LINES, which ends with status 0 where HELD,
# and how it is built and run.
SECTIONS = ('Call it from C', 'Call it from Rust', 'Deck and vessel numbers', *QUOTES)
CALLS = {
    'Call it from C': (
        'calls.c',
        '#include "fummidrake.h"\nint main(void) {\nLINES    return HELD ? 0 : 1;\n}\n',
        'gcc -Wall -Wextra -Werror -Iinclude target/calls.c target/staticlib/libfummidrake.a -o target/calls && target/calls',
    ),
    'Call it from Rust': (
        'calls.rs',
        '#[path = "../rust/fummidrake.rs"]\n#[allow(dead_code)]\nmod fummidrake;\nuse fummidrake::*;\n'
        'fn main() {\nLINES    assert!(HELD);\n}\n',
        'rustc --edition 2021 -D warnings -L target/staticlib -l static=fummidrake target/calls.rs -o target/calls && target/calls',
    ),
}


def text_of(section: str) -> str:
    return Path('README.md').read_text().split(f'## {section}\n')[1].split('\n## ')[0]


def lines_of(section: str) -> list[str]:
    """The command lines of a section: those that are indented, outside of code."""
    return re.findall(r'(?m)^    (.*)$', CODE.sub('', text_of(section)))


def try_code(section: str) -> None:
    """Runs a section's few lines: each `x is N` and `x.number is N` that they say must hold."""
    name, program, build = CALLS[section]
    code = CODE.search(text_of(section))[1]
    said = re.findall(r'(\w+(?:\.number)?) is (\d+)', code)
    assert said, f'{section}: nothing is said of a number'
    held = ' && '.join(f'{number} == {n}' for number, n in said)
    Path('target', name).write_text(program.replace('LINES', code).replace('HELD', held))
    printed(build)


def misquoted() -> list[str]:
    """The answers that the README quotes, each a quotation that begins with a digit, and the second program doesn't give."""
    return [
        quoted
        for section, script in QUOTES.items()
        for quoted in re.findall(r'`(\d[^`]*)`', text_of(section))
        if quoted not in ANSWERS[script].read_text()
    ]


def wrongly_moved() -> str:
    """What the program that moves a file up makes otherwise: of the barge's file, of days in both forms and of ones that can't be moved."""
    if MOVED.read_bytes() != BARGE_FORM_2.read_bytes():
        return f'{MOVED} is not {BARGE_FORM_2}'
    old, new = BARGE.read_bytes(), BARGE_FORM_2.read_bytes()
    too_long = old * (65_536 // len(new) + 1)
    for day, status, moved in (
        (b'', 0, b''), (old + new + old, 0, 3 * new), (b'x' + old, 1, b''), (too_long, 1, b''), (bytes(65_537), 1, b''),
    ):
        run = subprocess.run(['target/move_up'], input=day, capture_output=True)
        if (run.returncode, run.stdout) != (status, moved):
            return f'target/move_up: exit status {run.returncode} and {len(run.stdout)} bytes of a day of {len(day)}'
    return ''


def printed(line: str) -> str:
    run = subprocess.run(line, shell=True, stdout=subprocess.PIPE, stderr=subprocess.STDOUT, text=True)
    if run.returncode:
        sys.exit(f'{line}: exit status {run.returncode}\n{run.stdout}')
    return run.stdout


def answers_to(line: str) -> str | None:
    """What a line must print; None where it may print anything."""
    if line in RUNS:
        return ANSWERS[RUNS[line]].read_text()
    if line in PLAYS:
        return re.sub(r'(?m)^\w+ ', '', ANSWERS[PLAYS[line]].read_text())
    return None


def main() -> int:
    lines = [(section, line) for section in SECTIONS for line in lines_of(section)]
    if missing := {*RUNS, *PLAYS, MOVES} - {line for _, line in lines}:
        print(f'README.md: no line {", ".join(sorted(missing))}')
        return 1
    if wrong := misquoted():
        print(f'README.md: quotes {", ".join(wrong)}, which the second program doesn\'t answer')
        return 1
    for section, line in lines:
        found = printed(line)
        if '-v' in sys.argv:
            print(f'$ {line}\n{found}', end='')
        if answers_to(line) not in (None, found):
            print(f'{section}: {line} prints something else than the second program:\n{found}')
            return 1
    if wrong := wrongly_moved():
        print(wrong)
        return 1
    for section in CALLS:
        try_code(section)
    return 0


if __name__ == '__main__':
    sys.exit(main())

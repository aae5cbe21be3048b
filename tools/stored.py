#!/usr/bin/env python3
"""The stored input and expected output of each program, and of the examples in C and Rust, all of it made by the second program
(reference/), and the picture of the example barge, drawn from its listing (picture/).

Run at the root of the project:  python3 tools/stored.py           writes them
                                 python3 tools/stored.py --check   fails where one isn't what the reference prints today
"""
import sys
from pathlib import Path

sys.path.insert(0, '.')

from picture.picture import picture  # noqa: E402
from reference import dayfile, figures, files, scripts, survey  # noqa: E402


def morning(script: str) -> str:
    """The lines of the examples in C and Rust: each call of the script by its name, with its answer."""
    calls = [line.split()[0] for line in script.splitlines() if line and not line.startswith('#')]
    return ''.join(f'{call} {answer}\n' for call, answer in zip(calls, survey.answers(script).splitlines(), strict=True))


def stored() -> dict[Path, bytes]:
    """Each stored file: what a program is given, and what the reference prints for it."""
    script, standard, whole = figures.script(), scripts.standard(), files.of_the_paper()
    found = {}
    for name, given, printed in (
        ('figures', script.encode('ascii'), figures.answers(script)),
        ('survey', standard.encode('ascii'), survey.answers(standard)),
        ('sheetlist', whole, dayfile.listing(whole)),
    ):
        found[Path('crates', name, 'stdin')] = given
        found[Path('crates', name, 'stdout')] = printed.encode('ascii')
    found[Path('examples/barge.day')] = whole  # the file that the example barge's morning writes
    size = dayfile.distance(dayfile.FORM_2, dayfile.last_trailer(whole).count)  # and its move into form 2
    found[Path('examples/barge_form_2.day')] = dayfile.move(whole, dayfile.FORM_2, bytes(size), 0)[-1]
    barge = Path('examples/barge.txt').read_text()
    found[Path('examples/answers.txt')] = (morning(barge) + dayfile.listing(whole)).encode('ascii')
    for name in ('tank', 'tug'):
        found[Path(f'examples/{name}_answers.txt')] = morning(Path(f'examples/{name}.txt').read_text()).encode('ascii')
    found[Path('examples/barge.svg')] = picture(dayfile.listing(whole)).encode('ascii')
    return found


def main() -> int:
    made = stored()
    stale = [path for path, text in made.items() if not path.exists() or path.read_bytes() != text]
    if '--check' in sys.argv:
        for path in stale:
            print(f'{path} is not what the reference prints: run `make stored`')
        return 1 if stale else 0
    for path in stale:
        path.write_bytes(made[path])
        print('wrote', path)
    return 0


if __name__ == '__main__':
    sys.exit(main())

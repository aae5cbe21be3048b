#!/usr/bin/env python3
"""Fails where the program sheetlist lists one of some thousands of generated files otherwise than the second program.

Run at the root of the project, after `make sheetlist`:  python3 tools/lists.py [PROGRAM]
"""
import os
import subprocess
import sys
from concurrent.futures import ThreadPoolExecutor

sys.path.insert(0, '.')

from reference.files import listings  # noqa: E402


PROGRAM = sys.argv[1] if len(sys.argv) > 1 else 'crates/sheetlist/out/sheetlist'


def difference(name: str, file: bytes, expected: str) -> str:
    """What the program prints of a file otherwise than expected; none is empty."""
    run = subprocess.run((PROGRAM,), input=file, stdout=subprocess.PIPE)
    if (run.returncode, run.stdout) == (0, expected.encode('ascii')):
        return ''
    found = run.stdout.decode('ascii', 'backslashreplace')
    return f"""{PROGRAM} differs at: {name}
the file: {file.hex() or "-"}
expected:
{expected}found, exit status {run.returncode}:
{found}"""


def main() -> int:
    with ThreadPoolExecutor(os.cpu_count()) as processors:
        differences = list(processors.map(difference, *zip(*listings())))
    print(next(filter(None, differences), f'{len(differences)} files listed alike'))
    return 1 if any(differences) else 0


if __name__ == '__main__':
    sys.exit(main())

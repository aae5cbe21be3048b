"""The program `sheetlist`: the last sheet of a day's file as a list.

    python3 -m reference.sheetlist < file           prints the list
"""

import sys

from reference import dayfile


def main() -> int:
    """Prints the list of the file on standard input, or how it is refused."""
    sys.stdout.write(dayfile.listing(sys.stdin.buffer.read()))
    return 0


if __name__ == "__main__":
    sys.exit(main())

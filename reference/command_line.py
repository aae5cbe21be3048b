"""What a module prints that is run with arguments."""

import sys
from typing import Callable


def run(usage: str, asked: Callable[[list[str]], str | None]) -> int:
    """Prints the text that the arguments ask for; where they ask for none, how to ask, with exit status 2."""
    text = asked(sys.argv[1:])
    if text is None:
        print(f"usage: python3 -m {usage}", file=sys.stderr)
        return 2
    sys.stdout.write(text)
    return 0

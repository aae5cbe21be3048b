"""A picture of a sheet, as SVG, from its listing: each space a box, the rooms inside it drawn inside it.

    crates/sheetlist/out/sheetlist < FILE | python3 picture/picture.py > sheet.svg

It draws what the listing says, and judges nothing.
"""

import sys
from typing import Iterator, NamedTuple

NAMES = {
    "U": "under-deck part", "B": "between-deck level", "S": "superstructure", "H": "hatchway", "R": "room", "?": "no kind",
}
# Each standing with its words and its colour.
STANDINGS = {
    "0": ("plain", "#f4f1ea"),
    "1": ("exempt", "#cfe3c8"),
    "2": ("water ballast", "#bcd7ee"),
    "3": ("deducted", "#f3d3a8"),
    "4": ("machinery", "#dcc8e6"),
}
LINE = "#3b3a36"

# Pixels: a box without rooms, the words at its top, the room around a box, and how many boxes stand side by side.
WIDTH, HEAD, GAP, ABREAST = 190, 48, 12, 4


class Drawn(NamedTuple):
    """What is drawn, and the room that it takes."""

    width: int
    height: int
    parts: list[str]


def text(x: int, y: int, words: str, weight: str = "normal") -> str:
    return f'<text x="{x}" y="{y}" font-weight="{weight}">{words}</text>'


def box(x: int, y: int, width: int, height: int, colour: str) -> str:
    return f'<rect x="{x}" y="{y}" width="{width}" height="{height}" rx="4" fill="{colour}" stroke="{LINE}"/>'


def in_rows(x: int, y: int, rooms: list[list[str]], listed: list[list[str]]) -> Drawn:
    """Boxes side by side, in order of entry, in as many rows as they need."""
    width, below, parts = 0, y, []
    for first in range(0, len(rooms), ABREAST):
        beside, height = x, 0
        for words in rooms[first:first + ABREAST]:
            drawn = space(beside, below, words, listed)
            beside, height, parts = beside + drawn.width + GAP, max(height, drawn.height), parts + drawn.parts
        width, below = max(width, beside - GAP - x), below + height + GAP
    return Drawn(width, below - y, parts)


def space(x: int, y: int, words: list[str], listed: list[list[str]]) -> Drawn:
    """A space with the rooms directly inside it: 'id, enclosing id or 0, kind, standing, tons'."""
    id, _, kind, standing, tons = words
    inside = in_rows(x + GAP, y + HEAD + GAP, [other for other in listed if other[1] == id], listed)
    width, height = max(WIDTH, inside.width + 2 * GAP), HEAD + GAP + inside.height
    named, colour = STANDINGS[standing]
    head = [
        box(x, y, width, height, colour),
        text(x + GAP, y + 22, f"{id} {NAMES[kind]}", "bold"),
        text(x + GAP, y + 42, f"{tons} tons" + ("" if standing == "0" else f", {named}")),
    ]
    return Drawn(width, height, head + inside.parts)


def legend(x: int, y: int) -> Iterator[str]:
    """The standings, each with its colour."""
    for named, colour in STANDINGS.values():
        yield box(x, y, 16, 16, colour)
        yield text(x + 24, y + 13, named)
        x += 54 + 7 * len(named)


def picture(listing: str) -> str:
    """A sheet that was accepted; of a refused file its one line."""
    lines = [line.split() for line in listing.splitlines()]
    figures = {line[0]: line[1] for line in lines if len(line) == 2}
    listed = [line for line in lines if len(line) == 5]
    if not figures:
        spaces, title = Drawn(0, 0, []), listing.strip()
    else:
        spaces = in_rows(2 * GAP, 60, [words for words in listed if words[1] == "0"], listed)
        title = f"Tonnage length {figures['LENGTH']} ft, gross {figures['GROSS']} tons, net {figures['NET']} tons"
    width, height = max(spaces.width + 4 * GAP, 640), 60 + spaces.height + 40
    parts = [
        f'<svg xmlns="http://www.w3.org/2000/svg" width="{width}" height="{height}" viewBox="0 0 {width} {height}"'
        f' font-family="sans-serif" font-size="14" fill="{LINE}">',
        box(GAP, GAP, width - 2 * GAP, height - 2 * GAP, "#ffffff"),
        text(2 * GAP, 42, title, "bold"),
        *spaces.parts,
        *legend(2 * GAP, height - 2 * GAP - 16),
        "</svg>",
    ]
    return "\n".join(parts) + "\n"


if __name__ == "__main__":
    sys.stdout.write(picture(sys.stdin.read()))

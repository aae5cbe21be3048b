"""Tests of the picture: it is an SVG, each space has its box, and a room's box lies inside its enclosing one's."""

import unittest
from xml.etree import ElementTree

from reference import dayfile, files
from picture.picture import NAMES, STANDINGS, picture

SVG = "{http://www.w3.org/2000/svg}"
# A chain of eight, and nine rooms in the first: more than stand side by side.
DEEP = "LENGTH 48.00\n1 0 U 0 115.21\n" + "".join(f"{n} {n - 1} R 0 1.00\n" for n in range(2, 9))
WIDE = DEEP + "".join(f"{n} 1 R {n % 5} 1.00\n" for n in range(9, 18)) + "GROSS 1.00\nNET 1.00\n"


def boxes(drawn: str) -> dict[str, tuple[int, int, int, int]]:
    """The box of each id: its left, top, right and bottom."""
    found, last = {}, None
    for part in ElementTree.fromstring(drawn):
        if part.tag == SVG + "rect":
            x, y, width, height = (int(part.get(name)) for name in ("x", "y", "width", "height"))
            last = x, y, x + width, y + height
        elif part.text.split()[0].isdigit() and part.text.split(" ", 1)[1] in NAMES.values():
            found[part.text.split()[0]] = last
    return found


class Picture(unittest.TestCase):
    def drawn(self, listing: str) -> None:
        """Each space has a box; a room's lies inside its enclosing one's, and two boxes inside the same one lie apart."""
        spaces = [line.split() for line in listing.splitlines() if len(line.split()) == 5]
        found = boxes(picture(listing))
        self.assertEqual(set(found), {words[0] for words in spaces})
        for id, within, *_ in spaces:
            left, top, right, bottom = found[id]
            if within != "0":
                outer = found[within]
                self.assertTrue(outer[0] < left and outer[1] < top and right < outer[2] and bottom < outer[3])
            for other, same, *_ in spaces:
                if same == within and other != id:
                    a, b, c, d = found[other]
                    self.assertTrue(right < a or c < left or bottom < b or d < top)

    def test_the_example_barge(self) -> None:
        self.drawn(dayfile.listing(files.of_the_paper()))

    def test_eight_deep_and_many_side_by_side(self) -> None:
        self.drawn(WIDE)

    def test_gross_and_net_and_standings_are_written(self) -> None:
        drawn = picture(dayfile.listing(files.of_the_paper()))
        for words in ("gross 124.39 tons, net 121.19 tons", "4.00 tons, water ballast", "3.20 tons, deducted"):
            self.assertIn(words, drawn)
        for named, colour in STANDINGS.values():
            self.assertIn(f">{named}<", drawn)
            self.assertIn(colour, drawn)

    def test_machinery(self) -> None:
        """A box of its own colour in its U, with its words; the same colour and words in the legend."""
        listing = dayfile.listing(files.with_machinery(dayfile.FORM_1, 200, 7))
        self.drawn(listing)
        parts = list(ElementTree.fromstring(picture(listing)))
        named, colour = STANDINGS["4"]
        self.assertEqual(named, "machinery")
        words = [part.text for part in parts if part.tag == SVG + "text"]
        self.assertIn("2.00 tons, machinery", words)
        self.assertIn("Tonnage length 12.00 ft, gross 10.00 tons, net 6.43 tons", words)
        filled = [(part.get("x"), part.get("width")) for part in parts if part.get("fill") == colour]
        left, _, right, _ = boxes(picture(listing))["2"]
        self.assertEqual(filled[0], (str(left), str(right - left)))
        self.assertEqual([width for _, width in filled[1:]], ["16"])  # the legend's

    def test_the_legend_is_inside_the_picture(self) -> None:
        drawn = ElementTree.fromstring(picture(dayfile.listing(files.of_the_paper())))
        ends = {part.text: int(part.get("x")) + 8 * len(part.text) for part in drawn if part.tag == SVG + "text"}
        self.assertEqual(len({colour for _, colour in STANDINGS.values()}), len(STANDINGS))
        for named, _ in STANDINGS.values():
            self.assertLess(ends[named], int(drawn.get("width")))

    def test_a_refused_file_is_its_line(self) -> None:
        drawn = picture("REFUSED 17 3\n")
        self.assertIn("REFUSED 17 3", drawn)
        self.assertEqual(boxes(drawn), {})


if __name__ == "__main__":
    unittest.main()

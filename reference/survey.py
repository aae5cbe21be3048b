"""The text protocol of the program `survey`: a script of calls on one current sheet, and their answers.

    python3 -m reference.survey < script            prints the answers

A line ends with a newline (the last one may end with the script). An empty line and a line that begins with '#' have
no answer; every other line has one. Words are what stands between single spaces, so two spaces have an empty word
between them and a space at an end of the line an empty word beside it.

A line that is no call is answered by '?' and a remark, and changes nothing. It is judged in this order, and the first
remark that fits is given:
    ? unknown call              the first word is no call (an empty one neither)
    ? wrong number of words     the call has another number of words (some may be left out; how many words there are
                                tells which ones: behind an entry's breadths one is its deck, two are its ends, three
                                its ends and its deck)
then the words behind the call from left to right, each
    ? not a number              a number that isn't one or more of the digits 0 to 9
    ? number too large          a number above 2^64-1, a vessel number above 2^32-1 (zeros in front are no matter)
    ? list too long             a list of more than 1,024 numbers, counted by its commas, whatever stands between them;
                                then each number of a list, from left to right, as above; '-' is the empty list
    ? buffer too large          the size of a buffer, where it is a number, above 65,536
    ? not a byte                what a buffer is filled with, where it is a number, above 255
    ? file too long             a file of more than 131,072 characters, whatever they are ('-' is that of no bytes)
    ? not hex                   a file, not too long, that is empty or has an odd number of characters or one other than
                                0 to 9 and a to f
Every word is judged so, an enclosing id and an end too where they aren't read. A word on the left goes before one on
the right: a buffer too large before a filling that is no number.
    ? script too long           the only answer to a script over 1,048,576 bytes, of which no call is made
"""

import sys
from typing import Any, Callable, Iterable

from reference import dayfile, measure as m, sheet as s
from reference.dayfile import FORM_1
from reference.sheet import Sheet, Space

UNKNOWN_CALL = "? unknown call"
WRONG_NUMBER_OF_WORDS = "? wrong number of words"
NOT_A_NUMBER = "? not a number"
NUMBER_TOO_LARGE = "? number too large"
LIST_TOO_LONG = "? list too long"
BUFFER_TOO_LARGE = "? buffer too large"
NOT_A_BYTE = "? not a byte"
FILE_TOO_LONG = "? file too long"
NOT_HEX = "? not hex"
SCRIPT_TOO_LONG = "? script too long"
REMARKS = (
    UNKNOWN_CALL, WRONG_NUMBER_OF_WORDS, NOT_A_NUMBER, NUMBER_TOO_LARGE, LIST_TOO_LONG, BUFFER_TOO_LARGE, NOT_A_BYTE,
    FILE_TOO_LONG, NOT_HEX, SCRIPT_TOO_LONG,
)

MOST_BYTES = 1_048_576  # of a script
MOST_NUMBERS = 1_024  # of a list
GREATEST_SIZE = 65_536  # of a buffer or a file, in bytes
MOST_DIGITS = 2 * GREATEST_SIZE  # two digits a byte
HEX_DIGITS = frozenset("0123456789abcdef")
GREATEST_NUMBER = 2**64 - 1
GREATEST_ID = 2**16 - 1
GREATEST_CODE = 2**8 - 1  # of a kind, a standing, an end, a deck, a justified mark and a form
GREATEST_MEASURE = 2**32 - 1
GREATEST_BYTE = 2**8 - 1
GREATEST_VESSEL = 2**32 - 1


class NoCall(Exception):
    """A line that is no call; its remark is the argument."""


# Arguments. A value above the greatest of its type is handed on as that greatest value, which is out of range too; but
# 'only a vessel number has no value outside its range'.

def number(word: str) -> int:
    """One or more digits, with a value up to 2^64-1."""
    if not (word.isascii() and word.isdigit()):
        raise NoCall(NOT_A_NUMBER)
    digits = word.lstrip("0") or "0"
    if len(digits) > len(str(GREATEST_NUMBER)) or int(digits) > GREATEST_NUMBER:
        raise NoCall(NUMBER_TOO_LARGE)
    return int(digits)


def an_id(word: str) -> int:
    """An id to enter, withdraw or mark, or an enclosing id."""
    return min(number(word), GREATEST_ID)


def a_code(word: str) -> int:
    """A kind, a standing, an end, a deck, a justified mark or a form."""
    return min(number(word), GREATEST_CODE)


def a_measure(word: str) -> int:
    """A length, depth, height or breadth, or a tank's fore end."""
    return min(number(word), GREATEST_MEASURE)


def a_vessel(word: str) -> int:
    """A vessel number: 'a number over 4,294,967,295 makes the line no call'."""
    vessel = number(word)
    if vessel > GREATEST_VESSEL:
        raise NoCall(NUMBER_TOO_LARGE)
    return vessel


def measures(word: str) -> list[int]:
    """Measures joined by commas, or '-' for none."""
    if word == "-":
        return []
    words = word.split(",")
    if len(words) > MOST_NUMBERS:
        raise NoCall(LIST_TOO_LONG)
    return [a_measure(one) for one in words]


def a_size(word: str) -> int:
    """The bytes of a buffer."""
    size = number(word)
    if size > GREATEST_SIZE:
        raise NoCall(BUFFER_TOO_LARGE)
    return size


def a_byte(word: str) -> int:
    """What each byte of a buffer holds."""
    byte = number(word)
    if byte > GREATEST_BYTE:
        raise NoCall(NOT_A_BYTE)
    return byte


def a_file(word: str) -> bytes:
    """Two digits a byte, or '-' for none."""
    if word == "-":
        return b""
    if len(word) > MOST_DIGITS:
        raise NoCall(FILE_TOO_LONG)
    if not word or len(word) % 2 or not HEX_DIGITS.issuperset(word):
        raise NoCall(NOT_HEX)
    return bytes.fromhex(word)


# Calls: how the words behind each are read, and what it answers: its number, its values and the sheet after it.

Answer = tuple[Any, ...]
Reader = Callable[[str], Any]  # of a word


def of_space(space: Space) -> str:
    """ID:WITHIN:KIND:STANDING:TONNAGE:LENGTH:M:DECK."""
    values = (space.id, space.within, space.kind, space.standing, space.tonnage, space.length, space.m, space.deck)
    return ":".join(map(str, values))


def in_hex(file: bytes) -> str:
    """The word for these bytes."""
    return file.hex() or "-"


def in_a_list(numbers: Iterable[int]) -> str:
    """The word for these numbers: joined by commas, '-' for none; one below zero has a '-' before it."""
    return ",".join(map(str, numbers)) or "-"


def enter(sheet: Sheet, *entry: Any, **further: int) -> Answer:
    """N ROUNDING DEPTHS VISITED, with one number a station of a U; refused, N 0 - VISITED."""
    refusal, rounding, depths, visited, after = s.enter(sheet, *entry, **further)
    return refusal, rounding, in_a_list(depths), visited, after


def spaces(sheet: Sheet) -> Answer:
    """0 OPEN L COUNT VESSEL SPACE SPACE ..."""
    of_sheet = int(sheet.is_open), sheet.length, len(sheet.spaces), sheet.vessel
    return s.ACCEPTED, *of_sheet, *map(of_space, sheet.spaces), sheet


def zones(sheet: Sheet, tonnage_length: int, under_deck_length: int, length: int, fore: int) -> Answer:
    """N PARTS LIST, with one number a section; refused, N 0 -. 'It needs no sheet, never answers 1.'"""
    refusal, parts, stations = m.zones(tonnage_length, under_deck_length, length, fore)
    return refusal, parts, in_a_list(stations), sheet


def writef(sheet: Sheet, justified: int, at: int, size: int, fill: int, form: int = FORM_1) -> Answer:
    """N WRITTEN BUFFER, of a buffer with the same byte all through."""
    refusal, written, buffer, after = dayfile.write(sheet, justified, bytes([fill]) * size, at, form)
    return refusal, written, in_hex(buffer), after


def write(sheet: Sheet, justified: int, at: int, size: int, form: int = FORM_1) -> Answer:
    """N WRITTEN BUFFER, of a buffer of zeros."""
    return writef(sheet, justified, at, size, 0, form)


def move(sheet: Sheet, file: bytes, form: int, at: int, size: int, fill: int) -> Answer:
    """N WRITTEN POSITION BUFFER, of a buffer with the same byte all through; the current sheet is no matter."""
    refusal, written, position, buffer = dayfile.move(file, form, bytes([fill]) * size, at)
    return refusal, written, position, in_hex(buffer), sheet


CALLS: dict[str, tuple[tuple[Reader, ...], Callable[..., Answer]]] = {
    "open": ((a_measure,), lambda sheet, length, **further: s.open_sheet(length, **further)),
    "enter": ((an_id, an_id, a_code, a_code, a_measure, measures, measures), enter),
    "tank": ((an_id, an_id, a_code, a_measure, a_measure, measures, measures), s.enter_tank),
    "zones": ((a_measure, a_measure, a_measure, a_measure), zones),
    "withdraw": ((an_id,), s.withdraw),
    "mark": ((an_id, a_code), s.mark),
    "undo": ((), s.undo),
    "redo": ((), s.redo),
    "counts": ((), s.counts),
    "report": ((a_code,), s.report),
    "write": ((a_code, number, a_size), write),
    "writef": ((a_code, number, a_size, a_byte), writef),
    "read": ((a_file,), lambda sheet, file: dayfile.read(file)),
    "before": ((number, a_file), lambda sheet, start, file: dayfile.read_before(file, start)),
    "move": ((a_file, a_code, number, a_size, a_byte), move),
    "spaces": ((), spaces),
}
# Words that a line may have behind those of its call: in which groups, told by how many there are, and how each is
# read. Where one is left out, the call knows what to take for it: 0, and of forms the first.
MAY_FOLLOW: dict[str, tuple[tuple[str, ...], ...]] = {
    "open": (("vessel",),),
    "enter": (("deck",), ("fore", "aft"), ("fore", "aft", "deck")),
    "tank": (("deck",),),
    "write": (("form",),),
    "writef": (("form",),),
}
FURTHER: dict[str, Reader] = {"vessel": a_vessel, "fore": a_code, "aft": a_code, "deck": a_code, "form": a_code}


def further_words(words: list[str]) -> tuple[str, ...]:
    """The names of the words that a line has behind those that its call always has; none where they are no group."""
    name, *behind = words
    count = len(behind) - len(CALLS[name][0]) if name in CALLS else 0
    return next((group for group in MAY_FOLLOW.get(name, ()) if len(group) == count), ())


# Lines, of this protocol and of that of figures.py


def arguments(readers: dict[str, tuple[Reader, ...]], words: list[str], *further: Reader) -> list[Any]:
    """What the words of a line hand to its call, where each call's words are to be read so, and then further ones."""
    name, *behind = words
    if name not in readers:
        raise NoCall(UNKNOWN_CALL)
    asked = (*readers[name], *further)
    if len(asked) != len(behind):
        raise NoCall(WRONG_NUMBER_OF_WORDS)
    return [read(word) for read, word in zip(asked, behind)]


def handed_on(words: list[str]) -> tuple[list[Any], dict[str, Any]]:
    """What the words of a line hand to its call, and by their names those that could have been left out."""
    readers = {name: of_call for name, (of_call, _) in CALLS.items()}
    further = further_words(words)
    given = arguments(readers, words, *(FURTHER[name] for name in further))
    always = len(given) - len(further)
    return given[:always], dict(zip(further, given[always:]))


def answer_to(line: str, call: Callable[[list[str]], str]) -> str | None:
    """The answer to one line, None where it has none, by what makes the call of a line's words or raises NoCall."""
    if not line or line.startswith("#"):
        return None
    try:
        return call(line.split(" "))
    except NoCall as no_call:
        return str(no_call)


def answers_to(text: str, answer: Callable[[str], str | None]) -> str:
    """The answers to all lines of a script, each on its line; a character of the text is a byte."""
    if len(text) > MOST_BYTES:
        return SCRIPT_TOO_LONG + "\n"
    given = (answer(line) for line in text.split("\n"))
    return "".join(one + "\n" for one in given if one is not None)


class Session:
    """One current sheet, not open at the start."""

    def __init__(self) -> None:
        self.sheet = s.CLOSED

    def answer(self, line: str) -> str | None:
        """The answer to one line, None where it has none."""
        return answer_to(line, self.call)

    def call(self, words: list[str]) -> str:
        """Makes the call of a line's words; where they are none, NoCall is raised and nothing is changed."""
        given, further = handed_on(words)
        *values, self.sheet = CALLS[words[0]][1](self.sheet, *given, **further)
        return " ".join(map(str, values))

    def answers(self, text: str) -> str:
        """The answers to all lines of a script."""
        return answers_to(text, self.answer)


def answers(text: str) -> str:
    """The answers to a whole script."""
    return Session().answers(text)


def main() -> int:
    """Prints the answers to the script on standard input; latin-1 has a character for every byte."""
    sys.stdout.write(answers(sys.stdin.buffer.read().decode("latin-1")))
    return 0


if __name__ == "__main__":
    sys.exit(main())

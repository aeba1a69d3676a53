"""What a deposit is refused for, and what is said of one that is taken."""
import re
from enum import Enum

# How many things are told one by one, how many lines an envelope has of them, and how long one may
# be.
MOST_TOLD, MOST_LINES, MOST_LENGTH = 1_000, 100, 200
CONTROLS = re.compile('[\x00-\x1f\x7f-\x9f\u2028\u2029\ud800-\udfff]')


def printable(text: str) -> str:
    """A text on one line, that changes nothing at a terminal."""
    return CONTROLS.sub(lambda it: f'\\u{{{ord(it[0]):x}}}', text)


class Refusal(Exception):
    """Why a deposit is refused: where (a file, or a file with a line and a column), and what."""

    def __init__(self, where: str, what: str) -> None:
        super().__init__(f'{where}: {what}')


class Note(Enum):
    """Why something is told, by the word that its line begins with."""
    UNKNOWN = 'unknown'  # no line of the table of names has it, and the folder doesn't
    LEFT_OUT = 'left out'  # the desk has no table for it
    EMPTY = 'empty'  # a row is in the folder, and lacks a field that is required
    ORPHAN = 'orphan'  # a row is in the folder, and the object that it is of is not
    CONTROL = 'control'  # a cell has control characters
    RENAMED = 'renamed'  # it has another name in the folder, or had another one before
    TWICE = 'twice'  # another row has its key
    GIVEN = 'given'  # as what a deposit is given


class Notes:
    """What is to be told of a deposit, by why and what it is of, with a count."""

    def __init__(self) -> None:
        self.counts: dict[tuple[Note, str], int] = {}

    def add(self, note: Note, what: str, number: int = 1) -> None:
        place = note, what
        if place not in self.counts and len(self.counts) >= MOST_TOLD:
            place = note, 'others, which are not told one by one'
        self.counts[place] = self.counts.get(place, 0) + number

    def has(self, note: Note) -> bool:
        return any(it is note for it, _ in self.counts)

    def lines(self) -> list[str]:
        """A line of each, in the order of their texts."""
        found = sorted((note.value, what, count) for (note, what), count in self.counts.items())
        told = ((f'{word}: {printable(what)}', count) for word, what, count in found)
        return [
            f'{line if len(line) <= MOST_LENGTH else f"{line[:MOST_LENGTH]}.."} {count}'
            for line, count in told
        ]

    def for_envelope(self) -> list[str]:
        """The first of these lines, and how many more there are."""
        lines = self.lines()
        more = len(lines) - MOST_LINES
        return lines if more <= 0 else [*lines[:MOST_LINES], f'and {more} lines more']

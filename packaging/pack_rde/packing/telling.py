"""What is told of a deposit: notes, which are counted, and faults, which name their objects."""
import sqlite3
import sys
from collections import Counter
from collections.abc import Callable
from enum import Enum

from faults import Refusal

DONE, REFUSED, STOPPED = 0, 1, 3

# How many objects are named for one fault. Of the others the number is told.
MOST_NAMED = 10


class Note(Enum):
    """What becomes of something that the deposit can't have as it is in the tables."""
    LEFT_OUT = 'left out'   # the deposit does not have it
    FILLED = 'filled'       # an option filled it
    CHANGED = 'changed'     # it is read back as something else
    ORPHAN = 'orphan'       # rows without their object, which the deposit does not have


class Fault(Enum):
    """Why an object is no valid one of a deposit."""
    MISSING = 'missing'     # a mandatory part that the tables lack
    INVALID = 'invalid'     # a text that RFC 9022 does not allow there
    NO_ROOM = 'no room'     # more than the XML model has a place for


def shown(text: str) -> str:
    """A text in one line."""
    return text if text.isprintable() else repr(text)


class Report:
    """Collects notes and faults: of each fault its first objects, and the number of all."""

    def __init__(self) -> None:
        self.notes: Counter[tuple[Note, str]] = Counter()
        self.named: dict[tuple[Fault, str], list[str]] = {}
        self.faults: Counter[tuple[Fault, str]] = Counter()

    def forget(self) -> None:
        """What was told is told again."""
        self.notes.clear()
        self.named.clear()
        self.faults.clear()

    def note(self, word: Note, what: str, number: int = 1) -> None:
        self.notes[word, what] += number

    def fault(self, word: Fault, what: str, key: str, detail: str = '') -> None:
        """A fault of the object with this key; `what` begins with its kind, or with a table."""
        self.faults[word, what] += 1
        named = self.named.setdefault((word, what), [])
        if len(named) < MOST_NAMED:
            named.append(f'{shown(key)}: {detail}' if detail else shown(key))

    def lines(self) -> list[str]:
        found = [f'{word.value}: {shown(what)} {number}'
                 for (word, what), number in self.notes.items()]
        for (word, what), named in self.named.items():
            found += [f'{word.value}: {what} of {it}' for it in named]
            more = self.faults[word, what] - len(named)
            found += [f'{word.value}: {what} of {more} more'] if more else []
        return sorted(found)

    def number_of_faults(self) -> int:
        return sum(self.faults.values())


class FaultsAlone(Report):
    """Passes on the faults that an object has in either model, and nothing else."""

    def __init__(self, to: Report) -> None:
        super().__init__()
        self.to = to

    def note(self, word: Note, what: str, number: int = 1) -> None:
        pass

    def fault(self, word: Fault, what: str, key: str, detail: str = '') -> None:
        if word is not Fault.NO_ROOM:
            self.to.fault(word, what, key, detail)


def tell(*lines: str) -> None:
    for line in lines:
        print(line, file=sys.stderr)


def ended(program: str, report: Report, work: Callable[[], dict[str, int]]) -> int:
    """Does a program's work, tells what was told of it, prints its counts, and gives its status."""
    try:
        counts = work()
    except Refusal as refusal:
        tell(*report.lines(), f'{program}: {refusal}')
        return REFUSED
    except (OSError, sqlite3.Error) as error:
        tell(f'{program}: {error}')
        return STOPPED
    tell(*report.lines())
    for kind, number in counts.items():
        print(f'{kind} {number}')
    return DONE

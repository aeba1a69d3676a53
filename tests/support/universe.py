"""A tiny universe: bodies, rows that list them, and events, drawn by a seed. An event is the line
by which a desk is told of it."""
import random
from collections.abc import Callable
from collections.abc import Collection
from collections.abc import Iterable
from collections.abc import Sequence
from typing import NamedTuple
from typing import TypeVar

from tests.support.bundles import Table
from tests.support.bundles import deposit
from tests.support.bundles import manifest
from tests.support.formats import TYPES

It = TypeVar('It')
# The keys of objects, in their order, and names of some that are the same keys.
CONTACTS, DOMAINS = ('C1', 'C2'), ('a.example', 'b.example', 'c.example')
KEYS = CONTACTS + DOMAINS
OTHER_NAMES = {'a.example': 'A.example', 'b.example': 'b.EXAMPLE', 'c.example': 'C.EXAMPLE'}
# How many bodies a list has, and how many rows that say of a body what it isn't.
BODIES = 10
WRONG_ROWS = 3
# An id that no row has.
NO_ID = 999


class Header(NamedTuple):
    """What a deposit says of itself, or a row of a deposit: ids are numbers, and the place is a day
    of March 2024 and a type."""
    id: int
    day: int
    type: str
    prev: int | None = None
    resend: int = 0

    def __str__(self) -> str:
        prev = '' if self.prev is None else f'N{self.prev}'
        return f'N{self.id},{self.type},{moment_text(2 * self.day)},{prev},{self.resend}'


class Body(NamedTuple):
    """A body, its name, and what it says of itself, also if no deposit reads from it. No two are
    the same."""
    name: str
    header: Header
    bytes: bytes


class Row(NamedTuple):
    """A row that lists a body by its digest."""
    header: Header
    body: Body


class History:
    """What happens to a desk: the rows that are listed first, arrivals that version 1 answered, and
    the events then, with the files that they name. The store of a history with any such arrival is
    of version 1, and is migrated after them."""

    def __init__(self, bodies: Sequence[Body], first: Iterable[Row]) -> None:
        self.files = {it.name: it.bytes for it in bodies} | {'first.csv': manifest_text(first)}
        self.early: list[str] = []
        self.events: list[str] = []

    def shown(self) -> str:
        """The lines, and the manifests among them."""
        lines = ['create first.csv', *self.early, 'and then', *self.events]
        return ''.join(f'- {it}\n' +
                       (self.files[it.split()[1]].decode() if it.endswith('.csv') else '')
                       for it in lines)


def moment_text(half: int | None) -> str:
    """A moment, in half days of the month, or `latest`."""
    return 'latest' if half is None else f'2024-03-{half // 2:02}T{half % 2 * 12:02}:00:00Z'


def manifest_text(rows: Iterable[Row]) -> bytes:
    return manifest((it.header, it.body.bytes) for it in rows)


class Chance:
    """What is drawn, from numbers that a seed determines, or that another source of them gives."""

    def __init__(self, number_below: Callable[[int], int]) -> None:
        self.number_below = number_below

    @classmethod
    def of_seed(cls, seed: int) -> 'Chance':
        return cls(random.Random(seed).randrange)

    def below(self, count: int) -> int:
        """A number below a count, or 0."""
        return self.number_below(count) if count else 0

    def low_below(self, count: int) -> int:
        """A number below a count, or 0: low ones more often."""
        return min(self.below(count), self.below(count))

    def is_one_in(self, count: int) -> bool:
        """Whether it comes so, as in one of so many cases."""
        return self.below(count) == 0

    def one_of(self, items: Sequence[It]) -> It | None:
        """One of some items, or None where there is none."""
        at = self.below(len(items))
        return items[at] if items else None

    def low_one_of(self, items: Sequence[It]) -> It:
        """One of some items: the first ones more often."""
        return items[self.low_below(len(items))]

    def day(self) -> int:
        return self.below(8) + 1


def id_of(day: int, type: str) -> int:
    return day * 10 + TYPES.index(type)


def draw_full(chance: Chance) -> Header:
    day = chance.day()
    return Header(id_of(day, 'FULL'), day, 'FULL')


def draw_beside(chance: Chance, before: Header) -> Header:
    """A deposit after another one, another revision of it, which may have another previous id, or a
    Full: as it is before its resend is drawn, and its id anew."""
    type = ('FULL', 'INCR', 'INCR', *['DIFF'] * 5)[chance.below(8)]
    if chance.is_one_in(4):
        return before._replace(
            prev=NO_ID) if chance.is_one_in(6) and before.prev is not None else before
    if type == 'FULL':
        return draw_full(chance)
    # Mostly it is one or two days later, else on any day.
    later = chance.below(2) + 1
    day = chance.day() if chance.is_one_in(12) else before.day + later
    return Header(id_of(day, type), day, type, before.id)


def draw_header(chance: Chance, drawn: Sequence[Body]) -> Header:
    before = chance.one_of(drawn)
    if before is None:
        return draw_full(chance)
    header = draw_beside(chance, before.header)
    # Mostly a resend that no other body has at the place, and sometimes a second id of the place.
    if not chance.is_one_in(12):
        header = header._replace(resend=sum(
            (it.header.day, it.header.type) == (header.day, header.type) for it in drawn))
    return header._replace(id=id_of(header.day, header.type) +
                           100) if chance.is_one_in(8) else header


def rows_of(lines: Iterable[tuple[str, int]], keys: Collection[str], word: str) -> str:
    """The rows of some keys, of each its key and its number after a word."""
    return ''.join(f'{key},{word}{mark}\n' for key, mark in lines if key in keys)


def draw_body(chance: Chance, drawn: Sequence[Body]) -> Body:
    """A body, from which sometimes no deposit reads. What it counts is its index, so that no two
    bodies are the same."""
    index, header = len(drawn), draw_header(chance, drawn)
    deletes = [chance.one_of(KEYS) for _ in range(chance.below(3))]
    # Keys, each with a number that no other row has.
    parents = [(chance.one_of(KEYS), index * 10 + at) for at in range(chance.below(3) + 1)]
    children = [(chance.one_of(DOMAINS), index * 10 + 5 + at) for at in range(chance.below(3))]
    fault = {0: 1, 1: 5, 2: 9, 3: 10}.get(chance.below(50))
    # (The rows of U9 and of U10 have one field, and an empty key.)
    faulty = {9: 'C1\n', 10: ',r\n'}.get(fault, '')
    contents = (Table('contact', 'contact', 'parent', ('id', 'clID'),
                      (faulty + rows_of(parents, CONTACTS, 'r')).encode()),
                Table('domain', 'domain', 'parent', ('name', 'clID'),
                      rows_of(parents, DOMAINS, 'r').encode()),
                Table('domainNs', 'domain', 'child', ('domainName', 'hostName'),
                      rows_of(children, DOMAINS, 'ns').encode()))
    gone = [
        Table(kind, kind, 'parent', fields, ''.join(f'{OTHER_NAMES.get(it, it)}\n' for it in deletes
                                                    if it in keys).encode())
        for kind, fields, keys in (('contact', ('id',), CONTACTS), ('domain', ('name',), DOMAINS))
    ]
    made = deposit(header, contents, gone, {'domain': index})
    return Body(
        f'body{index}', header,
        made[:-1] if fault == 1 else made.replace(b'{"id"', b'["id"', 1) if fault == 5 else made)


def drawn(chance: Chance) -> tuple[list[Body], list[Row]]:
    """The bodies that there are, and the rows: those that say of each body
    what it is, and then some with one of their values changed."""
    bodies: list[Body] = []
    for _ in range(BODIES):
        bodies.append(draw_body(chance, bodies))
    rows, wrong = [Row(it.header, it) for it in bodies], []
    for _ in range(WRONG_ROWS):
        it, body = chance.one_of(rows)
        changes = ({'id': it.id + 200}, {'day': it.day + 1}, {'type': 'FULL'},
                   {'resend': it.resend + 1}, {'prev': NO_ID}, {'prev': it.id - 10})
        wrong.append(Row(it._replace(**changes[chance.below(6)]), body))
    return bodies, rows + wrong


def draw_first(chance: Chance, rows: Sequence[Row]) -> Row:
    """The row that is listed first: that of a Full, since a row that contradicts itself makes no
    store."""
    row = rows[chance.low_below(BODIES)]
    return row if row.header.type == 'FULL' else rows[0]


def draw_arrival(chance: Chance, bodies: Sequence[Body], events: Sequence[str]) -> str:
    """An arrival: any body under any number, or as often the one whose turn it is; or one of those
    that came, under the same number or another one; or another body under its number."""
    number = f'n{chance.below(7) + 1}'
    body = (chance.low_one_of(bodies) if chance.is_one_in(2) else
            bodies[sum(it.startswith('comes') for it in events) % BODIES]).name
    before = (chance.one_of(events) or '').split()
    case = chance.below(9)
    if case < 3 and before[:1] == ['comes']:
        _, old_number, old_body = before
        number, body = ((old_number, old_body), (number, old_body), (old_number, body))[case]
    return f'comes {number} {body}'


def draw_event(chance: Chance, bodies: Sequence[Body], rows: Sequence[Row], history: History,
               closes: bool) -> str:
    """An event that comes after others. An amendment lists some of the rows, each once."""
    case = chance.below(16)
    if case == 0 and closes:
        return 'close'
    if case <= 2:
        return f'as-of {moment_text(None if chance.is_one_in(2) else chance.below(20) + 4)}'
    if case <= 5:
        name = f'rows{len(history.files)}.csv'
        history.files[name] = manifest_text(
            dict.fromkeys(chance.low_one_of(rows) for _ in range(chance.below(7) + 1)))
        return f'amend {name}'
    return draw_arrival(chance, bodies, history.early + history.events)


def draw_history(chance: Chance, count: int, closes: bool) -> History:
    """A history with so many events, and whether the store is closed now and then."""
    bodies, rows = drawn(chance)
    history = History(bodies, [draw_first(chance, rows)])
    for _ in range(count):
        history.events.append(draw_event(chance, bodies, rows, history, closes))
    return history

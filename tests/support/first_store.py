"""The rows of a store's tables, by the plain model and the words of docs/DEFINITIONS.md; and stores
of version 1, which have the first seven of them, made by the C library (python's sqlite3). Nothing
of the program is used."""
import contextlib
import random
import sqlite3
from collections.abc import Iterable
from collections.abc import Mapping
from collections.abc import Sequence

from tests.support.formats import KINDS
from tests.support.formats import TYPES
from tests.support.formats import Named
from tests.support.formats import held_in
from tests.support.model import Desk

# The values of a row.
Values = tuple[int | str | bytes | None, ...]
TABLES = {
    'info': 'id INTEGER PRIMARY KEY CHECK (id = 1), version INTEGER NOT NULL',
    'listed': 'row INTEGER PRIMARY KEY, id TEXT NOT NULL, type INTEGER NOT NULL, watermark '
    'INTEGER NOT NULL, prev TEXT,'
    ' resend INTEGER NOT NULL, digest BLOB NOT NULL UNIQUE, UNIQUE (watermark, type, resend)',
    'receipt': 'receipt INTEGER PRIMARY KEY, number TEXT NOT NULL, digest BLOB NOT NULL, verdict '
    'INTEGER NOT NULL,'
    ' fault INTEGER, row INTEGER REFERENCES listed, again INTEGER, orphans INTEGER, UNIQUE '
    '(number, digest)',
    'held': 'row INTEGER PRIMARY KEY REFERENCES listed, body BLOB NOT NULL',
    'step': 'pos INTEGER PRIMARY KEY, row INTEGER NOT NULL UNIQUE REFERENCES held',
    'object': 'kind INTEGER NOT NULL, key BLOB NOT NULL, record BLOB NOT NULL, PRIMARY KEY (kind, '
    'key)',
    'undo': 'pos INTEGER NOT NULL, kind INTEGER NOT NULL, key BLOB NOT NULL, record BLOB, PRIMARY '
    'KEY (pos, kind, key)',
}


def undo_of(desk: Desk) -> list[tuple[int, int, bytes, bytes | None]]:
    """What stood before each step of a desk's chain: step, kind, key and record."""
    objects: dict[Named, bytes | None] = {}
    undo = []
    for pos, row in enumerate(desk.steps, 1):
        says = held_in(desk.held[row]).says
        undo += [(pos, KINDS.index(kind), key, objects.get((kind, key))) for kind, key in says]
        objects |= says
    return sorted(undo)


def rows_of(desk: Desk) -> dict[str, Sequence[Values]]:
    return {
        'info': [(1, 2)],
        'listed': [(at, name, TYPES.index(place[1]), place[0], prev, resend, bytes.fromhex(digest))
                   for at, (name, place, prev, resend, digest) in enumerate(desk.listed)],
        'receipt': [(it.receipt, it.number, bytes.fromhex(it.digest), int(it.verdict[1]),
                     int(it.fault[1:]) if it.fault else None, it.row, it.again, it.orphans)
                    for it in desk.receipts.values()],
        'held': sorted(desk.held.items()),
        'step': list(enumerate(desk.steps, 1)),
        'object': sorted(
            (KINDS.index(kind), key, kept) for (kind, key), kept in desk.objects.items()),
        'undo': undo_of(desk),
        'parked': [(bytes.fromhex(it), desk.kept[it]) for it in desk.parked],
        'moment': [] if desk.moment is None else [(1, desk.moment)],
    }


def first_rows(manifest: bytes,
               arrivals: Iterable[tuple[str, bytes]]) -> dict[str, Sequence[Values]]:
    """The rows of a store of version 1 that lists a manifest's rows and took arrivals, numbers with
    bodies."""
    rows = rows_of(Desk(manifest, early=arrivals)) | {'info': [(1, 1)]}
    return {table: rows[table] for table in TABLES}


def literal(value: int | str | bytes | None) -> str:
    if value is None:
        return 'NULL'
    if isinstance(value, bytes):
        return f"X'{value.hex()}'"
    return "'{}'".format(value.replace("'", "''")) if isinstance(value, str) else f'{value:d}'


def insertion(table: str, row: Values) -> str:
    """The statement that inserts a row into a table. Names of columns may follow the table's
    name."""
    return f'INSERT INTO {table} VALUES ({", ".join(map(literal, row))});\n'


def first_script(rows: Mapping[str, Sequence[Values]]) -> str:
    """The statements that make the tables of version 1, with these rows, which come in another
    order than their keys: any history may."""
    made = [f'CREATE TABLE {table} ({columns});\n' for table, columns in TABLES.items()]
    return ''.join([
        *made, *(insertion(table, row) for table, kept in rows.items()
                 for row in random.Random(1).sample(kept, len(kept)))
    ])


def write_store(store: str, rows: Mapping[str, Sequence[Values]]) -> None:
    """Makes a store of version 1 from the texts of its tables."""
    with contextlib.closing(sqlite3.connect(store)) as database:
        database.executescript(f'BEGIN;\n{first_script(rows)}COMMIT;\n')

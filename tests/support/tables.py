"""Registry objects as `handover tables` writes them, and as a folder of `unpack_rde` has them.

An object is a list of rows, as in documents.py: a table and its cells, the parent row first."""
import csv
import io
import os
from collections.abc import Callable
from collections.abc import Iterable
from collections.abc import Sequence

from tests.support.documents import KEYS
from tests.support.escrow import description_in
from tests.support.escrow import rows_in

LETTERS = {ord(it): it.lower() for it in 'ABCDEFGHIJKLMNOPQRSTUVWXYZ'}
LOWERED = ('domain', 'host')

Row = tuple[str, dict[str, str]]
# The rows of each table, by the key of their object.
Tables = dict[str, dict[str, list[dict[str, str]]]]


def key_of(kind: str, cells: dict[str, str]) -> str:
    key = cells.get(KEYS[kind], '')
    return key.translate(LETTERS) if kind in LOWERED else key


def in_tables(objects: Iterable[Sequence[Row]]) -> Tables:
    """The rows of each table by the key of their object, each with its own key and the cells that
    aren't empty."""
    found: Tables = {}
    for rows in objects:
        kind, parent = rows[0]
        own = {KEYS[kind]: parent.get(KEYS[kind], '')}
        for table, cells in rows:
            full = {name: text for name, text in {**own, **cells}.items() if text}
            found.setdefault(table, {}).setdefault(key_of(kind, parent), []).append(full)
    return found


def quoted_rows(rows: Iterable[Sequence[str]]) -> str:
    """Rows of CSV with each field in quotes: without, Python's writer leaves a CR bare."""
    text = io.StringIO(newline='')
    csv.writer(text, lineterminator='\n', quoting=csv.QUOTE_ALL).writerows(rows)
    return text.getvalue()


def write_tables(folder: str, objects: Iterable[Sequence[Row]],
                 order: Callable[[Iterable[str]], Iterable[str]] = sorted) -> None:
    """Writes a folder of `handover tables`, with the keys of each table in this order."""
    none: Tables = {kind: {} for kind in KEYS}
    tables = none | in_tables(objects)
    for table, rows in tables.items():
        fields = list(dict.fromkeys(name for its in rows.values() for row in its for name in row))
        os.makedirs(folder, exist_ok=True)
        with open(f'{folder}/{table}.csv', 'w', encoding='utf-8', newline='') as file:
            file.write(quoted_rows([['key', *fields]]))
            for key in order(rows):
                file.write(quoted_rows([key, *(row.get(it, '') for it in fields)]
                                       for row in rows[key]))


def tables_in(folder: str) -> Tables:
    """The same of a folder that `unpack_rde` wrote of a Full."""
    found: Tables = {}
    for table in description_in(folder)['contents']:
        for row in rows_in(folder, table):
            key = row[table['key']]
            key = key.translate(LETTERS) if table['kind'] in LOWERED else key
            cells = {name: text for name, text in row.items() if text}
            found.setdefault(table['name'], {}).setdefault(key, []).append(cells)
    return found

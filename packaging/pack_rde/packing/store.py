"""The tables that bundles make, in a database on disk: the objects by their keys."""
import json
import sqlite3

from packing.bundles import Bundle
from packing.bundles import Table
from keys import LETTERS
from keys import LOWERED
from names import Names
from packing.tables import Cells
from packing.tables import KINDS
from packing.tables import Rows
from packing.tables import TablesFolder
from packing.telling import Note
from packing.telling import Report

SCHEMA = """
PRAGMA journal_mode = OFF;
PRAGMA synchronous = OFF;
PRAGMA cache_size = -4000;
CREATE TABLE object (kind TEXT, key TEXT, deposit INTEGER, cells TEXT, PRIMARY KEY (kind, key))
  WITHOUT ROWID;
CREATE TABLE child (name TEXT, kind TEXT, key TEXT, deposit INTEGER, cells TEXT);
BEGIN;
"""
# An object's rows are those of the deposit that it is of.
CHILDREN = """SELECT child.key, child.cells FROM child JOIN object USING (kind, key, deposit)
WHERE child.name = ? ORDER BY child.key, child.rowid"""


class Store:
    """A source of tables. Its file is beside the deposit, and gone when the program ends."""

    def __init__(self, names: Names, report: Report) -> None:
        self.tables, self.report = names.tables, report
        self.base = sqlite3.connect('', isolation_level=None)
        self.base.executescript(SCHEMA)

    def close(self) -> None:
        self.base.close()

    # ---- what is taken

    def take(self, number: int, bundle: Bundle) -> None:
        """Applies a deposit: its deletes first, which a Full has none of, then its objects."""
        for table in bundle.deletes if bundle.type != 'FULL' else ():
            for row in bundle.rows(table):
                key = self.key_in(table.kind, row[table.key])
                self.base.execute('DELETE FROM object WHERE kind = ? AND key = ?',
                                  (table.kind, key))
        for table in bundle.contents:
            for row in bundle.rows(table):
                cells = {name: text for name, text in zip(table.fields, row) if text}
                self.add(number, table, self.key_in(table.kind, row[table.key]), cells)

    @staticmethod
    def key_in(kind: str, text: str) -> str:
        return text.translate(LETTERS) if kind in LOWERED else text

    def add(self, number: int, table: Table, key: str, cells: Cells) -> None:
        text = json.dumps(cells, ensure_ascii=False)
        if table.is_parent:
            self.base.execute('INSERT OR REPLACE INTO object VALUES (?, ?, ?, ?)',
                              (table.kind, key, number, text))
        elif self.base.execute('SELECT 1 FROM object WHERE kind = ? AND key = ? AND deposit = ?',
                               (table.kind, key, number)).fetchone():
            self.base.execute('INSERT INTO child VALUES (?, ?, ?, ?, ?)',
                              (self.named(table), table.kind, key, number, text))
        else:
            self.report.note(Note.ORPHAN, f'rows of {table.name} of no {table.kind}')

    # A table of another kind than the one of this name is another table.
    def named(self, table: Table) -> str:
        known = self.tables.get(table.name)
        is_its = known is None or known.kind == table.kind
        return table.name if is_its else f'{table.name} of {table.kind}'

    def take_folder(self, folder: TablesFolder) -> None:
        """Takes the files of a folder whose rows are in another order than that of keys."""
        there = folder.names()
        known = [it for it in self.tables.values() if it.name in there]
        for it in sorted(known, key=lambda it: not it.is_parent):
            table = Table(it.name, it.kind, it.is_parent, 0, [], (0, 0))
            for key, cells in folder.unordered_rows(it.name):
                self.add(0, table, key, cells)

    def settle(self) -> None:
        """Everything is taken."""
        self.base.execute('CREATE INDEX by_key ON child (name, key, deposit)')

    # ---- a source

    def names(self) -> list[str]:
        found = [it for it, in self.base.execute('SELECT DISTINCT name FROM child ORDER BY name')]
        return [*KINDS, *found]

    def rows(self, table: str) -> Rows:
        if table in KINDS:
            found = self.base.execute('SELECT key, cells FROM object WHERE kind = ? ORDER BY key',
                                      (table,))
        else:
            found = self.base.execute(CHILDREN, (table,))
        for key, cells in found:
            yield key, json.loads(cells)

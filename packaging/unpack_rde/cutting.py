"""Cuts the contents of a kind whose rows came table by table, so that each object stands whole in
one portion.

The files are read twice: first for the number of rows and bytes of each object, which is kept in
the file of the keys; then each row is written into the portion of its object. The rows of a table
stay in their order."""
import csv
import os
from bisect import bisect_right
from collections.abc import Iterator

from faults import Refusal
from keys import Keys
from keys import compared
from writing import Portions
from writing import TableFile
from writing import row_text

# How many files are open at a time.
MOST_OPEN = 64
ADD = '''INSERT INTO size (key, rows, bytes) VALUES (?, ?, ?)
  ON CONFLICT (key) DO UPDATE SET rows = rows + excluded.rows, bytes = bytes + excluded.bytes'''


class Cutting:
    """One kind's rows, from the portions that they came in."""

    def __init__(self, portions: Portions, keys: Keys, where: str) -> None:
        self.portions, self.store, self.where = portions, keys.store, where
        self.before = portions.all
        self.firsts: list[int] = []  # of each portion but the first the first object, by its number
        self.open: dict[int, TableFile] = {}

    def cut(self) -> None:
        self.portions.close()
        self.portions.all = []
        self.store.execute(
            'CREATE TABLE size (number INTEGER PRIMARY KEY, key TEXT UNIQUE, rows INTEGER, '
            'bytes INTEGER)'
        )
        try:
            self.measure()
            self.share()
            for table in self.portions.tables:
                self.distribute(table)
            for it in self.before:
                os.rmdir(it.folder)
        finally:
            self.store.execute('DROP TABLE size')

    def files(self, table: str) -> list[TableFile]:
        return [it.tables[table] for it in self.before if table in it.tables]

    def rows(self, file: TableFile) -> Iterator[tuple[str, bytes]]:
        """The rows of a file, each with the key of its object."""
        at, kind = file.fields.index(file.table.key), self.portions.kind
        with open(file.path, encoding='utf-8', newline='') as opened:
            rows = csv.reader(opened, strict=True)
            next(rows)
            for row in rows:
                yield compared(kind, row[at]), row_text(row).encode()

    def measure(self) -> None:
        """Adds up the rows of each object. Parents come first: their order is that of the
        objects."""
        for table in self.portions.tables:
            for file in self.files(table):
                key, count, size = None, 0, 0
                for its, data in self.rows(file):
                    if its != key and count:
                        self.store.execute(ADD, (key, count, size))
                        count = size = 0
                    key, count, size = its, count + 1, size + len(data)
                if count:
                    self.store.execute(ADD, (key, count, size))

    def share(self) -> None:
        """Finds where each portion begins."""
        limits, rows, size = self.portions.limits, 0, 0
        for number, key, its_rows, its_size in self.store.execute(
                'SELECT number, key, rows, bytes FROM size ORDER BY number'):
            if its_rows > limits.rows or its_size > limits.size:
                raise Refusal(self.where, too_large(self.portions.kind, key))
            if rows + its_rows > limits.rows or size + its_size > limits.size:
                self.firsts.append(number)
                rows = size = 0
            rows, size = rows + its_rows, size + its_size

    def distribute(self, table: str) -> None:
        """Writes the rows of a table into the portions of their objects, and removes the files that
        they came in."""
        key, number = None, 0
        for file in self.files(table):
            for its, data in self.rows(file):
                if its != key:
                    (number,) = self.store.execute('SELECT number FROM size WHERE key = ?',
                                                    (its,)).fetchone()
                    key = its
                at = bisect_right(self.firsts, number)
                self.file_in(at, table, file.fields).write(data)
                self.portions.all[at].rows += 1
                self.portions.all[at].size += len(data)
            os.remove(file.path)
            if key is None:
                # A table without rows stays declared: what reads a bundle may look for its fields.
                self.file_in(0, table, file.fields)
        self.portions.close()
        self.open.clear()

    def file_in(self, at: int, table: str, fields: list[str]) -> TableFile:
        """The file of a table in the portion with this number; of those open the one longest unused
        is closed where they are many."""
        file = self.open.pop(at, None)
        if file is None:
            while len(self.portions.all) <= at:
                self.portions.begin()
            file = self.portions.file(self.portions.all[at], table, fields)
            if len(self.open) >= MOST_OPEN:
                self.open.pop(next(iter(self.open))).close()
        self.open[at] = file
        return file


def too_large(kind: str, key: str) -> str:
    return f'the {kind} {key} alone has more rows or bytes than one bundle takes'

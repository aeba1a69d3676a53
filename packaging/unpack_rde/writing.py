"""Writes the rows of a deposit: CSV files, each of a table, in portions that one bundle can
take."""
import os
from collections.abc import Callable
from collections.abc import Iterator
from typing import BinaryIO
from typing import NamedTuple

from names import Table

Lines = list[tuple[str, str]]
DESCRIPTION = 'envelope.json'


class Limits(NamedTuple):
    """How many rows a bundle has at most, and how many bytes of rows."""
    rows: int
    size: int


def row_text(row: list[str]) -> str:
    text = ','.join(row)
    # A row of one empty field would be an empty line, which is no row.
    if text and text.count(',') < len(
            row) and '"' not in text and '\n' not in text and '\r' not in text:
        return f'{text}\n'
    return ','.join(map(field_text, row)) + '\n' if row != [''] else '""\n'


def field_text(field: str) -> str:
    is_quoted = '"' in field or ',' in field or '\n' in field or '\r' in field
    return '"' + field.replace('"', '""') + '"' if is_quoted else field


class TableFile:
    """The rows of a table in one portion: a file that begins with its fields' names."""
    __slots__ = ('path', 'name', 'table', 'is_of_deletes', 'fields', 'rows', 'size', 'file')

    def __init__(self, folder: str, table: Table, is_of_deletes: bool, fields: list[str]) -> None:
        self.table, self.is_of_deletes, self.fields = table, is_of_deletes, fields
        self.name = f'{table.name}-delete.csv' if is_of_deletes else f'{table.name}.csv'
        self.path, self.rows, self.size = os.path.join(folder, self.name), 0, 0
        self.file: BinaryIO | None = open(self.path, 'xb')
        self.file.write(row_text(fields).encode())

    def write(self, data: bytes) -> None:
        if self.file is None:
            self.file = open(self.path, 'ab')
        self.file.write(data)
        self.rows += 1
        self.size += len(data)

    def close(self) -> None:
        if self.file is not None:
            self.file.close()
        self.file = None

    def move(self, folder: str) -> None:
        """Puts the file into another folder."""
        self.close()
        path = os.path.join(folder, self.name)
        os.rename(self.path, path)
        self.path = path

    def declaration(self) -> dict:
        front = 'deleted-' if self.is_of_deletes else ''
        return {
            'name': self.table.name, 'kind': self.table.kind,
            'role': 'parent' if self.is_of_deletes or self.table.is_parent else 'child',
            'key': self.table.key, 'fields': self.fields,
            'file': self.table.section or f'{front}{self.table.name.lower()}.csv',
            'from': [self.name], 'heading': True
        }


class Portion:
    """What one bundle has of the contents, or of the deletes, of a kind."""

    def __init__(self, folder: str) -> None:
        self.folder, self.rows, self.size = folder, 0, 0
        self.tables: dict[str, TableFile] = {}

    def write(self, file: TableFile, data: bytes) -> None:
        file.write(data)
        self.rows += 1
        self.size += len(data)

    def close(self) -> None:
        for it in self.tables.values():
            it.close()


class Portions:
    """The contents, or the deletes, of a kind. Rows are put object by object; or table by table,
    and `cutting` puts them again if one bundle can't take them."""

    def __init__(self, kind: str, is_of_deletes: bool, limits: Limits, new_folder: Callable[[],
                                                                                            str],
                 columns: Callable[[str], list[str]], tables: dict[str, Table]) -> None:
        self.kind, self.is_of_deletes = kind, is_of_deletes
        self.limits, self.new_folder = limits, new_folder
        self.columns, self.tables = columns, tables
        self.all: list[Portion] = []
        self.is_by_table = False

    def begin(self) -> Portion:
        if self.all:
            self.all[-1].close()
        self.all.append(Portion(self.new_folder()))
        return self.all[-1]

    def file(self, portion: Portion, table: str, fields: list[str] | None = None) -> TableFile:
        """The file of a table in a portion, which is made where there is none yet."""
        if table not in portion.tables:
            portion.tables[table] = TableFile(portion.folder, self.tables[table],
                                              self.is_of_deletes, fields or self.columns(table))
        return portion.tables[table]

    def takes(self, portion: Portion, rows: int, size: int) -> bool:
        return portion.rows + rows <= self.limits.rows and portion.size + size <= self.limits.size

    def put(self, lines: Lines) -> bool:
        """Writes the rows of an object, each a table and its text. Whether one bundle can take
        them."""
        rows = [(table, text.encode()) for table, text in lines]
        size = sum([len(data) for _, data in rows])
        portion = self.all[-1] if self.all else self.begin()
        if not self.takes(portion, len(rows), size):
            if len(rows) > self.limits.rows or size > self.limits.size:
                return False
            portion = self.begin()
        files = portion.tables
        for table, data in rows:
            (files.get(table) or self.file(portion, table)).write(data)
        portion.rows += len(rows)
        portion.size += size
        return True

    def staged(self, table: str, fields: list[str]) -> Iterator[None]:
        """Takes the rows of a table, one after the other, whatever a bundle can take: each is sent
        as its text."""
        self.is_by_table = True
        portion = self.all[-1] if self.all else self.begin()
        file = self.file(portion, table, fields)
        while True:
            text = yield
            portion.write(file, text.encode())

    def is_to_cut(self) -> bool:
        """Whether rows that came table by table are more than one bundle can take."""
        return self.is_by_table and (len(self.all) > 1 or not self.takes(self.all[0], 0, 0))

    def close(self) -> None:
        for it in self.all:
            it.close()

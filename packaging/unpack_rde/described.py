"""Takes the CSV files of a folder and their description: a deposit that came as bare files, which
`pack bundle` takes as they are where one bundle does."""
import os
from collections.abc import Iterator

from cutting import too_large
from description import Source
from description import read_description
from faults import Note
from faults import Notes
from faults import Refusal
from folder import SECONDS
from names import KINDS
from names import Table
from progress import Progress
from unpacking import Asked
from unpacking import Unpacking
from writing import Portions
from writing import row_text

MARK = '\ufeff'


class Described(Unpacking):
    """Takes the rows of the files that a description names."""

    def __init__(self, asked: Asked, notes: Notes, progress: Progress) -> None:
        self.description = read_description(asked.document)
        sources = self.description.sources
        for it in sources:
            if f'{it.table.name}.csv' == SECONDS:
                raise Refusal(asked.document, f'the table {it.table.name} has the name of a file '
                              'that unpack_rde writes: give it another one')
        super().__init__(asked, notes, progress, dict.fromkeys(it.table.name for it in sources))
        self.envelope, self.counts, self.told, _ = self.description
        self.portions = {(kind, is_of_deletes): self.portions_of(kind, is_of_deletes)
                         for is_of_deletes in (True, False)
                         for kind in KINDS}

    def portions_of(self, kind: str, is_of_deletes: bool) -> Portions:
        its = {
            it.table.name: it
            for it in self.description.sources
            if (it.table.kind, it.is_of_deletes) == (kind, is_of_deletes)
        }
        return Portions(kind, is_of_deletes, self.asked.limits, self.folder.new_portion,
                        lambda name: its[name].fields, {name: it.table for name, it in its.items()})

    def read(self) -> None:
        named = [name for it in self.description.sources for name in it.files]
        self.progress.add(os.path.join(self.asked.files, it) for it in named)
        for source in self.description.sources:
            if source.is_of_deletes:
                self.take_deletes(source)
            else:
                self.take_contents(source)
        self.place = None
        self.tell_unnamed(set(named), 'description')

    def rows(self, source: Source) -> Iterator[tuple[str, list[str]]]:
        """The rows of a table, each with its key."""
        for name in source.files:
            yield from self.rows_of_file(source, self.files.path(self.path, name))

    def rows_of_file(self, source: Source, path: str) -> Iterator[tuple[str, list[str]]]:
        at = source.fields.index(source.table.key)
        rows = self.files.rows_of_file(path, {}, ',', len(source.fields))
        if source.has_heading:
            self.check_heading(path, source, next(rows, None))
        for _, number, row in rows:
            self.place = path, number
            self.check_row(source, row)
            self.check_key(source.table, row[at])
            self.progress.tell()
            yield row[at], row

    def check_row(self, source: Source, row: list[str]) -> None:
        """Refuses a row that a reader would take for another one, if it came first."""
        if row[0].startswith(MARK):
            raise self.refused('a row begins with a byte order mark: take it out')
        for field, value in zip(source.fields, row):
            self.tell_control(source.table, field, value)

    def check_heading(self, path: str, source: Source,
                      first: tuple[str, int, list[str]] | None) -> None:
        """Refuses a file that does not begin with the names of its fields."""
        if first is None or not source.is_heading(first[2]):
            raise Refusal(path, f'it does not begin with the fields of {source.table.name}: '
                          f'{",".join(source.fields)}')

    def take_contents(self, source: Source) -> None:
        write = self.portions[source.table.kind, False].staged(source.table.name, source.fields)
        next(write)
        for key, row in self.rows(source):
            self.take_key(source.table, key)
            write.send(row_text(row))

    def take_key(self, table: Table, key: str) -> None:
        """Takes the key of a row. What the desk finds of it is told."""
        if not table.is_parent:
            self.tell_orphan(table, key)
            return
        self.progress.objects += 1
        if not self.keys.add(table.kind, key):
            self.notes.add(Note.TWICE, f'row of {table.name} of a {table.kind} that an earlier row '
                           'has: of several the desk takes the last')

    def take_deletes(self, source: Source) -> None:
        table = source.table
        for key, row in self.rows(source):
            if not self.portions[table.kind, True].put([(table.name, row_text(row))]):
                raise self.refused(too_large(table.kind, key))

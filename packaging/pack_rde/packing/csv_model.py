"""Writes the tables of a kind as CSV files of RFC 9022, and what its document says of them."""
import hashlib
import os
import sqlite3
from collections.abc import Iterable
from typing import NamedTuple

from names import Names
from packing.rest import CREDENTIALS
from packing.tables import Cells
from packing.tables import Object
from packing.tables import Survey
from packing.telling import Fault
from packing.telling import Note
from packing.telling import Report
from writing import row_text
from packing.xml_model import quoted

CUSTOM, LOCAL = 'custom.', 'loc.'
# The elements of files and of fields have prefixes of these names.
OWN, COMMON = 'csv', 'rdeCsv'
# What the files of one kind have of others: addresses of contacts, and of hosts.
OTHERS = ('csvContact', 'csvHost')
ENCODING = 'utf-8'
# The kinds whose objects files name by their ROIDs.
BY_ROID = ('host',)


class Column(NamedTuple):
    """A column of a file: the field of the table, its element with the attributes, and whether its
    text is the ROID of the object, in place of its key."""
    field: str
    element: str
    is_roid: bool = False


class Definition(NamedTuple):
    """A table in this model: the name and the prefix of its files."""
    purpose: str
    prefix: str


def definitions_of(names: Names) -> dict[str, Definition]:
    """How the CSV files of each table are called, by the table."""
    found = {}
    for name, table in names.lines['csv'].items():
        prefix, _, rest = name.partition(':')
        section, _, purpose = rest.partition('/')
        if section == 'contents':
            found.setdefault(table, Definition(purpose, prefix))
    return found


class Fields:
    """Finds the element by which a field of a table is declared: what `unpack_rde` reads as it."""

    def __init__(self, names: Names, report: Report) -> None:
        self.names, self.report, self.definitions = names, report, definitions_of(names)
        # The prefixes of the elements that are used.
        self.prefixes = dict.fromkeys([COMMON, *(it.prefix for it in self.definitions.values())])
        # The elements that are read as a field of a table, or of any.
        self.elements: dict[tuple[str, str], list[str]] = {}
        for name, becomes in names.lines['field'].items():
            table, _, element = name.partition('/')
            self.elements.setdefault((table, becomes), []).append(element)

    def columns(self, table: str, survey: Survey) -> list[Column]:
        """The columns of a table, the key first: its fields that a row has."""
        declared = self.names.tables[table]
        there = [it for it in self.names.columns(table) if survey.fields[it]]
        there += sorted(set(survey.fields) - set(there))
        rest = [it for it in there if it != declared.key and not self.is_left(table, it, there)]
        return [self.key_column(table), *(self.column(table, it, survey) for it in rest)]

    # Whether a field is left out: a credential, or one that would have the name of a custom one.
    def is_left(self, table: str, field: str, there: list[str]) -> bool:
        if CREDENTIALS.fullmatch(field.rpartition('.')[2]):
            self.report.note(Note.LEFT_OUT, f'{table}.{field}, since credentials are not escrowed')
            return True
        if f'{CUSTOM}{field}' in there and self.element(table, field) is None:
            self.report.note(Note.LEFT_OUT, f'{table}.{field}, since there is {CUSTOM}{field}')
            return True
        return False

    def key_column(self, table: str) -> Column:
        declared = self.names.tables[table]
        parent = '' if declared.is_parent else ' parent="true"'
        # The child tables of hosts name them by their ROIDs.
        by_roid = [element for (its, becomes), found in self.elements.items() for element in found
                   if its == table and becomes.startswith(f'{declared.key} of ')]
        if by_roid and not declared.is_parent:
            return Column(declared.key, f'<{by_roid[0]}{parent}/>', True)
        element = self.element(table, declared.key)
        return Column(declared.key, f'<{element}{parent}/>')

    def column(self, table: str, field: str, survey: Survey) -> Column:
        plain, given = field, ''
        if plain.startswith(LOCAL):
            plain, given = plain.removeprefix(LOCAL), ' isLoc="true"'
        stem, dot, index = plain.rpartition('.')
        if dot and index.isdecimal():
            plain, given = stem, f' index="{index}"{given}'
        element = self.element(table, plain)
        if element is None:
            return Column(field, self.custom(table, field, survey))
        # Fields of which some rows have no text are not mandatory.
        optional = ' isRequired="false"' if survey.fields[field] < survey.rows else ''
        name, bracket, custom = element.partition('[')
        if bracket:
            given = f' name="{quoted(custom.removesuffix("]"))}"{given}'
        return Column(field, f'<{name}{given}{optional}/>')

    def element(self, table: str, field: str) -> str | None:
        """The element of a field: one of this table, or one of any; of those of several objects
        that of the table's own object."""
        found = self.elements.get((table, field)) or [
            it for it in self.elements.get(('*', field), ())
            if f'{table}/{it}' not in self.names.lines['field']]
        order = [self.definitions[table].prefix, COMMON, *OTHERS]
        known = [it for prefix in order for it in found if it.startswith(f'{prefix}:')]
        # Then those of an operator's own.
        known += [it for it in found if not it.startswith(OWN)]
        if known:
            self.prefixes[known[0].partition(':')[0]] = None
        return known[0] if known else None

    def custom(self, table: str, field: str, survey: Survey) -> str:
        name = field.removeprefix(CUSTOM)
        if name == field:
            what = f'{table}.{field}, which is read back as {CUSTOM}{field}'
            self.report.note(Note.CHANGED, what, survey.fields[field])
        return f'<{COMMON}:fCustom name="{quoted(name)}"/>'


class Distinct:
    """Says of texts, which may be many, whether they are new."""

    def __init__(self) -> None:
        self.base = sqlite3.connect('', isolation_level=None)
        self.base.execute('CREATE TABLE seen (text TEXT PRIMARY KEY) WITHOUT ROWID')
        self.base.execute('BEGIN')

    def is_new(self, text: str) -> bool:
        return self.base.execute('INSERT OR IGNORE INTO seen VALUES (?)', (text,)).rowcount == 1


class CsvFile:
    """A file that is being written, with its checksum."""

    def __init__(self, folder: str, name: str) -> None:
        self.name, self.digest = name, hashlib.sha256()
        self.file = open(os.path.join(folder, name), 'xb')

    def write(self, row: Iterable[str]) -> None:
        data = row_text(list(row)).encode(ENCODING)
        self.digest.update(data)
        self.file.write(data)

    def close(self) -> None:
        self.file.close()


class KindFiles:
    """The files of a kind's tables that have rows."""

    def __init__(self, folder: str, day: str, fields: Fields, tables: dict[str, Survey]) -> None:
        self.fields, self.tables = fields, {it: its for it, its in tables.items() if its.rows}
        self.columns = {it: fields.columns(it, survey) for it, survey in self.tables.items()}
        self.files = {it: CsvFile(folder, f'{fields.definitions[it].purpose}-{day}.csv')
                      for it in self.tables}
        self.roids = Distinct()

    def write(self, it: Object) -> None:
        roid = it.cells.get('roid')
        if it.kind in BY_ROID and roid and not self.roids.is_new(roid):
            self.fields.report.fault(Fault.INVALID, f'{it.kind}.roid', it.key,
                                     f'{roid!r} of another')
        self.write_row(it.kind, it, it.cells)
        for table, rows in it.children.items():
            for row in rows:
                self.write_row(table, it, row)

    def write_row(self, table: str, it: Object, row: Cells) -> None:
        own = self.fields.names.tables[it.kind].key
        key = it.cells.get(own, '')
        texts = {own: key, **row}
        if self.columns[table][0].is_roid and texts[own] != key:
            what = f'{table}.{own}, which is that of its {it.kind}'
            self.fields.report.note(Note.CHANGED, what)
        roid = it.cells.get('roid', '')
        self.files[table].write(roid if column.is_roid else texts.get(column.field, '')
                                for column in self.columns[table])

    def close(self) -> None:
        for it in self.files.values():
            it.close()

    def definitions(self) -> str:
        """The element of the document that declares these files."""
        found, prefix = [], ''
        for table, file in self.files.items():
            purpose, prefix = self.fields.definitions[table]
            fields = ''.join(it.element for it in self.columns[table])
            digest = file.digest.hexdigest()
            its = f'<rdeCsv:file cksum="{digest}" cksumAlg="SHA256">{file.name}</rdeCsv:file>'
            found.append(f'<rdeCsv:csv name="{purpose}" sep=",">\n'
                         f'<rdeCsv:fields>{fields}</rdeCsv:fields>\n'
                         f'<rdeCsv:files>{its}</rdeCsv:files>\n</rdeCsv:csv>\n')
        return f'<{prefix}:contents>\n{"".join(found)}</{prefix}:contents>\n' if found else ''

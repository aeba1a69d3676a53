"""From what a deposit's document and files have to the rows of the desk's tables."""
import csv
import functools
import os
import re
from collections.abc import Iterator
from enum import Enum

from cutting import too_large
from faults import Note
from faults import Notes
from faults import Refusal
from faults import printable
from folder import SECONDS
from limits import ID
from limits import MOST_FIELDS
from limits import MOST_ID
from limits import MOST_RESEND
from names import Field
from names import Names
from names import Table
from progress import Progress
from reading import Definition
from reading import DepositReader
from reading import Row
from series import TYPES
from series import DepositType
from unpacking import Asked
from unpacking import Unpacking
from writing import Portions
from writing import row_text

NUMBER = re.compile(r'\d{1,6}', re.ASCII)
TRUE, FALSE = ('true', '1'), ('false', '0')
CUSTOM = 'rdeCsv:fCustom'
# What a field's name cannot have.
NO_NAME = re.compile(r'[^A-Za-z0-9._-]')
# Kinds of which a deposit may have several objects of one key, which differ in the other field by
# which they are named.
WITH_SECOND = ('host',)


class Model(Enum):
    """The form in which a table of a deposit comes (RFC 9022)."""
    XML = 'XML'
    CSV = 'CSV'


class Deposit(Unpacking):
    """Takes what is read of a deposit's document and of the CSV files that it names."""

    def __init__(self, asked: Asked, notes: Notes, progress: Progress) -> None:
        self.names = Names(asked.map)
        self.tables = self.names.tables
        super().__init__(asked, notes, progress, self.tables)
        self.counts_of_names: list[tuple[str, int, str, str]] = []
        self.definitions: list[Definition] = []
        self.models: dict[tuple[str, bool], Model] = {}
        self.columns = functools.cache(self.names.columns)
        self.columns_in_xml = functools.cache(self.xml_columns)
        self.fields_of = functools.cache(self.named_fields)
        self.reader = DepositReader(self.path, self.names, notes, self, progress)
        self.portions = {(kind, is_of_deletes): self.portions_of(kind, is_of_deletes)
                         for is_of_deletes in (True, False)
                         for kind in dict.fromkeys(it.kind for it in self.tables.values())}

    def portions_of(self, kind: str, is_of_deletes: bool) -> Portions:
        tables = {name: it for name, it in self.tables.items() if it.kind == kind}
        columns = (lambda table: [self.tables[table].key]) if is_of_deletes else self.columns
        return Portions(kind, is_of_deletes, self.asked.limits, self.folder.new_portion, columns,
                        tables)

    def refused(self, what: str) -> Refusal:
        return self.reader.refused(what) if self.place is None else super().refused(what)

    # ---- all of it

    def read(self) -> None:
        self.progress.add([self.path])
        self.reader.read()
        self.take_definitions()
        self.place = None
        self.count_names()
        self.tell_others()

    def know(self) -> None:
        """Reads also the keys of hosts and registrars in folders that were written before."""
        super().know()
        for known in self.known:
            self.keys.deposits += 1
            for folder in known.folders:
                for table in self.tables.values():
                    if table.alias is not None:
                        for row in rows_known(os.path.join(folder, f'{table.name}.csv')):
                            self.know_key(f'{table.name}.{table.alias}', row.get(table.alias),
                                          row.get(table.key))
                for row in rows_known(os.path.join(folder, SECONDS)):
                    self.know_key(row['field'], row['value'], row['key'])
                    self.keys.add_second(row['field'], row['value'])

    def know_key(self, field: str, value: str | None, key: str | None) -> None:
        if value and key:
            self.keys.name(field, value, key, is_own=False)

    # ---- the document's front

    def begin(self, said: dict[str, str]) -> None:
        """The attributes of the deposit."""
        for name in ('id', 'type'):
            if name not in said:
                raise self.refused(f'the deposit has no {name}')
        for name in ('id', 'prevId'):
            if name in said and not ID.fullmatch(said[name]):
                raise self.refused(
                    f'{name} is not 1 to {MOST_ID} letters, digits, dots, dashes and underscores '
                    f'of ASCII: {said[name]!r}'
                )
        if said['type'] not in TYPES:
            raise self.refused(f'type is not FULL, INCR or DIFF: {said["type"]!r}')
        resend = said.get('resend', '0')
        if not NUMBER.fullmatch(resend) or int(resend) > MOST_RESEND:
            raise self.refused(f'resend is no number from 0 to {MOST_RESEND}: {resend!r}')
        self.envelope = {'id': said['id'], 'type': said['type'], 'watermark': None}
        if 'prevId' in said:
            self.envelope['prevId'] = said['prevId']
        if int(resend):
            self.envelope['resend'] = int(resend)

    def watermark(self, text: str) -> None:
        self.envelope['watermark'] = text

    def header(self, name: str, text: str) -> None:
        if name in self.envelope:
            raise self.refused(f'{name} is there twice')
        self.envelope[name] = text

    def count(self, kind: str, number: int, of_name: str | None, told: str) -> None:
        if of_name is not None:
            self.counts_of_names.append((kind, number, of_name, told))
        elif self.counts.setdefault(kind, number) != number:
            raise self.refused(
                f'objects of kind {kind} are counted twice: {self.counts[kind]} and {number}')

    def count_names(self) -> None:
        """A count of the objects below the deposit's own domain is one of all, where there is no
        other."""
        plain, tld = set(self.counts), str(self.envelope.get('tld', '')).lower()
        for kind, number, name, told in self.counts_of_names:
            if kind in plain or not tld or name.lower() != tld:
                self.notes.add(Note.LEFT_OUT, told)
            elif self.counts.setdefault(kind, number) != number:
                raise self.reader.refused(
                    f'objects of kind {kind} are counted twice: {self.counts[kind]} and {number}')

    # ---- objects

    def only_in(self, model: Model, table: str, is_of_deletes: bool) -> None:
        """A table comes in one model."""
        if self.models.setdefault((table, is_of_deletes), model) != model:
            raise self.refused(f'{table} comes both in the XML and in the CSV model')

    def xml_columns(self, table: str) -> list[str]:
        """The columns of a table that comes in the XML model."""
        self.only_in(Model.XML, table, False)
        return self.columns(table)

    def object(self, row: Row) -> None:
        """An object of the XML model, with the rows of its child tables."""
        table, cells = self.tables[row.table], row.cells
        key = cells.get(table.key, '')
        if not self.take_key(table, key, cells):
            return
        lines = [(table.name,
                  row_text([cells.get(it, '') for it in self.columns_in_xml(table.name)]))]
        for name, its in row.children():
            _, *others = self.columns_in_xml(name)
            lines.append((name, row_text([key, *[its.get(it, '') for it in others]])))
        if not self.portions[table.kind, False].put(lines):
            raise self.refused(too_large(table.kind, key))
        self.progress.objects += 1

    def take_key(self, table: Table, key: str, cells: dict[str, str]) -> bool:
        """Takes the key of an object of contents, which is there once. Whether it is not a second
        object of this key."""
        self.check_key(table, key)
        value = cells.get(table.alias) if table.alias is not None else None
        field = f'{table.name}.{table.alias}'
        if not self.keys.add(table.kind, key):
            if table.kind not in WITH_SECOND or not value or self.keys.owned(field,
                                                                             value) is not None:
                raise self.refused(f'the {table.kind} {key} is there twice')
            self.notes.add(Note.LEFT_OUT, f'{table.kind} of a name that another one has')
            self.keys.name(field, value, key)
            self.keys.add_second(field, value)
            return False
        if value:
            before = self.keys.known(field, value)
            if before is not None and before != key:
                self.notes.add(
                    Note.RENAMED,
                    f'{table.kind} that had another {table.key} under its {table.alias} in an '
                    'earlier deposit'
                )
            self.keys.name(field, value, key)
        return True

    def deleted(self, table: str, field: str, value: str) -> None:
        """A deleted object of the XML model."""
        self.only_in(Model.XML, table, True)
        self.delete(self.tables[table], None if field == self.tables[table].key else field, value)

    def delete(self, table: Table, field: str | None, value: str) -> None:
        """A deleted object, by its key or by the value of another field. Of a Full, whose deletes
        count for nothing, an unknown one is left out."""
        if field is not None and self.keys.is_second(f'{table.name}.{field}', value):
            self.notes.add(Note.LEFT_OUT, f'delete of a {table.kind} that is left out')
            return
        key = value if field is None else self.keys.named(f'{table.name}.{field}', value,
                                                          is_own_first=False)
        if key is None and self.envelope['type'] == DepositType.FULL:
            self.notes.add(Note.LEFT_OUT,
                           f'delete in a Full of a {table.kind} whose {field} is not known')
            return
        key = self.key_of(table.name, field, value) if key is None else key
        self.check_key(table, key)
        if not self.portions[table.kind, True].put([(table.name, row_text([key]))]):
            raise self.refused(too_large(table.kind, key))

    def key_of(self, table: str, field: str, value: str) -> str:
        """The key of the object that has this value in another field."""
        key = self.keys.named(f'{table}.{field}', value)
        if key is None:
            raise self.refused(
                f'no {table} is known, or more than one, that has {field} {value}: name the '
                'folders of earlier deposits by --known')
        return key

    # ---- CSV files

    def take_definitions(self) -> None:
        """The files of all definitions, what others refer to first; then each object goes whole
        into one portion."""
        order = list(self.tables)
        self.definitions.sort(key=lambda it: (it.is_of_deletes, order.index(it.table)))
        self.progress.add(
            os.path.join(self.asked.files, name)
            for it in self.definitions
            for _, name, _ in it.files)
        for definition in self.definitions:
            self.place = self.path, definition.line
            self.take_files(definition)

    def tell_others(self) -> None:
        """Tells of CSV files that the document does not name."""
        here = os.path.realpath(self.asked.files)
        ours = {
            os.path.basename(it)
            for it in (self.path, self.asked.map or self.path)
            if os.path.dirname(os.path.realpath(it)) == here
        }
        named = {name for it in self.definitions for _, name, _ in it.files}
        self.tell_unnamed(named | ours, 'document')

    def take_files(self, definition: Definition) -> None:
        """The rows of the files of a definition."""
        table = self.tables[definition.table]
        self.only_in(Model.CSV, table.name, definition.is_of_deletes)
        if len(definition.separator) != 1 or definition.separator in '"\r\n':
            raise self.refused(f'the separator is not one character: {definition.separator!r}')
        fields = self.fields_of(table, definition)
        if definition.is_of_deletes:
            self.take_deletes(table, definition, fields)
            return
        columns = self.columns_of(table, definition)
        write = self.portions[table.kind, False].staged(table.name, columns)
        next(write)
        for path, number, row in self.files.rows(definition):
            self.place = path, number
            cells = self.taken(table, definition, fields, row)
            if cells is not None:
                write.send(row_text([cells.get(it, '') for it in columns]))

    def columns_of(self, table: Table, definition: Definition) -> list[str]:
        """The columns of a table: those that it has in any case, and what else its definitions
        have."""
        alike = [
            it for it in self.definitions
            if (it.table, it.is_of_deletes) == (table.name, definition.is_of_deletes)
        ]
        own = [field.name for it in alike for field in self.fields_of(table, it)]
        columns = list(dict.fromkeys([*self.columns(table.name), *own]))
        if len(columns) > MOST_FIELDS:
            raise Refusal(
                self.path,
                f'{table.name} has {len(columns)} fields, and a table of the desk has at most '
                f'{MOST_FIELDS}'
            )
        return columns

    def take_deletes(self, table: Table, definition: Definition, fields: list[Field]) -> None:
        at = next(at for at, it in enumerate(fields) if it.name == table.key)
        field = fields[at].alias[1] if fields[at].alias else None
        for path, number, row in self.files.rows(definition):
            self.place = path, number
            self.delete(table, field if row[at] else None, row[at])

    def taken(self, table: Table, definition: Definition, fields: list[Field],
              row: list[str]) -> dict[str, str] | None:
        """The cells of a row of a CSV file, if it is a row of the table."""
        cells = {}
        for field, value in zip(fields, row):
            if field.is_required and not value:
                self.notes.add(Note.EMPTY,
                               f'{table.name}.{field.name}, which the document requires')
            self.tell_control(table, field.name, value)
            cells[field.name] = self.key_of(*field.alias, value) if field.alias and value else value
            if field.alias and field.name == table.key and self.keys.is_second(
                    '.'.join(field.alias), value):
                self.notes.add(Note.LEFT_OUT,
                               f'row of {table.name} of a {table.kind} that is left out')
                return None
        key = cells[table.key]
        self.progress.objects += table.is_parent
        self.progress.tell()
        if table.is_parent:
            return cells if self.take_key(table, key, {**cells, table.alias: key}
                                          if definition.is_by_alias else cells) else None
        self.check_key(table, key)
        self.tell_orphan(table, key)
        return cells

    def named_fields(self, table: Table, definition: Definition) -> list[Field]:
        """The fields of a definition by the desk's names, each once, with the key among them."""
        fields = [self.named_field(table, *it) for it in definition.fields]
        # A field that another one says outright is not looked up.
        outright = {it.name for it in fields if it.alias is None}
        fields = [
            it._replace(name=it.alias[1], alias=None) if it.alias and it.name in outright else it
            for it in fields
        ]
        # Where there is no key, the other field by which objects are named is the key.
        if table.key not in {it.name for it in fields}:
            definition.is_by_alias = True
            looked_up = (table.name, table.alias) if definition.is_of_deletes else None
            fields = [
                it._replace(name=table.key, alias=looked_up) if it.name == table.alias else it
                for it in fields
            ]
        found = [it.name for it in fields]
        if table.key not in found:
            raise self.refused(f'no field of {table.name} is its {table.key}')
        for at, name in enumerate(found):
            if name in found[:at]:
                raise self.refused(f'two fields of {table.name} are its {name}')
            if not ID.fullmatch(name):
                raise self.refused(f'no name of a field: {name!r}')
        return fields

    def named_field(self, table: Table, _line: int, element: str, said: dict[str, str]) -> Field:
        custom = f'{element}[{said.get("name", "")}]' if element == CUSTOM else None
        field = self.names.field(table.name, custom) if custom else None
        if field is None:
            field = self.names.field(table.name, element)
            name = custom_name(said.get('name', ''), table.name,
                               self.notes) if custom else field.name if field else None
        else:
            name = field.name
        if field is None:
            self.notes.add(Note.UNKNOWN, f'field {element} of {table.name}')
            name = NO_NAME.sub('_', element.rpartition(':')[2].rpartition('}')[2])
            field = Field(name, None, False)
        if said.get('isLoc', '').strip() in TRUE:
            name = f'loc.{name}'
        if 'index' in said:
            name = f'{name}.{said["index"].strip()}'
        word = said.get('isRequired', '').strip()
        return field._replace(name=name, is_required=word in TRUE
                              or field.is_required and word not in FALSE)


def rows_known(path: str) -> Iterator[dict[str, str]]:
    """The rows of a file that was written before, if there is one."""
    if not os.path.exists(path):
        return
    try:
        with open(path, encoding='utf-8', newline='') as file:
            yield from csv.DictReader(file, strict=True)
    except (UnicodeDecodeError, csv.Error) as error:
        raise Refusal(path, f'it cannot be read: {error}') from None


def custom_name(name: str, table: str, notes: Notes) -> str:
    """The name of a registry's own field. What a name cannot have is there as `_` and two digits
    for each byte."""
    found = NO_NAME.sub(lambda it: ''.join(f'_{byte:02x}' for byte in it[0].encode()), name.strip())
    if found != name.strip():
        notes.add(Note.RENAMED, f'field {printable(name.strip())} of {table}, to custom.{found}')
    return f'custom.{found}'

"""The table of names and namespaces, `names.csv`, and the lines of an operator's own (`--map`).

A line has what it is, a name, what becomes of it, and the section that it is from. A path is that
of an element below `rde:contents` or `rde:deletes`, with the prefixes of this table; an attribute's
ends in `/@` and its name.

Of each what the name is, and what it becomes:

namespace   a prefix: its URI
table       a table of the desk: its kind, its role, its key, and the field by which other files may
            name its objects in place of the key
count       a prefix: the kind whose objects are counted under this namespace
row         the path of an element: the table of which it is a row
cell        a path: the table and field of its text, without white space around it; `#` in a field
            is the number of the element, from 0
mark        the path of an element: the table and field that are `1` where the element is there
group       the path of an element of contents: nothing, it only holds others
split       the path of an element: the attribute whose value stands behind its name in paths, in
            brackets
delete      the path of an element of deletes: the table and field of the deleted object that its
            text is, or nothing, where it only holds others
leave       a path, or a prefix: nothing, the desk has no table for it
csv         the element of CSV files, and their name: their table
field       a table, or `*` for each, and the element of a field: the field; `A of T.F` is A, by the
            object of T that has this value in F
required    the element of a field: nothing, it is never empty unless the document says
            `isRequired="false"`

The element of a field of a registry's own, `rdeCsv:fCustom`, may have its name behind it in
brackets: `domain/rdeCsv:fCustom[trade mark]`."""
import csv
import os
from collections.abc import Iterator
from typing import NamedTuple

from faults import Refusal

TABLE = os.path.join(os.path.dirname(os.path.abspath(__file__)), 'names.csv')
HEADING = ['what', 'name', 'becomes', 'section']
WHATS = ('namespace', 'table', 'count', 'row', 'cell', 'mark', 'group', 'split', 'delete', 'leave',
         'csv', 'field', 'required')
# How many elements a `#` counts.
MOST_REPEATED = 3
# The kinds of objects, each after those that its objects name.
KINDS = ('registrar', 'idn', 'contact', 'host', 'domain', 'nndn')


class Table(NamedTuple):
    """A table of the desk, with the other field by which files may name its objects, and the name
    of its section in a bundle if that is not made of its own."""
    name: str
    kind: str
    is_parent: bool
    key: str
    alias: str | None = None
    section: str | None = None


class Cell(NamedTuple):
    table: str
    field: str


class Field(NamedTuple):
    """A field of CSV files: what it is called; the table and field by whose value the object is
    found that it names, if it names one so; and whether it is never empty."""
    name: str
    alias: tuple[str, str] | None
    is_required: bool


def lines_of(path: str) -> Iterator[tuple[int, list[str]]]:
    try:
        with open(path, encoding='utf-8', newline='') as file:
            rows = csv.reader(file, strict=True)
            if next(rows, None) != HEADING:
                raise Refusal(path, f'the first line is not {",".join(HEADING)}')
            for row in rows:
                if row and not row[0].startswith('#'):
                    if len(row) != len(HEADING) or row[0] not in WHATS:
                        raise Refusal(f'{path}:{rows.line_num}',
                                      f'no line of a table of names: {",".join(row)}')
                    yield rows.line_num, row
    except (OSError, UnicodeDecodeError, csv.Error) as error:
        raise Refusal(path, f'cannot be read: {error}')


class Names:
    """The table of names, of which later lines take the place of earlier ones of the same name."""

    def __init__(self, own: str | None = None) -> None:
        self.lines = {what: {} for what in WHATS}
        self.read(TABLE)
        if own is not None:
            self.read(own)
        self.prefixes = {uri: prefix for prefix, uri in self.lines['namespace'].items()}
        described = {name: words.split() for name, words in self.lines['table'].items()}
        self.tables = {
            name: Table(name, kind, role == 'parent', *others)
            for name, (kind, role, *others) in described.items()
        }
        self.cells = {
            path: Cell(*becomes.split('.', 1))
            for path, becomes in self.lines['cell'].items()
        }
        self.marks = {
            path: Cell(*becomes.split('.', 1))
            for path, becomes in self.lines['mark'].items()
        }

    def read(self, path: str) -> None:
        for number, (what, name, becomes, _section) in lines_of(path):
            if '.' not in becomes and (what in ('cell', 'mark') or what == 'delete' and becomes):
                raise Refusal(f'{path}:{number}', f'no table and field: {becomes}')
            self.lines[what][name] = becomes

    def spelled(self, name: str) -> str:
        """A name as the parser gives it, `URI}name`, with a prefix of the table, or as it is where
        none has its URI."""
        uri, bracket, local = name.rpartition('}')
        if not bracket:
            return local
        prefix = self.prefixes.get(uri)
        return f'{{{uri}}}{local}' if prefix is None else f'{prefix}:{local}'

    def columns(self, table: str) -> list[str]:
        """The fields that the rows of a table have in any case, the key first."""
        fields = [
            it.field for it in [*self.cells.values(), *self.marks.values()] if it.table == table
        ]
        numbered = (it.replace('#', str(at))
                    for it in fields
                    for at in range(MOST_REPEATED if '#' in it else 1))
        return list(dict.fromkeys([self.tables[table].key, *numbered]))

    def field(self, table: str, element: str) -> Field | None:
        """What the field of a CSV file of a table becomes, if it is known."""
        fields = self.lines['field']
        becomes = fields.get(f'{table}/{element}', fields.get(f'*/{element}'))
        if becomes is None:
            return None
        name, _, alias = becomes.partition(' of ')
        by = tuple(alias.split('.', 1)) if alias else None
        return Field(name, by, element in self.lines['required'])

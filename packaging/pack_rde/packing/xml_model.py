"""Writes objects as elements of the XML model of RFC 9022."""
import re
from collections.abc import Iterator
from itertools import groupby

from packing.forms import Form
from packing.forms import form_of
from names import Names
from packing.shape import CHOICES
from packing.shape import Does
from packing.shape import NEEDED_GROUPS
from packing.shape import Node
from packing.shape import Shape
from packing.shape import TIMES
from packing.shape import numbered
from packing.tables import Cells
from packing.tables import Object
from packing.telling import Fault
from packing.telling import Note
from packing.telling import Report

WHITE = ' \t\r\n'
# What a text can't have as it is: what is escaped, and what XML 1.0 has no way to write.
SPECIAL = re.compile('[^\t\n\x20-\x25\x27-\x3b\x3d\x3f-\ud7ff\ue000-\ufffd\U00010000-\U0010ffff]')
NO_SIGN = re.compile('[^\t\n\r\x20-\ud7ff\ue000-\ufffd\U00010000-\U0010ffff]')
IN_TEXT = {'&': '&amp;', '<': '&lt;', '>': '&gt;', '\r': '&#13;'}
IN_ATTRIBUTE = str.maketrans({'"': '&quot;', '\t': '&#9;', '\n': '&#10;'})
MARKED = ('1', 'true')

Rows = dict[str, list[Cells]]


def escaped(text: str) -> str:
    """A text as it stands in an element. A sign that XML can't have is replaced."""
    return SPECIAL.sub(lambda it: IN_TEXT.get(it[0], '\ufffd'), text)


def quoted(text: str) -> str:
    """A text as it stands in an attribute."""
    return escaped(text).translate(IN_ATTRIBUTE)


class ObjectWriter:
    """Writes objects, and reports what they lack, and what becomes of what has no place."""

    def __init__(self, names: Names, shape: Shape, report: Report) -> None:
        self.names, self.shape, self.report = names, shape, report
        self.known: dict[str, frozenset[str]] = {}
        for root in shape.roots.values():
            self.learn(root)
        self.key = ''

    # The fields of each table that an element has.
    def learn(self, node: Node) -> None:
        if node.does is Does.ROW:
            self.known[node.table] = self.known.get(node.table, frozenset()) | node.fields
        for it in node.children:
            self.learn(it)

    def text(self, it: Object) -> str:
        """The element of an object."""
        self.key, root = it.key, self.shape.roots[it.kind]
        self.tell_rest(it.kind, it.cells)
        own = self.names.tables[it.kind].key
        for table, rows in it.children.items():
            for row in rows:
                self.tell_rest(table, row, own)
                if row.get(own, it.cells.get(own)) != it.cells.get(own):
                    self.report.note(Note.CHANGED, f'{table}.{own}, which is that of its {it.kind}')
        return self.element(root, it.cells, it.children)

    def tell_rest(self, table: str, row: Cells, own: str = '') -> None:
        for name in row.keys() - self.known.get(table, frozenset()):
            if name != own:
                self.report.note(Note.LEFT_OUT, f'{table}.{name}')

    def no_room(self, table: str, detail: str) -> None:
        self.report.fault(Fault.NO_ROOM, table, self.key, detail)

    # ---- texts

    # The text of a cell, escaped, or nothing where it has none.
    def cell(self, table: str, field: str, form: Form, row: Cells) -> str:
        value = row.get(field, '')
        if value and (value[0] in WHITE or value[-1] in WHITE):
            self.report.note(Note.LEFT_OUT, f'white space around {table}.{field}')
            value = value.strip(WHITE)
        if not value:
            if form.is_needed:
                self.report.fault(Fault.MISSING, f'{table}.{field}', self.key)
        elif not form.is_of_form(value):
            self.report.fault(Fault.INVALID, f'{table}.{field}', self.key, repr(value[:60]))
        if SPECIAL.search(value) is None:
            return value
        if found := NO_SIGN.search(value):
            sign = f'U+{ord(found[0]):04X}, which XML has no way to write'
            self.report.fault(Fault.INVALID, f'{table}.{field}', self.key, sign)
        return escaped(value)

    def attributes(self, node: Node, row: Cells) -> str:
        if not node.attributes:
            return node.fixed
        given = [(name, self.cell(node.table, field, form, row))
                 for name, field, form in node.attributes]
        return node.fixed + ''.join([f' {name}="{value.translate(IN_ATTRIBUTE)}"'
                                     for name, value in given if value])

    # ---- elements

    def element(self, node: Node, row: Cells, rows: Rows) -> str:
        """An element that is a row, or a group of its cells."""
        within = [self.cell(node.table, node.cell, node.form, row)] if node.cell else []
        attributes = self.attributes(node, row)
        within += [self.part(it, row, rows) for it in node.children if not it.is_absent(row)]
        if node.shared:
            self.tell_shared(node, rows)
        text = ''.join(within)
        if not text:
            return f'<{node.name}{attributes}/>'
        return f'<{node.name}{attributes}>{text}</{node.name}>'

    def part(self, node: Node, row: Cells, rows: Rows) -> str:
        """What stands in an element for one of its parts."""
        if node.does is Does.ROW:
            return self.rows(node, rows)
        if node.does is Does.MARK:
            return self.mark(node, row)
        if node.does is Does.GROUP:
            return self.group(node, row, rows)
        return self.repeated(node, row) if node.is_repeated else self.single(node, row)

    def single(self, node: Node, row: Cells) -> str:
        text = self.cell(node.table, node.cell, node.form, row)
        if text:
            return f'<{node.name}{self.attributes(node, row)}>{text}</{node.name}>'
        for _, field, _ in node.attributes:
            if field in row:
                self.report.note(Note.LEFT_OUT, f'{node.table}.{field} without {node.cell}')
        return ''

    # Elements that are counted: an empty one stands only before others.
    def repeated(self, node: Node, row: Cells) -> str:
        found = [self.cell(node.table, it, form_of(node.table, it), row)
                 for it in numbered(node.cell)]
        while found and not found[-1]:
            found.pop()
        return ''.join(f'<{node.name}>{it}</{node.name}>' if it else f'<{node.name}/>'
                       for it in found)

    def mark(self, node: Node, row: Cells) -> str:
        value = self.cell(node.table, node.cell, node.form, row)
        if value not in ('', '1'):
            becomes = '1' if value in MARKED else 'nothing'
            what = f'{node.table}.{node.cell}, which is read back as {becomes}'
            self.report.note(Note.CHANGED, what)
        return f'<{node.name}{node.fixed}/>' if value in MARKED else ''

    def group(self, node: Node, row: Cells, rows: Rows) -> str:
        is_needed = node.path in NEEDED_GROUPS
        if node.fields and not is_needed and row.keys().isdisjoint(node.fields):
            return ''
        text = self.element(node, row, rows)
        if node.path in CHOICES:
            self.check_choice(node, rows)
        return '' if text == f'<{node.name}{node.fixed}/>' and not is_needed else text

    # ---- rows

    def rows(self, node: Node, rows: Rows) -> str:
        """The elements of a table's rows."""
        found = [it for it in rows.get(node.table, ()) if node.fits(it)]
        if not found and node.path not in TIMES:
            return ''
        groups = list(grouped(node, found)) if node.inner else [[it] for it in found]
        least, most = TIMES.get(node.path, (0, None))
        name = node.name.partition(':')[2]
        if len(groups) < least:
            self.report.fault(Fault.MISSING, f'{node.table}: {name}', self.key)
        if most is not None and len(groups) > most:
            self.no_room(node.table, f'{len(groups)} times {name}, at most {most}')
        return ''.join([self.row(node, it) for it in groups])

    # One element, of one row or of several that it holds.
    def row(self, node: Node, its: list[Cells]) -> str:
        row = its[0]
        if any(it.fits(row) for it in node.before):
            # What both elements could have is in the first.
            row = {name: value for name, value in row.items() if name in node.unique}
        inner = {node.table: [it for it in its if has_inner(node, it)]} if node.inner else {}
        if node.path in CHOICES:
            self.check_choice(node, inner)
        return self.element(node, row, inner)

    def check_choice(self, node: Node, rows: Rows) -> None:
        """Of the rows in some elements there are those of one kind alone."""
        choices = [it for it in node.children if it.does is Does.ROW]
        there = [it.name.partition(':')[2] for it in choices
                 if any(map(it.fits, rows.get(it.table, ())))]
        if len(there) > 1:
            self.no_room(choices[0].table, f'both {" and ".join(there)}')
        if not there and CHOICES[node.path]:
            names = ' or '.join(it.name.partition(':')[2] for it in choices)
            self.report.fault(Fault.MISSING, f'{choices[0].table}: {names}', self.key)

    def tell_shared(self, node: Node, rows: Rows) -> None:
        """Tells which rows of a table that several elements share are read back otherwise."""
        shared = node.shared
        table, last = shared[0].table, 0
        for row in rows.get(table, ()):
            places = [at for at, it in enumerate(shared) if it.fits(row)]
            if not places:
                needed = ' or '.join(sorted(name for it in shared for name in it.unique))
                self.report.note(Note.LEFT_OUT, f'row of {table} without {needed}')
            elif places[0] < last:
                what = f'row of {table}, which comes before the one above it'
                self.report.note(Note.CHANGED, what)
            if len(places) > 1:
                self.report.note(Note.CHANGED, f'row of {table}, which becomes two')
            last = max([last, *places])


def has_inner(node: Node, row: Cells) -> bool:
    """Whether a row is one of an element in this one, too."""
    return any(name in row for it in node.inner for name in it.fields)


def grouped(node: Node, rows: list[Cells]) -> Iterator[list[Cells]]:
    """The rows that one element holds: those that follow each other, are alike in what it has
    itself, and have more. Others stand alone."""
    own = node.fields.difference(*(it.fields for it in node.inner))
    for (has_more, *_), its in groupby(rows, lambda it: (has_inner(node, it), *map(it.get, own))):
        found = list(its)
        if has_more:
            yield found
        else:
            yield from ([it] for it in found)

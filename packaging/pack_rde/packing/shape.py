"""The elements of objects in the XML model, as the table of names has them for `unpack_rde`.

A path of that table is an element below `rde:contents`, or an attribute of one. The lines stand in
the order in which the elements stand in a document, so that one can be written by them, too."""
from collections.abc import Iterator
from dataclasses import dataclass
from dataclasses import field
from enum import Enum
from functools import cached_property

from packing.forms import Form
from packing.forms import form_of
from names import MOST_REPEATED
from names import Names
from names import TABLE
from names import lines_of

ELEMENTS = ('row', 'cell', 'mark', 'group')
# How often an element of a row has to, and may, stand in its object, where that is limited.
TIMES = {
    'rdeContact:contact/rdeContact:status': (1, 7),
    'rdeContact:contact/rdeContact:postalInfo': (1, 2),
    'rdeContact:contact/rdeContact:trnData': (0, 1),
    'rdeContact:contact/rdeContact:disclose': (0, 1),
    'rdeHost:host/rdeHost:status': (1, 7),
    'rdeDomain:domain/rdeDomain:status': (1, 11),
    'rdeDomain:domain/rdeDomain:secDNS': (0, 1),
    'rdeDomain:domain/rdeDomain:trnData': (0, 1),
}
# Elements in which rows of one kind alone may stand, and whether there have to be any.
CHOICES = {'rdeDomain:domain/rdeDomain:ns': False, 'rdeDomain:domain/rdeDomain:secDNS': True}
# A group that is there even if nothing is in it, which is then told as missing.
NEEDED_GROUPS = ('rdeContact:contact/rdeContact:postalInfo/contact:addr',)


class Does(Enum):
    """What an element is for."""
    ROW = 'row'         # a row of its table
    CELL = 'cell'       # a cell of the row above
    MARK = 'mark'       # a cell that is 1 where the element is there
    GROUP = 'group'     # holds others


@dataclass(eq=False)
class Node:
    """An element: its path and name; what it is for, of which table; the field that its text is;
    its attributes that are cells, each with its name, field and form, and one that is fixed."""
    path: str
    name: str
    does: Does
    table: str
    cell: str = ''
    attributes: list[tuple[str, str, Form]] = field(default_factory=list)
    fixed: str = ''
    children: list['Node'] = field(default_factory=list)
    # The fields of its table in it. Where several elements beside each other are rows of one table:
    # the fields that the others don't have, the others, and those of them that come before it.
    fields: frozenset[str] = frozenset()
    unique: frozenset[str] = frozenset()
    beside: tuple['Node', ...] = ()
    before: tuple['Node', ...] = ()
    # The elements in it that share a table so, and those that are rows of its own table.
    shared: tuple['Node', ...] = ()
    inner: tuple['Node', ...] = ()

    @cached_property
    def form(self) -> Form:
        return form_of(self.table, self.cell)

    @cached_property
    def is_repeated(self) -> bool:
        return '#' in self.cell

    @cached_property
    def may_be_absent(self) -> bool:
        """Whether nothing is to be said of it where its row has no text for it."""
        plain = self.does in (Does.CELL, Does.MARK) and not self.is_repeated
        return plain and not self.form.is_needed and not self.attributes

    def is_absent(self, row: dict[str, str]) -> bool:
        return self.may_be_absent and self.cell not in row

    def fits(self, row: dict[str, str]) -> bool:
        """Whether a row of its table is written as this element, and not as one beside it."""
        if not self.beside:
            return True
        if self.unique:
            return any(it in row for it in self.unique)
        return not any(it.fits(row) for it in self.beside if it.unique)


def numbered(name: str) -> list[str]:
    """The fields that a `#` stands for."""
    return [name.replace('#', str(at)) for at in range(MOST_REPEATED)] if '#' in name else [name]


def in_order(own: str | None) -> dict[str, tuple[str, str]]:
    """The paths of contents, in their order, each with what it is and becomes. An operator's own
    lines replace those of the table."""
    found: dict[str, tuple[str, str]] = {}
    for path in (TABLE, own) if own else (TABLE,):
        for _, (what, name, becomes, _section) in lines_of(path):
            if what in ELEMENTS:
                # A row whose text is a cell has two lines.
                key = f'{name}/' if what == 'cell' and found.get(name, ('',))[0] == 'row' else name
                found[key] = (what, becomes)
    return found


class Shape:
    """The element of each kind's objects, by the kind."""

    def __init__(self, names: Names, own: str | None) -> None:
        self.names, self.nodes = names, {}
        for path, (what, becomes) in in_order(own).items():
            self.add(path, what, becomes)
        self.roots: dict[str, Node] = {}
        for it in self.nodes.values():
            if '/' not in it.path:
                self.roots.setdefault(names.tables[it.table].kind, it)
        for it in self.roots.values():
            self.settle(it)

    def add(self, path: str, what: str, becomes: str) -> None:
        above, _, name = path.rpartition('/')
        table, _, cell = becomes.partition('.')
        if not name:
            self.nodes[above].cell = cell
        elif name.startswith('@'):
            self.nodes[above].attributes.append((name[1:], cell, form_of(table, cell)))
        else:
            plain, _, value = name.removesuffix(']').partition('[')
            its_table = table or self.nodes[above].table
            node = self.nodes[path] = Node(path, plain, Does(what), its_table, cell)
            if value:
                attribute = self.names.lines['split'][path.removesuffix(f'[{value}]')]
                node.fixed = f' {attribute}="{value}"'
            if above:
                self.nodes[above].children.append(node)

    # Sets what a node's elements have together.
    def settle(self, node: Node) -> None:
        for it in node.children:
            self.settle(it)
        own = [it for it in (node.cell, *(field for _, field, _ in node.attributes)) if it]
        inner = (name for it in node.children if it.table == node.table for name in it.fields)
        node.fields = frozenset([*(each for it in own for each in numbered(it)), *inner])
        rows = [it for it in node.children if it.does is Does.ROW]
        for at, it in enumerate(rows):
            alike = [other for other in rows if other.table == it.table]
            it.beside = tuple(other for other in alike if other is not it)
            it.before = tuple(other for other in rows[:at] if other in alike)
            if it.beside:
                it.unique = it.fields.difference(*(other.fields for other in it.beside))
        node.shared = tuple(it for it in rows if it.beside)
        node.inner = tuple(it for it in rows if it.table == node.table)

    def prefixes(self) -> Iterator[str]:
        """The prefixes of the elements, each once."""
        return iter(dict.fromkeys(it.name.partition(':')[0] for it in self.nodes.values()
                                  if ':' in it.name))

"""The elements that the document of a deposit may have, as a tree: what is done with each, and what
may stand in it.

It is made of the table of names once, and the reader goes down in it: what an element is, is looked
up by its name alone, among those that may stand where it stands."""
from collections.abc import Iterable
from enum import Enum
from enum import auto

from names import Cell
from names import Names

XSI = 'http://www.w3.org/2001/XMLSchema-instance'
HEADER_TEXTS = ('tld', 'registrar', 'ppsp', 'reseller', 'contentTag')


class Does(Enum):
    """What is done with an element."""
    ROOT = auto()  # it is the document
    DEPOSIT = auto()
    WATERMARK = auto()
    MENU = auto()
    VERSION = auto()  # of the menu
    NAMESPACE = auto()  # that the menu lists
    SECTION = auto()  # the contents, or the deletes
    HEADER = auto()
    HEADER_TEXT = auto()  # its text is a member of the envelope
    COUNT = auto()  # its text is a number of objects
    FILES = auto()  # it holds the CSV files of a kind
    CSV = auto()  # it defines the CSV files of a table
    FIELDS = auto()
    FIELD = auto()
    FILE_NAMES = auto()
    FILE = auto()
    ROW = auto()  # it is a row of a table
    MARK = auto()  # that it is there is a cell
    TEXT = auto()  # its text is a cell
    GROUP = auto()  # it only holds others
    DELETE = auto()  # its text is a deleted object
    LEFT = auto()  # it is left out
    UNKNOWN = auto()  # only some of what is in it, or of its forms, is known


# Those whose text is read; of all others it is only told that they have one.
WITH_TEXT = frozenset((Does.WATERMARK, Does.VERSION, Does.NAMESPACE, Does.HEADER_TEXT, Does.COUNT,
                       Does.FILE, Does.ROW, Does.TEXT, Does.DELETE))
# Those of which objects are made, but for their forms: nearly all elements of a document are such.
OF_OBJECTS = frozenset((Does.ROW, Does.TEXT, Does.GROUP))


class Node:
    """An element at its place. Names of elements and attributes are as the parser gives them: the
    URI, `}`, and the local name."""
    __slots__ = ('name', 'does', 'has_text', 'is_plain', 'field', 'table', 'cell', 'children',
                 'attributes', 'split', 'variants', 'others')

    def __init__(self, name: str, does: Does) -> None:
        self.name = name
        self.table: str | None = None  # of which it is a row
        self.cell: Cell | None = None  # that its text, or that it is there, is
        self.field: str | None = None  # of its text, if that is a cell of the row around it
        self.children: dict[str, Node] = {}
        self.attributes: dict[str, Cell] = {}  # the cells that its attributes are
        self.split: str | None = None  # the attribute by which it has several forms
        self.variants: dict[str, Node] = {}  # these forms, by the attribute's value
        self.others: Node | None = None  # what each other element in it is
        self.set(does)

    def set(self, does: Does) -> None:
        self.does, self.has_text = does, does in WITH_TEXT
        self.is_plain = does in OF_OBJECTS and self.split is None


class Tree:
    """Makes the tree of a table of names."""

    def __init__(self, names: Names) -> None:
        self.names, self.root = names, Node('', Does.ROOT)
        deposit = self.below(self.root, 'rde:deposit', Does.DEPOSIT)
        self.below(deposit, 'rde:watermark', Does.WATERMARK)
        menu = self.below(deposit, 'rde:rdeMenu', Does.MENU)
        self.below(menu, 'rde:version', Does.VERSION)
        self.below(menu, 'rde:objURI', Does.NAMESPACE)
        self.deletes = self.below(deposit, 'rde:deletes', Does.SECTION)
        self.contents = self.below(deposit, 'rde:contents', Does.SECTION)
        header = Node('rdeHeader:header', Does.HEADER)
        self.below(header, 'rdeHeader:count', Does.COUNT)
        for name in HEADER_TEXTS:
            self.below(header, f'rdeHeader:{name}', Does.HEADER_TEXT)
        for section, word in ((self.deletes, 'deletes'), (self.contents, 'contents')):
            section.children[self.raw('rdeHeader:header')] = header
            self.add_files(section, word)
            self.add_all(section, 'leave', Does.LEFT)
        self.add_all(self.deletes, 'delete', Does.DELETE)
        self.add_objects()

    def raw(self, name: str) -> str:
        """A name with a prefix of the table as the parser gives it."""
        prefix, colon, local = name.rpartition(':')
        return f'{self.names.lines["namespace"].get(prefix, prefix)}}}{local}' if colon else local

    def below(self, above: Node, name: str, does: Does = Does.UNKNOWN) -> Node:
        """The element of this name in another one, which is made where there is none."""
        raw = self.raw(name)
        if raw not in above.children:
            above.children[raw] = Node(name, does)
        return above.children[raw]

    def at(self, section: Node, path: str) -> Node:
        """The element at a path, in which the value of an attribute may stand in brackets."""
        node = section
        for part in path.split('/'):
            name, bracket, value = part.partition('[')
            node = self.below(node, name)
            if bracket:
                node = node.variants.setdefault(value.removesuffix(']'), Node(name, Does.UNKNOWN))
        return node

    def paths(self, what: str) -> Iterable[tuple[str, str]]:
        return self.names.lines[what].items()

    def add_all(self, section: Node, what: str, does: Does) -> None:
        for path, becomes in self.paths(what):
            # A prefix alone is a namespace of the menu and of counts.
            if ':' in path:
                node = self.at(section, path)
                node.set(does)
                node.cell = Cell(*becomes.split('.', 1)) if becomes else None

    def add_objects(self) -> None:
        """The objects of the contents, whose lines are those of rows before all others, then of
        marks."""
        for path, attribute in self.paths('split'):
            node = self.at(self.contents, path)
            node.split = self.raw(attribute)
            node.set(node.does)
        for path, _ in self.paths('group'):
            self.at(self.contents, path).set(Does.GROUP)
        for path, cell in self.names.cells.items():
            place, at, attribute = path.partition('/@')
            node = self.at(self.contents, place)
            if at:
                node.attributes[self.raw(attribute)] = cell
            else:
                node.set(Does.TEXT)
                node.cell = cell
        for path, cell in self.names.marks.items():
            node = self.at(self.contents, path)
            node.set(Does.MARK)
            node.cell = cell
        for path, table in self.paths('row'):
            node = self.at(self.contents, path)
            node.set(Does.ROW)
            node.table = table
        self.place_cells(self.contents, [])

    def place_cells(self, above: Node, tables: list[str]) -> None:
        """Finds the rows of cells, where rows of these tables are open. A cell of no row around it
        is not known."""
        for node in [*above.children.values(), *above.variants.values()]:
            if node.does in (Does.TEXT, Does.MARK) and node.cell.table not in tables:
                node.set(Does.UNKNOWN)
            if node.does is Does.TEXT and node.cell.table == tables[
                    -1] and '#' not in node.cell.field:
                node.field = node.cell.field
            self.place_cells(node, tables if node.table is None else [*tables, node.table])

    def add_files(self, section: Node, word: str) -> None:
        """The elements that hold CSV files, each with the table of those of one name."""
        for path, table in self.paths('csv'):
            place, _, purpose = path.rpartition('/')
            if place.endswith(f':{word}'):
                files = self.below(section, place, Does.FILES)
                csv = self.below(files, 'rdeCsv:csv', Does.CSV)
                csv.variants[purpose] = Node(table, Does.CSV)
                fields, names = self.below(csv, 'rdeCsv:fields',
                                           Does.FIELDS), self.below(csv, 'rdeCsv:files',
                                                                    Does.FILE_NAMES)
                fields.others = Node('', Does.FIELD)
                self.below(names, 'rdeCsv:file', Does.FILE)

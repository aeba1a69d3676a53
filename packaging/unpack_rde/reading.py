"""Reads the XML document of a deposit, piece by piece, and hands on what is in it as soon as it is
whole: nothing of the document is kept.

It is read by the parser that `xml.etree` stands on, without a tree: a tree's elements don't know
their lines, and its parser reads a document type, whose entities can grow without end, before it
can be refused."""
import re
from collections.abc import Iterator
from datetime import datetime
from datetime import timedelta
from typing import NoReturn
from typing import Protocol
from xml.parsers import expat

from faults import Note
from faults import Notes
from faults import Refusal
from limits import MOST_BYTES
from limits import MOST_COUNT
from names import Cell
from names import Names
from progress import Progress
from rest import Rest
from rest import Scope
from tree import XSI
from tree import Does
from tree import Node
from tree import Tree

# Until the root element is there few bytes are read at a time, so that a document type is refused
# before what follows it is read.
FIRST_PIECE, PIECE = 64, 1 << 16
# No element of a deposit is nested deeper.
MOST_DEPTH = 64
WHITE = ' \t\r\n'
WATERMARK = re.compile(
    r'(\d{4}-\d\d-\d\dT\d\d:\d\d:\d\d)(\.\d{1,9})?(?:(Z)|([+-])(\d\d):([0-5]\d))?', re.ASCII)
YEARS = range(1970, 2262)
# The attributes of a count that is of a part of the objects alone.
OF_A_NAME, OF_A_REGISTRAR = 'rcdn', 'registrarId'
OF_DEPOSIT = ('id', 'type', 'prevId', 'resend')
OF_FIELD = ('type', 'isRequired', 'parent', 'isLoc', 'index', 'name')
OF_FILE = ('compression', 'encoding', 'cksum', 'cksumAlg')
Words = dict[str, str]
# What stands for an element that is skipped.
SKIPPED = Node('', Does.UNKNOWN)


def in_utc(word: str) -> str:
    """A watermark in UTC, in the form that the desk takes: with a fraction only if it has one,
    without zeros at its end."""
    found = WATERMARK.fullmatch(word)
    if found is None:
        raise ValueError('no date and time of the form 2024-03-03T00:00:00Z')
    seconds, fraction, utc, sign, hours, minutes = found.groups()
    if utc is None and sign is None:
        raise ValueError('it has no time zone')
    moment = datetime.fromisoformat(seconds)
    if sign is not None:
        offset = timedelta(hours=int(hours), minutes=int(minutes))
        moment = moment - offset if sign == '+' else moment + offset
    if moment.year not in YEARS:
        raise ValueError('its year is not one of 1970 to 2261')
    return f'{moment:%Y-%m-%dT%H:%M:%S}{(fraction or "").rstrip("0").rstrip(".")}Z'


class Row:
    """A row that is being read: its cells, and the rows that stand in it."""
    __slots__ = ('table', 'cells', 'rows', 'repeated')

    def __init__(self, table: str) -> None:
        self.table, self.cells, self.rows, self.repeated = table, {}, [], {}

    def children(self) -> Iterator[tuple[str, Words]]:
        for row in self.rows:
            if row.rows:
                yield from row.flat({})
            elif row.cells:
                yield row.table, row.cells

    def flat(self, outer: Words) -> Iterator[tuple[str, Words]]:
        """This row and those in it. A row in one of the same table has the cells of both, and the
        outer one is then no row of its own."""
        cells = {**outer, **self.cells}
        if cells and all(it.table != self.table for it in self.rows):
            yield self.table, cells
        for row in self.rows:
            yield from row.flat(cells if row.table == self.table else {})

    def is_empty(self) -> bool:
        return not any(map(len, self.cells.values())) and all(it.is_empty() for it in self.rows)


class Definition:
    """The CSV files of a table, as a deposit defines them: the elements of its fields, and the
    names of its files, each with its line and its attributes."""

    def __init__(self, line: int, table: str, is_of_deletes: bool, separator: str) -> None:
        self.line, self.table = line, table
        self.is_of_deletes, self.separator = is_of_deletes, separator
        self.fields: list[tuple[int, str, Words]] = []
        self.files: list[tuple[int, str, Words]] = []
        # Whether the field that is the key is the other one by which objects are named.
        self.is_by_alias = False


class Taker(Protocol):
    """Who takes what a document has. A refusal is made at the place that the reader is at."""
    rest: Rest
    definitions: list[Definition]

    def begin(self, said: Words) -> None:
        ...

    def watermark(self, text: str) -> None:
        ...

    def header(self, name: str, text: str) -> None:
        ...

    def count(self, kind: str, number: int, of_name: str | None, told: str) -> None:
        ...

    def columns(self, table: str) -> list[str]:
        ...

    def object(self, row: Row) -> None:
        ...

    def deleted(self, table: str, field: str, value: str) -> None:
        ...


class DepositReader:
    """Reads one document."""

    def __init__(self, path: str, names: Names, notes: Notes, taker: Taker,
                 progress: Progress) -> None:
        self.path, self.names, self.notes = path, names, notes
        self.taker, self.progress = taker, progress
        tree = Tree(names)
        self.contents, self.deletes = tree.contents, tree.deletes
        # The innermost open element: what it is, the row that its texts belong to, and its text.
        # `open` has all around it.
        self.node, self.row, self.pieces = tree.root, None, []
        self.open: list[tuple[Node, Row | None, list[str]]] = []
        self.skipped, self.is_kept, self.once = 0, False, set()
        self.definition: Definition | None = None
        self.counted: tuple[str, str | None, str] | None = None
        self.file: tuple[int, Words] | None = None
        self.spaces: list[tuple[str | None, str | None]] = []
        self.fresh: Scope = {}
        self.begins = {
            Does.DEPOSIT: self.begin_deposit, Does.WATERMARK: self.begin_once,
            Does.MENU: self.begin_once, Does.COUNT: self.begin_count, Does.CSV: self.begin_csv,
            Does.FIELD: self.begin_field, Does.FILE: self.begin_file
        }
        self.ends = {
            Does.WATERMARK: self.end_watermark, Does.VERSION: self.end_version,
            Does.NAMESPACE: self.end_namespace, Does.HEADER_TEXT: self.end_header_text,
            Does.COUNT: self.end_count, Does.CSV: self.end_csv, Does.FILE: self.end_file,
            Does.DELETE: self.end_delete, Does.ROW: self.end_plain, Does.TEXT: self.end_plain,
            Does.GROUP: self.end_plain
        }
        self.parser = self.new_parser()

    def new_parser(self) -> 'expat.XMLParserType':
        parser = expat.ParserCreate(namespace_separator='}')
        parser.buffer_text = True
        parser.buffer_size = PIECE
        parser.ordered_attributes = True
        parser.StartDoctypeDeclHandler = self.refuse_doctype
        parser.StartNamespaceDeclHandler = self.declare
        parser.EndNamespaceDeclHandler = self.forget
        parser.StartElementHandler = self.start
        parser.EndElementHandler = self.end
        parser.CharacterDataHandler = self.characters
        return parser

    def read(self) -> None:
        try:
            with self.progress.opened(self.path) as file:
                while piece := file.read(PIECE if self.once else FIRST_PIECE):
                    self.parser.Parse(piece, False)
                    self.check_text()
                    self.progress.tell()
            self.parser.Parse(b'', True)
        except expat.ExpatError as error:
            raise Refusal(f'{self.path}:{error.lineno}:{error.offset + 1}',
                          expat.ErrorString(error.code)) from None
        except (ValueError, LookupError) as error:
            raise Refusal(self.path, f'its encoding cannot be read: {error}') from None
        if 'rde:watermark' not in self.once:
            raise Refusal(self.path, 'no rde:watermark in the deposit')

    def refused(self, what: str) -> Refusal:
        return Refusal(
            f'{self.path}:{self.parser.CurrentLineNumber}:{self.parser.CurrentColumnNumber + 1}',
            what)

    def refuse_doctype(self, *_words: object) -> NoReturn:
        raise self.refused('a document type (DOCTYPE) is not read')

    def check_text(self) -> None:
        """A text that grows from piece to piece has its most: no text of a bundle is longer."""
        if len(self.pieces) > 1 and sum(map(len, self.pieces)) > MOST_BYTES:
            raise self.refused(
                f'the text of {self.node.name} is longer than {MOST_BYTES} characters')

    def told(self, *names: str) -> str:
        """The path of the innermost open element, or of one in it, from the root, as it is told."""
        return '/'.join([
            *(it.name for it, _, _ in self.open[1:]), *([self.node.name] if self.open else []),
            *names
        ])

    def declare(self, prefix: str | None, uri: str | None) -> None:
        self.spaces.append((prefix, uri))
        self.fresh[prefix] = uri

    def forget(self, _prefix: str | None) -> None:
        self.spaces.pop()

    # ---- the beginning of an element

    def start(self, raw: str, attributes: list[str]) -> None:
        # (In what is skipped nothing is known.)
        node = self.node.children.get(raw)
        if node is None or not node.is_plain:
            self.start_other(node, raw, attributes)
            return
        row = self.row
        self.open.append((self.node, row, self.pieces))
        self.node, self.pieces = node, []
        if node.table is not None:
            self.row = Row(node.table)
            if row is not None:
                row.rows.append(self.row)
        if attributes:
            self.take_attributes(node, attributes)

    def start_other(self, node: Node | None, raw: str, attributes: list[str]) -> None:
        """The beginning of an element that is none of an object, or that has forms."""
        if self.skipped:
            self.skip(raw, attributes)
            return
        node = node or self.node.others
        if not self.open and (node is None or node.does is not Does.DEPOSIT):
            raise self.refused(f'no rde:deposit, but {self.names.spelled(raw)}')
        if node is not None and node.split in attributes[::2]:
            at = attributes.index(node.split)
            node, attributes = node.variants.get(
                attributes[at + 1]), attributes[:at] + attributes[at + 2:]
        if node is None or node.does in (Does.UNKNOWN, Does.LEFT):
            told = self.told(self.names.spelled(raw))
            is_left = node is not None and node.does is Does.LEFT
            if is_left:
                self.notes.add(Note.LEFT_OUT, told)
            else:
                self.notes.add(Note.UNKNOWN, f'element {told}')
            self.skip(raw, attributes)
        elif node.does in (Does.ROW, Does.TEXT, Does.GROUP, Does.MARK):
            self.start_form(node, attributes)
        else:
            self.start_outer(node, raw, attributes)

    def start_form(self, node: Node, attributes: list[str]) -> None:
        """The beginning of a form of an element of an object, or of one that is a cell by being
        there."""
        self.open.append((self.node, self.row, self.pieces))
        self.node, self.pieces = node, []
        if node.table is not None:
            self.row = Row(node.table)
            self.open[-1][1].rows.append(self.row)
        if node.does is Does.MARK:
            self.set_cell(node.cell, '1')
        self.take_attributes(node, attributes)

    def start_outer(self, node: Node, raw: str, attributes: list[str]) -> None:
        """The beginning of an element that is of no object."""
        # A field of CSV files has any name.
        node = node if node.name else Node(self.names.spelled(raw), node.does)
        given = {
            self.names.spelled(it): value
            for it, value in zip(attributes[::2], attributes[1::2])
        }
        begin = self.begins.get(node.does)
        if begin is not None and not begin(node, given):
            self.skip(raw, attributes)
            return
        self.open.append((self.node, self.row, self.pieces))
        self.node, self.pieces = node, []
        for attribute in given:
            self.tell_attribute(attribute)

    def take_attributes(self, node: Node, attributes: list[str]) -> None:
        """The attributes of an element of an object."""
        for raw, value in zip(attributes[::2], attributes[1::2]):
            cell = node.attributes.get(raw)
            if cell is not None:
                self.set_cell(cell, value.strip(WHITE), raw)
            elif not raw.startswith(XSI):
                self.tell_attribute(self.names.spelled(raw))

    def tell_attribute(self, name: str) -> None:
        if not name.startswith('xsi:'):
            self.notes.add(Note.UNKNOWN, f'attribute {self.told()}/@{name}')

    def skip(self, raw: str, attributes: list[str]) -> None:
        """Skips an element with all that is in it. One that stands among the objects of contents is
        kept as it is."""
        if not self.skipped:
            self.open.append((self.node, self.row, self.pieces))
            self.is_kept, self.fresh = self.node is self.contents, {}
            self.node, self.pieces = SKIPPED, []
        if len(self.open) + self.skipped > MOST_DEPTH:
            raise self.refused(f'elements are nested deeper than {MOST_DEPTH}')
        self.skipped += 1
        if self.is_kept:
            self.taker.rest.start(raw, attributes, dict(self.spaces), self.fresh)
            self.fresh = {}

    # Each takes from the attributes what is known, and says whether the element is read.

    def begin_deposit(self, _node: Node, given: Words) -> bool:
        self.once.add('deposit')
        self.taker.begin({it: given.pop(it) for it in OF_DEPOSIT if it in given})
        return True

    def begin_once(self, node: Node, _given: Words) -> bool:
        if node.name in self.once:
            raise self.refused(f'{node.name} is there twice')
        self.once.add(node.name)
        return True

    def begin_count(self, node: Node, given: Words) -> bool:
        uri, name = given.pop('uri', '').strip(WHITE), given.pop(OF_A_NAME, None)
        prefix = self.names.prefixes.get(uri, uri)
        kind, is_of_part = self.names.lines['count'].get(prefix), given.pop(OF_A_REGISTRAR,
                                                                            None) is not None
        self.counted = None
        if kind is None and prefix not in self.names.lines['leave']:
            self.notes.add(Note.UNKNOWN, f'{self.told(node.name)} of {uri or "no namespace"}')
        elif kind is None or is_of_part:
            self.notes.add(
                Note.LEFT_OUT,
                f'{self.told(node.name)} of {prefix}'
                f'{f" by @{OF_A_REGISTRAR}" if is_of_part else ""}'
            )
        else:
            of_name = None if name is None else name.strip(WHITE)
            self.counted = kind, of_name, f'{self.told(node.name)} of {prefix} by @{OF_A_NAME}'
        return True

    def begin_csv(self, node: Node, given: Words) -> bool:
        purpose = given.pop('name', '').strip(WHITE)
        known = node.variants.get(purpose)
        if known is None:
            self.notes.add(Note.UNKNOWN, f'{self.told(node.name)} of {purpose or "no name"}')
            return False
        is_of_deletes = self.open[-1][0] is self.deletes
        self.definition = Definition(self.parser.CurrentLineNumber, known.name, is_of_deletes,
                                     given.pop('sep', ','))
        return True

    def begin_field(self, node: Node, given: Words) -> bool:
        said = {it: given.pop(it) for it in OF_FIELD if it in given}
        self.definition.fields.append((self.parser.CurrentLineNumber, node.name, said))
        return True

    def begin_file(self, _node: Node, given: Words) -> bool:
        self.file = self.parser.CurrentLineNumber, {
            it: given.pop(it)
            for it in OF_FILE
            if it in given
        }
        return True

    # ---- what is in it

    def set_cell(self, cell: Cell, value: str, attribute: str | None = None) -> None:
        """Puts a value into the innermost open row of its table."""
        row = self.row if self.row.table == cell.table else self.row_of(cell.table)
        field = cell.field
        if '#' in field:
            at = row.repeated[field] = row.repeated.get(field, -1) + 1
            field = field.replace('#', str(at))
            if field not in self.taker.columns(row.table):
                self.notes.add(Note.UNKNOWN, f'element {self.told()} number {at + 1}')
                return
        if field in row.cells:
            told = self.told(
            ) if attribute is None else f'{self.told()}/@{self.names.spelled(attribute)}'
            raise self.refused(f'{told} is there twice')
        row.cells[field] = value

    def row_of(self, table: str) -> Row:
        for _, row, _ in reversed(self.open):
            if row is not None and row.table == table:
                return row
        raise self.refused(f'there is no row of {table} here: the table of names is wrong')

    def characters(self, text: str) -> None:
        if self.node.has_text:
            self.pieces.append(text)
        elif self.skipped:
            if self.is_kept:
                self.taker.rest.text(text)
        elif text.strip(WHITE):
            self.pieces = [text]

    # ---- the end of an element

    def end(self, _raw: str) -> None:
        node = self.node
        if node.field is not None and node.field not in self.row.cells:
            self.row.cells[node.field] = ''.join(self.pieces).strip(WHITE)
        elif node.is_plain:
            self.end_plain(node, ''.join(self.pieces).strip(WHITE))
        elif self.skipped:
            self.end_skipped()
            if self.skipped:
                return
        else:
            word, end = ''.join(self.pieces).strip(WHITE), self.ends.get(node.does)
            if end is not None:
                end(node, word)
            elif word:
                self.notes.add(Note.UNKNOWN, f'text in {self.told()}')
        self.node, self.row, self.pieces = self.open.pop()

    def end_plain(self, node: Node, word: str) -> None:
        """The end of an element of an object."""
        if node.cell is not None:
            # A row without a text has no such cell.
            if word or node.table is None:
                self.set_cell(node.cell, word)
        elif word:
            self.notes.add(Note.UNKNOWN, f'text in {self.told()}')
        if node.table is not None:
            if self.open[-1][0] is self.contents:
                self.taker.object(self.row)
            elif not any(self.row.cells.values()) and self.row.is_empty():
                self.notes.add(Note.EMPTY, f'element {self.told()}')

    def end_skipped(self) -> None:
        self.skipped -= 1
        if self.is_kept:
            self.taker.rest.end()

    def end_delete(self, node: Node, word: str) -> None:
        if node.cell is not None:
            self.taker.deleted(*node.cell, word)
        elif word:
            self.notes.add(Note.UNKNOWN, f'text in {self.told()}')

    def end_watermark(self, _node: Node, word: str) -> None:
        try:
            self.taker.watermark(in_utc(word))
        except (ValueError, OverflowError) as error:
            raise self.refused(f'rde:watermark {word}: {error}') from None

    def end_version(self, _node: Node, word: str) -> None:
        if word != '1.0':
            self.notes.add(Note.UNKNOWN, f'{self.told()} {word}')

    def end_namespace(self, _node: Node, word: str) -> None:
        if word not in self.names.prefixes:
            self.notes.add(Note.UNKNOWN, f'namespace {word}')

    def end_header_text(self, node: Node, word: str) -> None:
        self.taker.header(node.name.partition(':')[2], word)

    def end_count(self, _node: Node, word: str) -> None:
        if self.counted is not None:
            if not re.fullmatch(r'\d{1,20}', word, re.ASCII) or int(word) > MOST_COUNT:
                raise self.refused(f'no number of objects: {word}')
            kind, of_name, told = self.counted
            self.taker.count(kind, int(word), of_name, told)

    def end_file(self, _node: Node, word: str) -> None:
        line, said = self.file
        self.definition.files.append((line, word, said))

    def end_csv(self, _node: Node, word: str) -> None:
        if word:
            self.notes.add(Note.UNKNOWN, f'text in {self.told()}')
        self.taker.definitions.append(self.definition)
        self.definition = None

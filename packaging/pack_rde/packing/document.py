"""Writes the document of a Full (RFC 8909) of a registry's tables, in either model of RFC 9022."""
import os
import shutil
from collections import Counter
from collections.abc import Iterable
from collections.abc import Iterator
from dataclasses import dataclass
from enum import Enum
from typing import TextIO

from packing.csv_model import Fields
from packing.csv_model import KindFiles
from packing.fillings import Fillings
from names import Names
from packing.rest import Rest
from packing.shape import Shape
from packing.tables import KINDS
from packing.tables import Object
from packing.tables import Source
from packing.tables import Survey
from packing.tables import objects_of
from packing.tables import surveyed
from packing.telling import FaultsAlone
from packing.telling import Note
from packing.telling import Report
from packing.xml_model import ObjectWriter
from packing.xml_model import quoted

IN_DOCUMENT = ('rde', 'rdeHeader')


class Model(Enum):
    """The models of RFC 9022: objects as elements, or as rows of CSV files."""
    XML = 'xml'
    CSV = 'csv'


@dataclass(frozen=True)
class Header:
    """What the deposit says of itself."""
    id: str
    watermark: str
    tld: str
    resend: int = 0


class Progress:
    """Is told of each object that is written."""

    def step(self, kind: str, number: int, of: int) -> None:
        """The object of this number, of so many of its kind, is written."""


class Packing:
    """A source of tables, what is known of it, and where it is told what becomes of it."""

    def __init__(self, source: Source, names: Names, shape: Shape, report: Report) -> None:
        self.source, self.names, self.shape, self.report = source, names, shape, report
        self.tables: dict[str, Survey] = {}

    def look(self, model: Model) -> None:
        """Looks through the tables once: their counts stand in front of the objects."""
        there, known = self.source.names(), self.names.tables
        for table in there:
            if table not in known:
                number = sum(1 for _ in self.source.rows(table))
                self.report.note(Note.LEFT_OUT, f'rows of the table {table}', number)
        needed = [it for it in known.values() if it.is_parent or model is Model.CSV]
        self.tables = {it.name: surveyed(self.source, it.name) for it in needed if it.name in there}

    def count(self, kind: str) -> int:
        return self.tables[kind].rows if kind in self.tables else 0

    def counts(self) -> dict[str, int]:
        return {kind: self.count(kind) for kind in KINDS}

    def of_kind(self, kind: str) -> dict[str, Survey]:
        """The tables of a kind, the parent table first."""
        return {it: its for it, its in self.tables.items() if self.names.tables[it].kind == kind}


class Document:
    """The document that is written."""

    def __init__(self, packing: Packing, header: Header, rest: Rest | None, out: TextIO) -> None:
        self.packing, self.header, self.rest, self.out = packing, header, rest, out
        self.uris = packing.names.lines['namespace']

    def write(self, text: str) -> None:
        self.out.write(text)

    def begin(self, prefixes: dict[str, str], declared: Iterable[str]) -> None:
        """The watermark, the menu and the header, where the objects of kinds have namespaces of
        these prefixes, and those of further prefixes are declared."""
        header, used = self.header, dict.fromkeys([*IN_DOCUMENT, *declared])
        spaces = ''.join(f'\nxmlns:{it}="{quoted(self.uris[it])}"' for it in used)
        resend = f' resend="{header.resend}"' if header.resend else ''
        counts = Counter({self.uris[prefixes[kind]]: self.packing.count(kind) for kind in KINDS})
        counts.update(self.rest.counts if self.rest else {})
        menu = [self.uris['rdeHeader'], *(uri for uri, number in counts.items() if number)]
        uris = ''.join(f'<rde:objURI>{quoted(it)}</rde:objURI>' for it in menu)
        numbers = ''.join(f'<rdeHeader:count uri="{quoted(uri)}">{number}</rdeHeader:count>\n'
                          for uri, number in counts.items())
        self.write('<?xml version="1.0" encoding="UTF-8"?>\n'
                   f'<rde:deposit type="FULL" id="{header.id}"{resend}{spaces}>\n'
                   f'<rde:watermark>{header.watermark}</rde:watermark>\n'
                   f'<rde:rdeMenu><rde:version>1.0</rde:version>{uris}</rde:rdeMenu>\n'
                   '<rde:contents>\n<rdeHeader:header>'
                   f'<rdeHeader:tld>{quoted(header.tld)}</rdeHeader:tld>\n'
                   f'{numbers}</rdeHeader:header>\n')

    def end(self) -> None:
        if self.rest:
            self.rest.read(self.out.write)
        self.write('</rde:contents>\n</rde:deposit>\n')


class Deposit:
    """Writes a deposit at a place beside its own."""

    def __init__(self, packing: Packing, fillings: Fillings, progress: Progress) -> None:
        self.packing, self.fillings, self.progress = packing, fillings, progress

    # The objects of a kind, filled.
    def objects(self, kind: str) -> Iterator[Object]:
        packing, count = self.packing, self.packing.count(kind)
        found = objects_of(packing.source, kind, packing.names, packing.report)
        for number, it in enumerate(found, 1):
            self.fillings.fill(it, packing.report)
            yield it
            self.progress.step(kind, number, count)

    def write_xml(self, path: str, header: Header, rest: Rest | None) -> None:
        """Writes the document at this path."""
        packing = self.packing
        writer = ObjectWriter(packing.names, packing.shape, packing.report)
        prefixes = {kind: it.name.partition(':')[0] for kind, it in packing.shape.roots.items()}
        with open(path, 'x', encoding='utf-8', newline='') as out:
            document = Document(packing, header, rest, out)
            document.begin(prefixes, packing.shape.prefixes())
            for kind in KINDS:
                for it in self.objects(kind):
                    out.write(writer.text(it) + '\n')
            document.end()

    def write_csv(self, folder: str, header: Header, rest: Rest | None, name: str) -> None:
        """Writes the document, which has this name, and its files into a new folder."""
        packing, definitions = self.packing, []
        fields = Fields(packing.names, packing.report)
        # What an object lacks it lacks in either model.
        checker = ObjectWriter(packing.names, packing.shape, FaultsAlone(packing.report))
        os.mkdir(folder)
        self.fillings.settle(packing.tables)
        day = header.watermark[:10].replace('-', '')
        for kind in KINDS:
            files = KindFiles(folder, day, fields, packing.of_kind(kind))
            for it in self.objects(kind):
                checker.text(it)
                files.write(it)
            files.close()
            definitions.append(files.definitions())
        prefixes = {kind: fields.definitions[kind].prefix for kind in KINDS}
        with open(os.path.join(folder, name), 'x', encoding='utf-8', newline='') as out:
            document = Document(packing, header, rest, out)
            document.begin(prefixes, fields.prefixes)
            for it in definitions:
                document.write(it)
            document.end()


def give_up(path: str) -> None:
    """Removes what was written at a place."""
    if os.path.isdir(path):
        shutil.rmtree(path, ignore_errors=True)
    elif os.path.lexists(path):
        os.remove(path)

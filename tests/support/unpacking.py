"""Runs `unpack_rde` on documents that are put together of elements, and reads the folders that it
writes."""
import contextlib
import hashlib
import io
import json
import os
import runpy
import tempfile
import unittest
from collections.abc import Iterable
from collections.abc import Mapping
from collections.abc import Sequence

from tests.support import TOP
from tests.support.bundles import HEADING
from tests.support.bundles import sealed
from tests.support.documents import URIS
from tests.support.documents import Cells
from tests.support.documents import csv_text
from tests.support.documents import element
from tests.support.escrow import DescribedTable
from tests.support.escrow import description_in
from tests.support.escrow import folders_in
from tests.support.escrow import rows_in
from tests.support.files import read
from tests.support.files import write
from tests.support.formats import envelope_in
from tests.support.formats import records
from tests.support.model import Desk

PROGRAM = f'{TOP}/packaging/unpack_rde'
# The program is run in this process: to start another one for each case would take ten times as
# long.
MAIN = runpy.run_path(PROGRAM)['main']
SPACES = {f'xmlns:{it}': uri for it, uri in URIS.items()}
HEADER = {'type': 'FULL', 'id': 'F1'}
DIFF = {'type': 'DIFF', 'id': 'D2', 'prevId': 'F1'}
MENU = element('rde:rdeMenu',
               within=element('rde:version', '1.0') + element('rde:objURI', URIS['rdeDomain']))
WATERMARK = element('rde:watermark', '2024-03-03T00:00:00Z')


def deposit(contents: str = '', deletes: str = '', watermark: str = WATERMARK, menu: str = MENU,
            header: Mapping[str, str] = HEADER) -> bytes:
    """A document with each section on a line of its own: the watermark on line 2, the menu on 3,
    the deletes on 4, the contents on 5."""
    sections = element('rde:deletes', within=deletes), element('rde:contents', within=contents)
    within = '\n'.join(['', watermark, menu, *sections, ''])
    return ('<?xml version="1.0"?>' +
            element('rde:deposit', within=within, **header, **SPACES)).encode()


def registrar(more: str = '', id: str = 'R1') -> str:
    return element(
        'rdeRegistrar:registrar',
        within=element('rdeRegistrar:id', id) + element('rdeRegistrar:name', 'One') + more)


def domain(name: str, more: str = '') -> str:
    return element('rdeDomain:domain', within=element('rdeDomain:name', name) + more)


def counted(number: str, kind: str = 'Domain', **more: str) -> str:
    return element('rdeHeader:header', within=element('rdeHeader:count', number,
                                                      uri=URIS[f'rde{kind}'], **more))


def csv_definition(name: str, fields: Iterable[str], *files: str, **more: str) -> str:
    within = element('rdeCsv:fields', within=''.join(f'<{it}/>' for it in fields))
    return element('rdeCsv:csv', within=within + element('rdeCsv:files', within=''.join(files)),
                   name=name, **more)


def file_of(name: str, **more: str) -> str:
    return element('rdeCsv:file', name, **more)


def in_files(prefix: str, *definitions: str, word: str = 'contents') -> str:
    return element(f'{prefix}:{word}', within=''.join(definitions))


def idns(file: str = file_of('i.csv'),
         fields: Iterable[str] = ('rdeCsv:fIdnTableId', 'rdeCsv:fUrl'), **more: str) -> str:
    """The contents of a deposit with one definition, of a file of two fields."""
    return in_files('csvIDN', csv_definition('idnLanguage', fields, file, **more))


HOST = csv_definition('host', ['csvHost:fName', 'rdeCsv:fRoid'], file_of('h.csv'))
ADDRESSES = csv_definition('hostAddresses',
                           ['rdeCsv:fRoid parent="true"', 'csvHost:fAddr', 'csvHost:fAddrVersion'],
                           file_of('a.csv'))
DELETED_HOST = csv_definition('host', ['rdeCsv:fRoid'], file_of('g.csv'))


class Unpacked:
    """What the program does with a document and the files beside it, in a folder of its own."""
    source = 'd.xml'

    def __init__(self, folder: str, text: bytes, files: Mapping[str, bytes] | None = None,
                 words: Sequence[str] = ()) -> None:
        self.folder, self.out = folder, os.path.join(folder, 'out')
        self.status: int | str | None = None
        self.lines: list[str] = []
        self.printed = ''
        for name, data in {'d.xml': text, **(files or {})}.items():
            write(os.path.join(folder, name), data)
        self.run(words)

    def run(self, words: Sequence[str]) -> None:
        before, out, err = os.getcwd(), io.StringIO(), io.StringIO()
        os.chdir(self.folder)
        try:
            with contextlib.redirect_stdout(out), contextlib.redirect_stderr(err):
                self.status = MAIN([*words, self.source, 'out'])
        except SystemExit as ended:
            self.status = ended.code
        finally:
            os.chdir(before)
        self.lines, self.printed = err.getvalue().splitlines(), out.getvalue()

    def bundles(self) -> list[bytes]:
        """The bundles of what was written."""
        return [bundle_in(it) for it in folders_in(self.out)]


class Described(Unpacked):
    """The same with files and their description, a value or its text, in the folder `files`."""
    source = 'files'

    def __init__(self, folder: str, description: object, files: Mapping[str, bytes],
                 words: Sequence[str] = ()) -> None:
        text = description if isinstance(description, bytes) else json.dumps(description).encode()
        super().__init__(folder, b'', {f'files/{name}': data
                                       for name, data in {**files, 'envelope.json': text}.items()},
                         ['--described', *words])

    def given(self) -> bytes:
        """The bundle that one may make of them by the words of docs/PACK.md, however large."""
        folder = os.path.join(self.folder, 'files')
        described = description_in(folder)
        tables = [*described.get('contents', []), *described.get('deletes', [])]
        return sealed(read(os.path.join(folder, 'envelope.json')),
                      [(it['file'], given_rows(folder, it)) for it in tables])


def given_rows(folder: str, table: DescribedTable) -> bytes:
    """The rows of the files of a table, without headings."""
    names, has_heading = table.get('from', [table['file']]), table.get('heading', False)
    rows = [row for it in names for row in records(read(os.path.join(folder, it)))[has_heading:]]
    return csv_text([[cell.decode() for cell in row] for row in rows], ',')


def bundle_in(folder: str) -> bytes:
    """The bundle of a folder for `pack bundle`: its description, and the rows of each table without
    their heading."""
    described = description_in(folder)
    tables = [*described['contents'], *described['deletes']]
    files = [(table['file'],
              b''.join(read(os.path.join(folder, it)).split(b'\n', 1)[1]
                       for it in table['from']))
             for table in tables]
    return sealed(read(os.path.join(folder, 'envelope.json')), files)


def row_of(bundle: bytes) -> str:
    """The row of a manifest that lists a bundle."""
    told = envelope_in(bundle)
    front = [
        told['id'], told['type'], told['watermark'],
        told.get('prevId', ''), f'{told["resend"].text if "resend" in told else ""}'
    ]
    return ','.join([*front, hashlib.sha256(bundle).hexdigest()]) + '\n'


def desk(listed: Sequence[bytes], arrived: Sequence[bytes] | None = None) -> Desk:
    """A desk that lists bundles, and to which these came, in their order; all of them if none are
    named."""
    manifest = HEADING + ''.join(map(row_of, listed))
    arrivals = listed if arrived is None else arrived
    return Desk(manifest.encode(), [(f'n{at}', it) for at, it in enumerate(arrivals)])


class Case(unittest.TestCase):
    def unpacked(self, text: bytes, files: Mapping[str, bytes] | None = None,
                 words: Sequence[str] = ()) -> Unpacked:
        folder = tempfile.TemporaryDirectory(prefix='case-')
        self.addCleanup(folder.cleanup)
        return Unpacked(folder.name, text, files, words)

    def written(self, text: bytes, files: Mapping[str, bytes] | None = None,
                words: Sequence[str] = ()) -> Unpacked:
        """What is unpacked of a deposit that is taken, and says nothing."""
        found = self.unpacked(text, files, words)
        self.assertEqual((found.status, found.lines), (0, []))
        return found

    def rows(self, found: Unpacked, table: str) -> list[Cells]:
        """The rows of a table, each with the cells that aren't empty."""
        declared = [it for it in description_in(found.out)['contents'] if it['name'] == table]
        return [{name: value
                 for name, value in row.items()
                 if value}
                for it in declared
                for row in rows_in(found.out, it)]

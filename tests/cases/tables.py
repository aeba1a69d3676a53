"""`handover tables`: the files and the database of registries, read by Python's csv, hashlib and
sqlite3, against a plain model of what is held; and where they are not made. (handovers.py has what
all commands refuse.)"""
import contextlib
import csv
import functools
import hashlib
import io
import os
import resource
import shutil
import signal
import sqlite3
from collections.abc import Callable
from collections.abc import Sequence

from tests.cases.handovers import CHILD
from tests.cases.handovers import FIRST
from tests.cases.handovers import HOST
from tests.cases.handovers import SHORT
from tests.cases.handovers import TABLES
from tests.cases.handovers import check_contents_refused
from tests.cases.handovers import check_refused
from tests.cases.handovers import children
from tests.cases.handovers import contacts
from tests.cases.handovers import hosts
from tests.cases.handovers import names_in
from tests.cases.handovers import played_apart
from tests.cases.handovers import release_of
from tests.cases.handovers import store_of
from tests.support.acceptance import Objects
from tests.support.bundles import HEADING
from tests.support.bundles import Table
from tests.support.documents import csv_text
from tests.support.files import read
from tests.support.flawed import some_release
from tests.support.formats import KINDS
from tests.support.formats import read_record
from tests.support.formats import record
from tests.support.outputs import no_longer_files
from tests.support.outputs import prepared
from tests.support.releases import SAMPLES
from tests.support.releases import Release
from tests.support.stage import Failed
from tests.support.stage import Stage
from tests.support.stage import case
from tests.support.stage import compare
from tests.support.stage import compare_all
from tests.support.steps import Folder
from tests.support.steps import Link
from tests.support.steps import Text
from tests.support.stores import change_row
from tests.support.stores import run

# Whether a table has parent rows, its columns after the key, and its rows.
Sheet = tuple[bool, list[str], list[tuple[str | None, ...]]]
BOTH = 'tables --store a.db --sqlite out'


def sheet_of(is_parent: bool, rows: Sequence[tuple[str, list[tuple[str, str]]]]) -> Sheet:
    """The table of rows, of each the key and its cells: whether it has parent rows, its columns
    after the key, and its rows: of each the key, and the texts, or None where it has no such field.
    A field that stands in it twice has its first text."""
    columns = list(dict.fromkeys(field for _, cells in rows for field, _ in cells))
    return is_parent, columns, [(key, *map(dict(reversed(cells)).get, columns))
                                for key, cells in rows]


def sheets_of(objects: Objects) -> dict[str, Sheet]:
    """The tables of objects, which are records by kind and key, by their names."""
    sheets: dict[str, Sheet] = {}
    for kind in KINDS:
        parents = []
        children: dict[str, list[tuple[str, list[tuple[str, str]]]]] = {}
        for (_, key), it in sorted(it for it in objects.items() if it[0][0] == kind):
            (_, cells), *others = read_record(it)
            parents.append((key.decode(), cells))
            for table, cells in others:
                children.setdefault(table, []).append((key.decode(), cells))
        sheets |= {kind: sheet_of(True, parents)
                   } | {table: sheet_of(False, rows)
                        for table, rows in children.items()}
    return sheets


def check_database(stage: Stage, sheets: dict[str, Sheet]) -> None:
    with contextlib.closing(sqlite3.connect(stage.at('out/registry.sqlite'))) as database:
        compare('integrity', 'ok', database.execute('PRAGMA integrity_check').fetchone()[0])
        names = [
            it for it, in database.execute("SELECT name FROM sqlite_master WHERE type = 'table'")
        ]
        compare_all('tables', sorted(sheets), sorted(names))
        for name, (is_parent, columns, rows) in sheets.items():
            quoted = '"' + name.replace('"', '""') + '"'
            compare_all(f'columns of {name}',
                        [('key', 'TEXT', int(is_parent)), *((it, 'TEXT', 0) for it in columns)],
                        [(it[1], it[2], it[5])
                         for it in database.execute(f'PRAGMA table_info({quoted})')])
            compare_all(f'rows of {name}', rows,
                        database.execute(f'SELECT * FROM {quoted} ORDER BY rowid'))
            plan = database.execute(f'EXPLAIN QUERY PLAN SELECT * FROM {quoted} WHERE key = ?',
                                    ('',)).fetchall()[0][3]
            if not plan.startswith(
                (f'SEARCH {name} USING INDEX', f'SEARCH {name} USING COVERING INDEX')):
                raise Failed(f'{name} is searched without an index: {plan}')


def check_tables(stage: Stage, objects: Objects, line: str = TABLES) -> None:
    """Makes the files of a store, and compares them with the tables of these objects. Nothing else
    is made or changed."""
    names, before = {*names_in(stage.room.name), 'out'}, read(stage.at('a.db'))
    run(stage, line, 'handover')
    sheets = sheets_of(objects)
    files = [*(f'{it}.csv' for it in sheets), *(['registry.sqlite'] if '--sqlite' in line else [])]
    made = {f'out/{it}' for it in (*files, 'sha256sums')}
    compare_all('files', sorted(names | made), names_in(stage.room.name))
    for name, (_, columns, rows) in sheets.items():
        wanted = [['key', *columns], *([text or '' for text in row] for row in rows)]
        compare_all(f'{name}.csv', wanted,
                    csv.reader(io.StringIO(read(stage.at(f'out/{name}.csv')).decode(), newline='')))
    compare_all('sha256sums', (f'{hashlib.sha256(read(stage.at(f"out/{it}"))).hexdigest()}  {it}'
                               for it in files),
                read(stage.at('out/sha256sums')).decode().splitlines())
    if '--sqlite' in line:
        check_database(stage, sheets)
    if read(stage.at('a.db')) != before:
        raise Failed('the store is changed')


def check_release(stage: Stage, release: Release, refusal: str | None = None) -> None:
    """Compares the files of a release, with a database, and without one. There may be a refusal of
    the database, and there are none where there is no chain."""
    release.rebuild(stage)
    desk = release.desk()
    if desk.steps:
        check_tables(stage, desk.objects)
        shutil.rmtree(stage.at('out'))
    if refusal or not desk.steps:
        check_refused(stage, refusal or 'H7', BOTH)
    else:
        check_tables(stage, desk.objects, BOTH)


RELEASES = SAMPLES | {f'the release of seed {seed}': some_release(seed) for seed in range(6)}
CASES: dict[str, Callable[[Stage], None]] = {
    f'Tables of {name}': functools.partial(check_release, release=it)
    for name, it in RELEASES.items()
}


# ---- texts, and fields that differ


ODD = ('"', '""', ',', 'a,b', ' a ', '\n', '\r\n', 'a\rb', 'a\n\n', '\t', '\x00', '\ufeff', 'é',
       '例え.テスト', '🙂', "'; DROP TABLE contact;--", '')
# The tables of a Full and of a Differential, and the refusal where they can't be those of a
# database.
REGISTRIES = (
    # Texts of all sorts.
    ((contacts(csv_text(((f'C{at}', it) for at, it in enumerate(ODD)), ',')),), (), None),
    # Keys that are quoted, and one that begins with a byte order mark.
    ((contacts(csv_text((('a,"b', 'x'), ('a\nb', 'y'), ('\ufeffa', 'z')), ',')),), (), None),
    # The letters of a host's key are lowered, and those in its field aren't.
    ((hosts(b'NS1.example\nns2.EXAMPLE\n'),), (), None),
    # Fields that only some rows have, in other orders; a text that is empty, and a field that isn't
    # there.
    ((FIRST, CHILD), (contacts(b'x,C2\n,C3\n', ('note', 'id'),
                               'id'), children(b',C2,s\n', fields=('text', 'id', 'sort'),
                                               key='id')), None),
    # The parent rows are declared under one name here and under another there.
    ((FIRST,), (contacts(b'C2,X2\n',
                          name='people'), children(b'C2,1,2\n', 'a_b',
                                                   ('id', 'a.b', 'a-b'))), None),
    # Two rows of one table in an object, between those of others.
    ((FIRST, CHILD), (FIRST, *(children(b'C1,x\nC1,y\n', it) for it in ('z', 'more', 'a'))), None),
    # Names that are words of SQL.
    ((FIRST, children(b'C1,1,2,3\n', 'select', ('id', 'from', 'rowid', 'null'))), (), None),
    # Names of columns that a database takes for one.
    ((contacts(b'C1,c1\n', ('id', 'ID')),), (), 'H10 contact'),
    ((contacts(b'C1,c1\n', ('id', 'Key')),), (), 'H10 contact'),
    ((FIRST, CHILD), (contacts(b'C2,X2\n'), children(b'C2,x\n',
                                                     fields=('id', 'Text'))), 'H10 more'),
    # A name of SQLite's own.
    ((FIRST, children(b'C1\n', 'SQLITE_more', ('id',))), (), 'H10 SQLITE_more'),
    # An empty registry.
    ((), (), None),
)
CASES['Tables of all sorts'] = played_apart(
    lambda stage, *given: check_release(stage, release_of(*given[:2]), given[2]), REGISTRIES)


def test_cells_that_no_bundle_has(stage: Stage) -> None:
    """Rows that no bundle has: a field that stands in a row twice, and a row without cells."""
    store_of(stage, (FIRST, CHILD))
    rows = [('contact', [('id', 'C1'), ('x', '1'), ('id', 'C2'), ('x', '2')]), ('more', []),
            ('more', [('x', '')])]
    change_row(stage, 'a.db', 'UPDATE object SET record = ? WHERE key = ?', (record(rows), b'C1'))
    check_tables(stage, {('contact', b'C1'): record(rows)}, BOTH)


def test_most_columns(stage: Stage) -> None:
    """A table of a database has 2,000 columns at most; the key is one of them."""
    store_of(stage, (FIRST,))
    for count in (1_999, 2_000):
        rows = [('contact', [(f'x{at}', '') for at in range(count)])]
        change_row(stage, 'a.db', 'UPDATE object SET record = ? WHERE key = ?',
                   (record(rows), b'C1'))
        if count == 1_999:
            check_tables(stage, {('contact', b'C1'): record(rows)}, BOTH)
            shutil.rmtree(stage.at('out'))
    check_refused(stage, 'H10 contact', BOTH)
    check_tables(stage, {('contact', b'C1'): record(rows)})


# The tables of a Full and of a Differential of which two would be in one file.
ALIKE = (
    ('H9 more', (FIRST, CHILD, HOST), (HOST,
                                       Table('more', 'host', 'child', ('name', 'text'),
                                             b'ns1.example,x\n'))),
    ('H9 more', (FIRST, CHILD), (contacts(b'C2,X2\n'), children(b'C2\n', 'More', ('id',)))),
    ('H9 Domain', (FIRST, children(b'C1\n', 'Domain', ('id',))), ()),
)
CASES['Tables of which two would be in one file'] = played_apart(
    functools.partial(check_contents_refused, lines=(TABLES, BOTH)), ALIKE)


def test_no_chain(stage: Stage) -> None:
    """A store without a chain has no tables yet."""
    Release(HEADING.encode(), []).rebuild(stage)
    check_refused(stage, 'H7', TABLES)


def test_places(stage: Stage) -> None:
    """The folder of the files is made, or is empty; else they are not made."""
    store_of(stage, (FIRST,))
    for made in (Folder('full/of'), Text('file', 'text'), Link('link', 'nowhere'), Folder('empty'),
                 Link('led', 'empty'), Folder('beside.part')):
        made.do(stage)
    for target in ('full', 'file', 'link', 'led', 'absent/out', 'file/out', '', '/', '.', 'a.db'):
        with case(f'at {target!r}'):
            check_refused(stage, f'E1 {target or "(an empty path)"}', status=3,
                          kept=('a.db', 'file'), words=[*TABLES.split()[:-1], target])
    with case('where a stopped run left its files'):
        check_refused(stage, 'E1 beside.part', TABLES.replace('out', 'beside'), 3)
    for target in ('empty', 'new', 'slashes//'):
        run(stage, TABLES.replace('out', target), 'handover')
        compare('files',
                'contact.csv domain.csv host.csv idn.csv nndn.csv registrar.csv sha256sums',
                ' '.join(sorted(os.listdir(stage.at(target)))))
    check_refused(stage, 'E1 new', TABLES.replace('out', 'new'), 3)


def make_long(stage: Stage) -> None:
    """A store whose first table is short, and whose second one is longer than a log without
    entries."""
    store_of(stage, (contacts(b'C1,%b\n' % (b'x' * 200)),))


def test_a_full_disk(stage: Stage) -> None:
    """A file that can't be written whole: nothing is left."""
    make_long(stage)
    check_refused(stage, 'E1 out', TABLES, 3, prepare=no_longer_files(SHORT))
    # (Each CSV file is shorter than 1,000 bytes, a database isn't.)
    check_refused(stage, 'E1 out', BOTH, 3, prepare=no_longer_files(1_000))


def test_a_stop(stage: Stage) -> None:
    """A stop in the middle leaves nothing in the folder's place, and the files so far beside it."""
    make_long(stage)
    ends = prepared([(resource.RLIMIT_FSIZE, SHORT), (resource.RLIMIT_CORE, 0)])
    got = stage.end(stage.begin(TABLES.split(), 'handover', prepare=ends))
    compare('status', f'{-signal.SIGXFSZ}', f'{got.status}')
    if 'out' in os.listdir(stage.room.name) or 'contact.csv' not in os.listdir(
            stage.at('out.part')):
        raise Failed(f'there is {names_in(stage.room.name)}')
    check_refused(stage, 'E1 out.part', TABLES, 3)
    shutil.rmtree(stage.at('out.part'))
    run(stage, TABLES, 'handover')

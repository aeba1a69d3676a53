"""Stores that the C library makes, with nothing of the program: one of the texts of the tables
alone, and stores of version 1, which are migrated. What is told of them then, and their rows, are
those of a store that `restore` made and that took the same arrivals."""
import contextlib
import functools
import os
import sqlite3
from collections.abc import Iterable
from collections.abc import Mapping
from collections.abc import Sequence
from dataclasses import dataclass
from typing import TypeVar

from tests.support import TOP
from tests.support.bundles import Header
from tests.support.bundles import Table
from tests.support.bundles import deposit
from tests.support.bundles import manifest
from tests.support.files import read
from tests.support.first_store import TABLES
from tests.support.first_store import Values
from tests.support.first_store import first_rows
from tests.support.first_store import write_store
from tests.support.registries import csv_text
from tests.support.releases import DEPOSITS
from tests.support.releases import MISSING
from tests.support.releases import folder
from tests.support.releases import sample
from tests.support.stage import Failed
from tests.support.stage import Stage
from tests.support.stores import contents
from tests.support.stores import copy
from tests.support.stores import is_whole
from tests.support.stores import opened
from tests.support.stores import readings
from tests.support.stores import rows

# What a run gives, by what is run: its status, and its standard output and error.
Key = TypeVar('Key')
Told = tuple[int, str, str]
# The rows of each table.
Tables = dict[str, list[tuple[object, ...]]]
FIRST = f'{TOP}/samples/first'
NEW_TABLES = {'parked': 'digest BLOB PRIMARY KEY, body BLOB NOT NULL',
              'moment': 'id INTEGER PRIMARY KEY CHECK (id = 1), watermark INTEGER NOT NULL'}
S3 = (3, '', 'S3\n')
# What each command but `migrate` is told beside its store.
OTHERS = (('init', '--manifest', 'manifest.csv'), ('take', 'taken'),
          ('amend', '--manifest', 'manifest.csv'), ('as-of', 'latest'),
          ('serve', '--port', '65535', '--count', '1'), ('report', 'status'), ('export', 'domain'))


def check(what: str, wanted: object, found: object) -> None:
    if found != wanted:
        raise Failed(f'{what}:\nwanted {wanted!r:.600}\ngot    {found!r:.600}')


def run(stage: Stage, command: str, store: str, *words: str) -> Told:
    """The status of a run, its standard output and its standard error."""
    got = stage.end(stage.begin([command, '--store', store, *words]))
    return got.status, got.out.decode(), got.err.decode()


def readings_of(stage: Stage, store: str) -> dict[str, Told]:
    return readings(lambda command, _, *words: run(stage, command, *words), store)


def rows_of(stage: Stage, store: str) -> Tables:
    """The rows of a store's tables, after the C library's checks of the file."""
    check(f'the checks of {store}', True, is_whole(stage.at(store)))
    return rows(stage.at(store))


# ---- a store of the texts of the tables

def write_plain(stage: Stage, store: str, tables: Mapping[str, str]) -> None:
    """Makes a store of the first sample's manifest, with its tables in this order, in small
    letters."""
    listed = first_rows(read(f'{FIRST}/manifest.csv'), [])['listed']
    with contextlib.closing(sqlite3.connect(stage.at(store))) as database, database:
        for name, columns in tables.items():
            database.execute(f'create table {name} ({columns.lower()})')
        database.execute('insert into info values (1, 2)')
        database.executemany('insert into listed values (?, ?, ?, ?, ?, ?, ?)', listed)


def test_plain_store(stage: Stage) -> None:
    """A store that is made of the texts of the tables alone is one; with the tables in another
    order it is none."""
    tables = TABLES | NEW_TABLES
    write_plain(stage, 'plain.db', tables)
    run(stage, 'init', 'own.db', '--manifest', f'{FIRST}/manifest.csv')
    for what in ('taken', 'taken again'):
        taken = run(stage, 'take', 'own.db', f'{FIRST}/deposits')
        check('status', 0, taken[0])
        check(what, taken, run(stage, 'take', 'plain.db', f'{FIRST}/deposits'))
    check('reports and exports', readings_of(stage, 'own.db'), readings_of(stage, 'plain.db'))
    check('rows', rows_of(stage, 'own.db'), rows_of(stage, 'plain.db'))
    write_plain(stage, 'turned.db', {'listed': tables['listed'], **tables})
    before = rows_of(stage, 'turned.db')
    check('another order', S3, run(stage, 'report', 'turned.db', 'status'))
    check('its rows', before, rows_of(stage, 'turned.db'))


# ---- stores of version 1

@dataclass(frozen=True)
class Release:
    """A manifest with the arrivals that version 1 took, numbers with bodies; what arrives after the
    migration; and further parts."""
    manifest: bytes
    arrivals: Sequence[tuple[str, bytes]]
    more: Sequence[tuple[str, bytes]] = ()
    parts: Sequence[bytes] = ()


def as_later(told: Mapping[Key, Told]) -> dict[Key, Told]:
    """What this version says: A5, where version 1 said A2."""
    return {
        what: (status, out.replace(',A2,', ',A5,'), err)
        for what, (status, out, err) in told.items()
    }


def rows_as_later(found: Tables) -> Tables:
    receipts = [(*it[:3], 5 if it[3] == 2 else it[3], *it[4:]) for it in found['receipt']]
    return found | {'receipt': sorted(receipts, key=repr)}


def texts_of(stage: Stage, store: str) -> list[str]:
    with opened(stage.at(store)) as database:
        return [
            it for it, in database.execute(
                "SELECT sql FROM sqlite_master WHERE type = 'table' ORDER BY rowid")
        ]


def check_migration(stage: Stage, kept: Mapping[str, Sequence[Values]]) -> None:
    """Of a store of version 1, with these rows, nothing changes but the version, and two tables
    that are empty. Any other command refuses it, and so does a second migration."""
    write_store(stage.at('a.db'), kept)
    whole, before = contents(stage.at('a.db')), rows_of(stage, 'a.db')
    check('the rows of version 1', {table: sorted(it, key=repr)
                                    for table, it in kept.items()}, before)
    for command, *words in OTHERS:
        check(f'{command} of version 1', S3, run(stage, command, 'a.db', *words))
    check('the file after refusals', whole[0], contents(stage.at('a.db'))[0])
    check('migrate', (0, 'migrated\n', ''), run(stage, 'migrate', 'a.db'))
    check('the rows once migrated', before | {'info': [(1, 2)], 'parked': [], 'moment': []},
          rows_of(stage, 'a.db'))
    whole = contents(stage.at('a.db'))[0]
    check('migrate again', S3, run(stage, 'migrate', 'a.db'))
    check('the file after it', whole, contents(stage.at('a.db'))[0])


def check_same(stage: Stage, store: str, other: str) -> None:
    """Compares reports, exports, tables and rows of a migrated store with those of another one."""
    check('reports and exports', as_later(readings_of(stage, other)),
          as_later(readings_of(stage, store)))
    check('texts of tables', texts_of(stage, other), texts_of(stage, store))
    check('rows', rows_as_later(rows_of(stage, other)), rows_as_later(rows_of(stage, store)))


def go_on(stage: Stage, steps: Iterable[tuple[str, ...]]) -> None:
    """Takes the arrivals again, amends, and takes what comes later, on a migrated store and on the
    other one."""
    for start, store in (('a.db', 'b.db'), ('fresh.db', 'c.db')):
        copy(stage.at(start), stage.at(store))
    for step in [*steps, ('take', 'taken')]:
        ends = [as_later({step: run(stage, step[0], it, *step[1:])}) for it in ('c.db', 'b.db')]
        check(f'{step}', *ends)
    check_same(stage, 'b.db', 'c.db')
    check('later arrivals', *(run(stage, 'take', it, 'later') for it in ('c.db', 'b.db')))
    check_same(stage, 'b.db', 'c.db')


def check_release(stage: Stage, release: Release) -> None:
    """Migrates a store that version 1 made of a release. Then it is as one that took the same
    arrivals, but for the bodies that no row listed; and once these come again, before or after
    their rows, it is the same."""
    kept = first_rows(release.manifest, release.arrivals)
    for name, content in {
            'manifest.csv': release.manifest,
            **{f'part{at}.csv': it
               for at, it in enumerate(release.parts)}
    }.items():
        stage.write(name, content)
    for place, arrivals in (('taken', release.arrivals), ('later', release.more)):
        os.makedirs(stage.at(place))
        for number, body in arrivals:
            stage.write(f'{place}/{number}', body)
    check_migration(stage, kept)
    check('init', (0, f'listed {len(kept["listed"])}\n', ''),
          run(stage, 'init', 'fresh.db', '--manifest', 'manifest.csv'))
    run(stage, 'take', 'fresh.db', 'taken')
    wanted = readings_of(stage, 'fresh.db') | {'report parked': (0, 'sha256,bytes\n', '')}
    check('reports once migrated', as_later(wanted), as_later(readings_of(stage, 'a.db')))
    amendments = [('amend', '--manifest', f'part{at}.csv') for at in range(len(release.parts))]
    go_on(stage, [('take', 'taken'), *amendments])
    if amendments:
        go_on(stage, amendments)


def header(id: str, type: str, day: int, prev: str = '', resend: int = 0) -> Header:
    return Header(id, type, f'2024-03-{day:02}T00:00:00Z', prev, resend)


def of_domains(it: Header, domains: Iterable[Sequence[str]],
               statuses: Iterable[Sequence[str]]) -> bytes:
    return deposit(it, [
        Table('domainStatuses', 'domain', 'child', ('domainName', 'status'), csv_text(statuses)),
        Table('domain', 'domain', 'parent', ('name', 'clID'), csv_text(domains))
    ])


def each_verdict() -> Release:
    """Arrivals of each verdict, and of each twice under other numbers. The bodies that no row lists
    are listed by two parts, as a deposit, as one that doesn't read, and as one that differs from
    its row; one stays unlisted."""
    f1, d2, d4 = header('F1', 'FULL', 1), header('D2', 'DIFF', 2,
                                                 'F1'), header('D4', 'DIFF', 4, 'D2')
    full = of_domains(f1, [('a.example', 'R1'), ('B.example', 'R1')], [('a.example', 'ok'),
                                                                       ('b.example', 'clientHold'),
                                                                       ('a.example', 'linked'),
                                                                       ('z.example', 'ok')])
    second = of_domains(d2, [('c.example', 'R2')], [('c.example', 'ok'), ('d.example', 'ok')])
    other, fourth = of_domains(header('D9', 'DIFF', 3, 'F1'), [('x.example', 'R1')],
                               []), of_domains(d4, [('e.example', 'R2')], [('e.example', 'ok')])
    cut, broken, none = full[:-5], second.replace(b'c.example,R2',
                                                  b'c.example R2'), b'neither a bundle'
    bodies = (full, cut, other, second, broken, b'abc', full, second, fourth, none, other, cut, b'')
    return Release(
        manifest([(f1, full), (header('F1', 'FULL', 1, resend=1), cut),
                  (header('D3', 'DIFF', 3, 'F1'), other)]),
        [(chr(ord('a') + at), it) for at, it in enumerate(bodies)], (('n', second), ('o', fourth)),
        (manifest([(d2, second), (header('D2', 'DIFF', 2, 'F1', 1), broken)
                   ]), manifest([(d4, fourth), (header('D5', 'DIFF', 5, 'D4'), none)])))


RELEASES = {
    'the first sample': Release(sample('first/manifest.csv'), folder('first/deposits')),
    'no arrivals': Release(sample('first/manifest.csv'), [], folder('first/deposits')),
    'the second sample': Release(sample('release/manifest.csv'), DEPOSITS, MISSING),
    'a manifest in parts': Release(sample('parts/first.csv'), DEPOSITS, MISSING,
                                   (sample('parts/second.csv'),)),
    'each verdict': each_verdict(),
}
CASES = {
    f'A store of version 1, of {name}, is migrated': functools.partial(check_release, release=it)
    for name, it in RELEASES.items()
}

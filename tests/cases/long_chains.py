"""Long chains: deposits that come in their order, and then another revision of the one on the Full;
and the longest manifest. What the desk tells is compared with what its deposits say, one after the
other."""
import contextlib
import datetime
import functools
import hashlib
import sqlite3
from collections.abc import Iterable
from collections.abc import Sequence
from dataclasses import dataclass

from tests.support.bundles import Header
from tests.support.bundles import Table
from tests.support.bundles import deposit
from tests.support.bundles import manifest
from tests.support.limits import MOST_LISTED
from tests.support.registries import csv_text
from tests.support.reports import report
from tests.support.reports import status
from tests.support.stage import Stage
from tests.support.stage import Wanted
from tests.support.stage import compare
from tests.support.stage import text_of

# How many deposits are taken by one run: each is synced to the disk, and a run may not take long.
AT_ONCE = 1_000
FIELDS = ('name', 'clID')
# Hosts that many deposits speak of, and two that one revision of the deposit on the Full has each.
HOSTS, EARLY, LATE = tuple(f'ns{at}.example' for at in range(11)), 'early.example', 'late.example'


def header_of(day: int, resend: int = 0) -> Header:
    """A Full, or a Differential on the deposit of the day before."""
    watermark = f'{datetime.date(1970, 1, 1) + datetime.timedelta(day)}T00:00:00Z'
    return Header(f'N{day}',
                  *(('DIFF', watermark, f'N{day - 1}') if day else ('FULL', watermark, '')), resend)


@dataclass(frozen=True)
class Deposit:
    """The day of a deposit, and its resend; the hosts that it deletes, and those that it has, each
    with its clID."""
    day: int
    deletes: tuple
    contents: dict
    resend: int = 0

    def header(self) -> Header:
        return header_of(self.day, self.resend)

    def body(self) -> bytes:
        contents = Table('host', 'host', 'parent', FIELDS, csv_text(self.contents.items()))
        return deposit(
            self.header(), [contents],
            [Table('host', 'host', 'parent', FIELDS[:1], csv_text([it] for it in self.deletes))])


# The Full; the deposit on it, and its other revision, of which ns2.example is soon another one's.
FULL = Deposit(0, (), dict.fromkeys(HOSTS, 'R0'))
FIRST = Deposit(1, (), {EARLY: 'R1'})
REVISED = Deposit(1, (HOSTS[3],), {LATE: 'R1', HOSTS[2]: 'R1'}, resend=1)


def check_desk(stage: Stage, chain: Sequence[Deposit], held: int, awaited: int | str) -> None:
    """Compares what is told of a desk with this chain, where so many deposits came, and this
    revision of the one on the Full is awaited."""
    found: dict[str, str] = {}
    headers = [it.header() for it in chain]
    for it in chain:
        found = {name: sponsor
                 for name, sponsor in found.items() if name not in it.deletes} | it.contents
    end = headers[-1]
    told = status(
        len(chain) + 1, held, held, len(chain), f'{end.watermark} {end.type} {end.resend}',
        host=len(found))
    gaps = [
        f'{it.watermark},{it.type},{it.resend},chain,,{awaited if at == 1 else ""}'
        for at, it in enumerate(headers)
    ]
    cells = [
        f'host,{name},host,0,{field},{value}' for name in sorted(found)
        for field, value in zip(FIELDS, (name, found[name]))
    ]
    stage.check('report --store a.db status', Wanted(0, told))
    stage.check('report --store a.db gaps', Wanted(0, report('gaps', gaps)))
    stage.check('export --store a.db host', Wanted(0, report('export', cells)))


def take(stage: Stage, folder: str, deposits: Iterable[Deposit], receipt: int) -> None:
    """Takes a folder of deposits, all of which are held, in their order. The first has this
    receipt."""
    told = []
    for at, it in enumerate(deposits, receipt):
        stage.write(f'{folder}/n{at:04}', it.body())
        told.append(f'{at},n{at:04},A1,,N{it.day},{it.resend},new,0')
    stage.check(f'take --store a.db {folder}', Wanted(0, report('receipts', told)))


def check_chain(stage: Stage, steps: int) -> None:
    """Takes the deposits of a chain of so many steps, some at a time, and then the other revision
    near its front. The others have the hosts by turns, and every third day deletes one."""
    others = [
        Deposit(day, (HOSTS[day * 7 % 11],) if day % 3 == 0 else (), {HOSTS[day % 11]: f'R{day}'})
        for day in range(2, steps)
    ]
    deposits = [FULL, FIRST, *others]
    stage.write('listed.csv', manifest([(it.header(), it.body()) for it in [*deposits, REVISED]]))
    stage.check('init --store a.db --manifest listed.csv', Wanted(0, f'listed {steps + 1}\n'))
    for at in range(0, steps, AT_ONCE):
        take(stage, f'from{at}', deposits[at:at + AT_ONCE], at + 1)
    check_desk(stage, deposits, steps, REVISED.resend)
    take(stage, 'late', [REVISED], steps + 1)
    check_desk(stage, [FULL, REVISED, *others], steps + 1, '')


CASES = {
    f'A chain of {steps:,} steps, and a late revision near its front':
    functools.partial(check_chain, steps=steps)
    for steps in (301, 4_001)
}


# ---- the longest manifest

# The most rows of a manifest. The first and the last line of the gaps, where the first row's
# deposit is missing, and where all are held.
FIRST_MISSING = ('1970-01-01T00:00:00Z,FULL,,missing,,0',
                 '1981-03-19T00:00:00Z,DIFF,0,blocked,1970-01-01T00:00:00Z FULL,')
ALL_HELD = ('1970-01-01T00:00:00Z,FULL,0,chain,,', '1981-03-19T00:00:00Z,DIFF,0,chain,,')


def hold(store: str, deposits: Sequence[tuple[Header, bytes]]) -> None:
    """Holds all deposits but the first in a store, each with its receipt, as arrivals would that
    come the last first."""
    taken = [(at, row, deposits[row][1]) for at, row in enumerate(range(MOST_LISTED - 1, 0, -1), 1)]
    with contextlib.closing(sqlite3.connect(store)) as database, database:
        database.executemany('INSERT INTO held (row, body) VALUES (?, ?)',
                             [(row, body) for _, row, body in taken])
        database.executemany(
            'INSERT INTO receipt (receipt, number, digest, verdict, row, again, orphans) VALUES '
            '(?, ?, ?, 1, ?, 0, 0)',
            [(at, f'n{row}', hashlib.sha256(body).digest(), row) for at, row, body in taken])


def check_longest(stage: Stage, held: int, chain: int, end: str, first: str, last: str) -> None:
    """Compares the status and the gaps of the longest manifest: its first line and its last are
    given, the others are like the last."""
    stage.check('report --store a.db status', Wanted(0, status(MOST_LISTED, held, held, chain,
                                                               end)))
    between = [
        header_of(row).watermark + last.removeprefix(header_of(MOST_LISTED - 1).watermark)
        for row in range(1, MOST_LISTED - 1)
    ]
    stage.check('report --store a.db gaps', Wanted(0, report('gaps', [first, *between, last])))


def test_the_longest_manifest(stage: Stage) -> None:
    """The longest manifest: all its deposits are held but the first, and then all."""
    deposits = [(it, deposit(it)) for it in map(header_of, range(MOST_LISTED))]
    stage.write('listed.csv', manifest(deposits))
    stage.check('init --store a.db --manifest listed.csv', Wanted(0, f'listed {MOST_LISTED}\n'))
    hold(stage.at('a.db'), deposits)
    check_longest(stage, MOST_LISTED - 1, 0, 'none', *FIRST_MISSING)
    stage.write('deposits/n0', deposits[0][1])
    stage.check('take --store a.db deposits',
                Wanted(0, report('receipts', [f'{MOST_LISTED},n0,A1,,N0,0,new,0'])))
    check_longest(stage, MOST_LISTED, MOST_LISTED, '1981-03-19T00:00:00Z DIFF 0', *ALL_HELD)
    with contextlib.closing(sqlite3.connect(stage.at('a.db'))) as database:
        steps = text_of(f'{pos} {row}'
                        for pos, row in database.execute('SELECT pos, row FROM step ORDER BY pos'))
    compare('steps', text_of(f'{row + 1} {row}' for row in range(MOST_LISTED)), steps)

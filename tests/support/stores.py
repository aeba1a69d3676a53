"""Stores in files: rebuilt by `restore` from a release, changed behind its back, and read by the C
library."""
import contextlib
import os
import shutil
import sqlite3
from collections.abc import Callable
from collections.abc import Sequence
from typing import TypeVar

from tests.support.files import read
from tests.support.formats import KINDS
from tests.support.stage import Failed
from tests.support.stage import Stage

# What a run gives.
Said = TypeVar('Said')
# The length of a log in which nothing is.
EMPTY_LOG = 41
# How the names of a store's two files end.
ENDS = ('', '-wal')
REPORTS = ('status', 'gaps', 'links', 'receipts', 'parked', 'moment')
READINGS = [*(('report', it) for it in REPORTS), *(('export', it) for it in KINDS)]


def copy(old: str | None, new: str) -> str:
    """A store's two files under another name, in place of those that are there; without an old one
    they are removed alone."""
    for end in ENDS:
        if os.path.lexists(new + end):
            os.remove(new + end)
        if old and os.path.exists(old + end):
            shutil.copy(old + end, new + end)
    return new


def contents(store: str) -> tuple[bytes | None, ...]:
    """The bytes of a store's two files, or None for one that is not there."""
    return tuple(read(store + end) if os.path.exists(store + end) else None for end in ENDS)


def opened(store: str) -> contextlib.closing[sqlite3.Connection]:
    return contextlib.closing(sqlite3.connect(f'file:{store}?mode=ro', uri=True))


def is_whole(store: str) -> bool:
    """Whether the C library's checks of a store pass."""
    with opened(store) as database:
        return [
            database.execute(f'pragma {it}').fetchall()
            for it in ('integrity_check', 'foreign_key_check')
        ] == [[('ok',)], []]


def rows(store: str) -> dict[str, list[tuple[object, ...]]]:
    """The rows of each table, as the C library reads them."""
    with opened(store) as database:
        tables = [
            it for it, in database.execute("select name from sqlite_master where type = 'table'")
        ]
        return {
            table: sorted(database.execute(f'select * from {table}').fetchall(), key=repr)
            for table in tables
        }


def readings(run: Callable[..., Said], store: str) -> dict[str, Said]:
    """What each report and export says, by what runs the program."""
    return {f'{command} {what}': run(command, '--store', store, what) for command, what in READINGS}


def run(stage: Stage, line: str, program: str = 'restore', statuses: Sequence[int] = (0,)) -> bytes:
    """Runs a program, which must end with one of these statuses and say nothing on standard error.
    Gives its standard output."""
    got = stage.end(stage.begin(line.split(), program))
    if got.status not in statuses or got.err:
        raise Failed(f'$ {program} {line}\nstatus {got.status}: {got.err!r}')
    return got.out


def change_row(stage: Stage, store: str, statement: str, values: Sequence[object]) -> None:
    """Runs a statement that changes, adds or deletes one row."""
    with contextlib.closing(sqlite3.connect(stage.at(store))) as database:
        if database.execute(statement, values).rowcount != 1:
            raise Failed(f'{statement}: it is of another number of rows')
        database.commit()

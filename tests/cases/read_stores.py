"""Reports and exports of stores with a row that no store writes, with an index that lies, and with
a log that was not copied: what they read of the tables alone, and what is tested first for a desk.
And commands on a store that is not there."""
import contextlib
import sqlite3
from collections.abc import Collection
from collections.abc import Iterator
from collections.abc import Mapping

from tests.cases.handovers import names_in
from tests.support.files import read
from tests.support.formats import KINDS
from tests.support.messages import put
from tests.support.reports import report
from tests.support.sockets import response_to
from tests.support.sockets import serve
from tests.support.stage import Failed
from tests.support.stage import Stage
from tests.support.stage import Wanted
from tests.support.stage import case
from tests.support.stage import compare
from tests.support.stage import compare_all
from tests.support.steps import Copy
from tests.support.steps import FirstStore
from tests.support.steps import Folder
from tests.support.steps import Link
from tests.support.steps import Text
from tests.support.stores import EMPTY_LOG
from tests.support.stores import REPORTS
from tests.support.stores import change_row
from tests.support.stores import contents
from tests.support.stores import copy
from tests.support.stores import is_whole
from tests.support.stores import run

# The deposits that come, under the numbers 1 to 4; then a body that no row lists.
BUNDLES = ('f1', 'd2', 'd3', 'd2-resent')
# The reports, and an export.
READ = (*REPORTS, 'domain')
S1, S3 = Wanted(3, '', 'S1\n'), Wanted(3, '', 'S3\n')
NO_RECEIPTS = Wanted(0, report('receipts'))


def put_files(stage: Stage) -> None:
    Copy('listed.csv', 'chains.csv').do(stage)
    Folder('deposits').do(stage)
    for number, name in enumerate(BUNDLES, 1):
        Copy(f'deposits/{number}', f'{name}.bundle').do(stage)
    Text('deposits/5', 'abc').do(stage)
    run(stage, 'init --store a.db --manifest listed.csv')


def put_store(stage: Stage) -> dict[str, str]:
    """A store that took them all, and has a moment. Gives what is told of it."""
    put_files(stage)
    run(stage, 'take --store a.db deposits', statuses=(1,))
    run(stage, 'as-of --store a.db 2024-03-11T00:00:00Z')
    return told_of(stage, 'a.db')


def command_of(store: str, what: str) -> str:
    return f'{"export" if what in KINDS else "report"} --store {store} {what}'


def told_of(stage: Stage, store: str) -> dict[str, str]:
    return {it: run(stage, command_of(store, it)).decode() for it in READ}


def check_reports(stage: Stage, store: str, told: Mapping[str, str],
                  refused: Collection[str] = ()) -> None:
    for what, text in told.items():
        stage.check(command_of(store, what), S1 if what in refused else Wanted(0, text))


def check_refused(stage: Stage, store: str) -> None:
    """Whatever has a desk refuses the store, which stays as it is but for its log."""
    before = contents(stage.at(store))[0]
    for line in (f'take --store {store} deposits', f'as-of --store {store} latest',
                 f'amend --store {store} --manifest listed.csv',
                 f'serve --store {store} --port 65535 --count 1'):
        stage.check(line, S1)
    if contents(stage.at(store))[0] != before:
        raise Failed(f'{store} is changed')


# Statements that make a row one that no store writes, the reports and exports that read it, and
# whether a desk is refused: its list of rows is read as the store is opened, and where a row leads
# to another, that is there.
OF_RECEIPTS = ('receipts', 'status', 'gaps')
FOREIGN = {
    'a verdict': ('UPDATE receipt SET verdict = 9 WHERE receipt = 3', OF_RECEIPTS, False),
    'a number that is no text': ("UPDATE receipt SET number = X'31' WHERE receipt = 1", OF_RECEIPTS,
                                 False),
    'a count of orphans that is a text': ("UPDATE receipt SET orphans = 'none' WHERE receipt = 1",
                                          OF_RECEIPTS, False),
    'a receipt of no listed row': ('UPDATE receipt SET row = 7 WHERE receipt = 2', OF_RECEIPTS,
                                   True),
    'a type': ('UPDATE listed SET type = 9 WHERE row = 1', READ, True),
    'a short digest': ("UPDATE listed SET digest = X'00' WHERE row = 1", READ, True),
    'a step of no held row': ("UPDATE step SET row = 'one' WHERE pos = 1", ('status', 'links'),
                              True),
    'a key that is a text': (
        "UPDATE object SET key = 'b.example' WHERE key = CAST('b.example' AS BLOB)",
        ('links', 'domain'), False),
    'a record that is none': (
        "UPDATE object SET record = X'00' WHERE key = CAST('b.example' AS BLOB)",
        ('links', 'domain'), False),
    'a record of more rows than it has bytes for': (
        "UPDATE object SET record = X'FFFFFFFF' WHERE key = CAST('b.example' AS BLOB)",
        ('links', 'domain'), False),
    'a row of more cells than the record has bytes for': (
        "UPDATE object SET record = X'0000000100000000FFFFFFFF'"
        " WHERE key = CAST('b.example' AS BLOB)", ('links', 'domain'), False),
    'a parked body that is a text': ("UPDATE parked SET body = 'abc'", ('parked',), False),
    'a moment that is a text': ("UPDATE moment SET watermark = 'noon'", ('moment', 'gaps'), False),
    'a before-image of another kind': (
        "UPDATE undo SET kind = 9 WHERE pos = 1 AND key = CAST('a.example' AS BLOB)", (), False),
}


def test_foreign_rows(stage: Stage) -> None:
    """A row that no store writes is `S1` to each report and export that reads it, which prints
    nothing, and to no other."""
    told = put_store(stage)
    Folder('nothing').do(stage)
    for name, (statement, refused, has_no_desk) in FOREIGN.items():
        with case(name):
            copy(stage.at('a.db'), stage.at('b.db'))
            change_row(stage, 'b.db', statement, ())
            check_reports(stage, 'b.db', told, refused)
            if has_no_desk:
                check_refused(stage, 'b.db')
            else:
                stage.check('take --store b.db nothing', NO_RECEIPTS)


COLUMNS = 'rowid, type, name, tbl_name, rootpage, sql'


@contextlib.contextmanager
def schema_of(path: str) -> Iterator[sqlite3.Connection]:
    """A database whose list of tables may be written."""
    with contextlib.closing(sqlite3.connect(path)) as database, database:
        database.execute('PRAGMA writable_schema = ON')
        yield database


def make_index_lie(path: str, table: str, unique: str, before: str, after: str) -> None:
    """Runs a statement, and then another one while the table has no index: the index of what is
    unique has the rows of the first, and the table those of both."""
    with schema_of(path) as database:
        database.execute(before)
        index, = database.execute(f'SELECT {COLUMNS} FROM sqlite_master WHERE name = ?',
                                  (f'sqlite_autoindex_{table}_1',)).fetchall()
        text, = database.execute('SELECT sql FROM sqlite_master WHERE name = ?',
                                 (table,)).fetchone()
        database.execute('DELETE FROM sqlite_master WHERE rowid = ?', index[:1])
        database.execute('UPDATE sqlite_master SET sql = ? WHERE name = ?',
                         (text.replace(unique, ''), table))
    with schema_of(path) as database:
        database.execute(after)
        database.execute('UPDATE sqlite_master SET sql = ? WHERE name = ?', (text, table))
        database.execute(f'INSERT INTO sqlite_master ({COLUMNS}) VALUES (?, ?, ?, ?, ?, ?)',
                         index)


NUMBERS = ('receipt', ', UNIQUE (number, digest)')
KEYS = ('object', ', PRIMARY KEY (kind, key)')
COPIED = """INSERT INTO object (kind, key, record) SELECT kind, CAST('bb.example' AS BLOB), record
FROM object WHERE key = CAST('b.example' AS BLOB)"""
NAMED = "UPDATE object SET key = CAST('{}' AS BLOB) WHERE key = CAST('{}' AS BLOB)"
# The table and what is unique, the statements, and what is told still. What walks over the objects
# reads the index of their keys.
LIES = {
    'a receipt with another number': (
        NUMBERS, "UPDATE receipt SET number = 'other' WHERE receipt = 1",
        "UPDATE receipt SET number = '1' WHERE receipt = 1", READ),
    'an object with another key': (
        KEYS, NAMED.format('bb.example', 'b.example'), NAMED.format('b.example', 'bb.example'),
        OF_RECEIPTS),
    'an object that it lacks': (KEYS, 'SELECT 1', COPIED, ('receipts', 'gaps')),
    'an object that is not there': (
        KEYS, COPIED, "DELETE FROM object WHERE key = CAST('bb.example' AS BLOB)", OF_RECEIPTS),
}


def test_lying_index(stage: Stage) -> None:
    """An index that says something else than its table is `S1` to each command that has a desk, and
    to what walks by it. No other report reads an index."""
    told = put_store(stage)
    for name, ((table, unique), before, after, read_still) in LIES.items():
        with case(name):
            copy(stage.at('a.db'), stage.at('b.db'))
            make_index_lie(stage.at('b.db'), table, unique, before, after)
            if is_whole(stage.at('b.db')):
                raise Failed('the index does not lie')
            check_reports(stage, 'b.db', {what: told[what] for what in read_still})
            for what in ('links', 'domain') if table == 'object' else ():
                stage.check(command_of('b.db', what), S1)
            check_refused(stage, 'b.db')


def test_log_that_was_not_copied(stage: Stage) -> None:
    """A report of what a stopped command left reads the log, too, and leaves both files as they
    are. A desk, which copies it, says the same."""
    put_files(stage)
    Folder('nothing').do(stage)
    # The two files of a store are copied while a desk on a port has taken the first deposit.
    child, port = serve(stage, 'a.db', 2)
    response_to(port, put('1', read(stage.at('deposits/1'))))
    copy(stage.at('a.db'), stage.at('stopped.db'))
    stage.check('report --store a.db status', S1)
    child.kill()
    child.wait()
    before, told = contents(stage.at('stopped.db')), told_of(stage, 'stopped.db')
    if len(before[1]) <= EMPTY_LOG or contents(stage.at('stopped.db')) != before:
        raise Failed('the log is empty, or a file is changed')
    compare('receipts', report('receipts', ['1,1,A1,,F1,0,new,0']), told['receipts'])
    stage.check('take --store stopped.db nothing', NO_RECEIPTS)
    if len(contents(stage.at('stopped.db'))[1]) > EMPTY_LOG:
        raise Failed('the log is not copied')
    check_reports(stage, 'stopped.db', told)


def test_first_version(stage: Stage) -> None:
    """A store of version 1 is `S3` to each report and export."""
    FirstStore('a.db', 'first.csv', (('n1', 'f1.bundle'),)).do(stage)
    for what in READ:
        stage.check(command_of('a.db', what), S3)


# The words of each command that is for a store, around the file; which is not there, nor is what a
# link leads to, nor its folder.
COMMANDS = ('take --store {} deposits', 'serve --store {} --port 65535 --count 1',
            'report --store {} status', 'export --store {} domain',
            'amend --store {} --manifest listed.csv', 'as-of --store {} latest',
            'as-of --store {} 2024-03-04T00:00:00Z', 'migrate --store {}')


def test_no_store_is_made(stage: Stage) -> None:
    """No command but `init` makes a file where there is no store."""
    Folder('deposits').do(stage)
    Copy('deposits/n1', 'f1.bundle').do(stage)
    Copy('listed.csv', 'first.csv').do(stage)
    Link('link.db', 'absent.db').do(stage)
    before = names_in(stage.room.name)
    for line in (command.format(file) for command in COMMANDS
                 for file in ('absent.db', 'link.db', 'nowhere/absent.db')):
        stage.check(line, S3)
        compare_all(f'$ restore {line}\nfiles', before, names_in(stage.room.name))

"""python3 -m trials.postgres [--restore FILE] [--handover FILE]: a PostgreSQL loads what `handover
tables --postgres` writes of the samples and of ten releases with flaws, by the `load.sql` of each.

It starts a server of its own (Debian's package `postgresql`), which nothing else reaches. Of each
release it counts the rows of each table, joins each table of child rows with its parent rows, and
compares each cell with that of the SQLite database that `--sqlite` makes: an empty text is NULL,
and a moment or an integer has the value that its text has. Each column that is no text has a value
in each row, and each that names objects has a foreign key just where they are all there. What is
loaded twice is refused, and leaves the tables as they were.

The last line is `N passed, M failed`."""
import contextlib
import csv
import datetime
import glob
import io
import os
import shutil
import sqlite3
import subprocess
import sys
import tempfile

from tests.cases.loading import LINKS
from tests.support import arguments_of
from tests.support import built
from tests.support.flawed import some_release
from tests.support.releases import SAMPLES
from tests.support.stage import Stage
from tests.support.stores import run

counts = {'passed': 0, 'failed': 0}


def check(what: str, found: object, wanted: object) -> None:
    counts['passed' if found == wanted else 'failed'] += 1
    if found != wanted:
        print(f'WRONG {what}: {str(found)[:300]}, and not {str(wanted)[:300]}', flush=True)


class Server:
    """A PostgreSQL that listens on a socket in a folder of its own."""

    def __init__(self, folder: str) -> None:
        self.folder, self.programs = folder, sorted(glob.glob('/usr/lib/postgresql/*/bin'))[-1]
        if not os.geteuid():
            shutil.chown(folder, 'postgres')
        self.own('initdb', '-D', f'{folder}/data', '-A', 'trust', '-E', 'UTF8', '--locale', 'C')
        self.own('pg_ctl', '-D', f'{folder}/data', '-w', '-l', f'{folder}/log', '-o',
                 f'-k {folder} -c listen_addresses= -c fsync=off', 'start')

    def own(self, program: str, *words: str) -> None:
        """Runs a program of the server, as the user `postgres` where this is root."""
        as_user = [] if os.geteuid() else ['setpriv', '--reuid=postgres', '--regid=postgres',
                                           '--clear-groups']
        subprocess.run([*as_user, f'{self.programs}/{program}', *words], check=True, cwd='/',
                       stdout=subprocess.DEVNULL)

    def psql(self, database: str, *words: str, cwd: str = '/') -> subprocess.CompletedProcess:
        user = ['-U', 'postgres'] if not os.geteuid() else []
        return subprocess.run(['psql', '-X', '-h', self.folder, *user, *words, database], cwd=cwd,
                              capture_output=True, text=True, check=False)

    def rows(self, database: str, query: str) -> list[list[str | None]]:
        """The rows of a query: NULL as None."""
        copied = self.psql(database, '-q', '-c', 'SET timezone = UTC', '-c',
                           f"COPY ({query}) TO STDOUT (FORMAT csv, NULL '\\N', FORCE_QUOTE *)")
        if copied.returncode:
            raise ValueError(copied.stderr)
        # NULL alone is unquoted, and no text here is `\N`.
        return [[None if it == '\\N' else it for it in row]
                for row in csv.reader(io.StringIO(copied.stdout, newline=''))]

    def stop(self) -> None:
        self.own('pg_ctl', '-D', f'{self.folder}/data', '-m', 'immediate', 'stop')


def quoted(name: str) -> str:
    return '"' + name.replace('"', '""') + '"'


def moment_of(text: str | None) -> float | None:
    """The moment of a deposit's text, or of PostgreSQL's in UTC."""
    if not text:
        return None
    whole = text.replace(' ', 'T').replace('Z', '+00:00')
    whole = f'{whole}:00' if whole[-3] in '+-' else whole
    return datetime.datetime.fromisoformat(whole).timestamp()


def cell_of(text: str | None, kind: str) -> object:
    """The value of a cell in a column of this type."""
    if kind == 'timestamp with time zone':
        return moment_of(text)
    if kind == 'bigint':
        return int(text) if text else None
    return text or None


def check_table(server: Server, name: str, table: str, database: sqlite3.Connection) -> None:
    """Compares a table with that of the SQLite database."""
    types = dict(server.rows(name, "SELECT column_name, data_type FROM information_schema.columns "
                             f"WHERE table_name = '{table}' ORDER BY ordinal_position"))
    columns = [it[1] for it in database.execute(f'PRAGMA table_info({quoted(table)})')]
    check(f'columns of {table}', list(types), columns)
    found = server.rows(name, f'SELECT * FROM {quoted(table)}')
    wanted = database.execute(f'SELECT * FROM {quoted(table)}').fetchall()

    def cells(rows: list) -> list[tuple]:
        return sorted((tuple(map(cell_of, row, types.values())) for row in rows), key=str)
    check(f'cells of {table}', cells(found), cells(wanted))
    for column, kind in types.items():
        if kind != 'text':
            check(f'{kind} {table}.{column}', all(it[columns.index(column)] for it in wanted), True)


def check_links(server: Server, name: str, database: sqlite3.Connection, tables: list[str]) -> None:
    """Compares where there are foreign keys with where the keys are all there."""
    found = {tuple(it) for it in server.rows(name, (
        "SELECT c.conrelid::regclass::text, a.attname, c.confrelid::regclass::text "
        "FROM pg_constraint c JOIN pg_attribute a ON a.attrelid = c.conrelid "
        "AND a.attnum = c.conkey[1] WHERE c.contype = 'f' AND a.attname <> 'key'"))}
    wanted = set()
    for (table, column), target in LINKS.items():
        if table in tables and column in [it[1] for it in database.execute(
                f'PRAGMA table_info({quoted(table)})')]:
            lost = database.execute(
                f"SELECT count(*) FROM {quoted(table)} WHERE coalesce({quoted(column)}, '') <> '' "
                f'AND {quoted(column)} NOT IN (SELECT key FROM {quoted(target)})').fetchone()[0]
            if not lost:
                wanted.add((table if table.islower() else quoted(table), column, target))
    check('foreign keys', found, wanted)


def check_release(server: Server, name: str, release: object, stage: Stage) -> None:
    release.rebuild(stage)
    if not release.desk().steps:
        return
    run(stage, 'tables --store a.db --sqlite --postgres out', 'handover')
    server.psql('postgres', '-q', '-c', f'CREATE DATABASE {name}')
    loaded = server.psql(name, '-f', 'load.sql', cwd=stage.at('out'))
    check(f'{name} is loaded', (loaded.returncode, loaded.stdout, loaded.stderr), (0, '', ''))
    with contextlib.closing(sqlite3.connect(stage.at('out/registry.sqlite'))) as database:
        tables = [it for it, in database.execute(
            "SELECT name FROM sqlite_master WHERE type = 'table'")]
        for table in tables:
            check_table(server, name, table, database)
            count = database.execute(f'SELECT count(*) FROM {quoted(table)}').fetchone()[0]
            check(f'rows of {table}', server.rows(name, f'SELECT count(*) FROM {quoted(table)}'),
                  [[str(count)]])
        for table in ('domainNs', 'domainContacts', 'domainStatuses'):
            if table in tables:
                joined = f'SELECT count(*) FROM domain d JOIN {quoted(table)} n ON n.key = d.key'
                check(f'join of {table}', server.rows(name, joined),
                      [[str(database.execute(joined).fetchone()[0])]])
        check_links(server, name, database, tables)
    again = server.psql(name, '-f', 'load.sql', cwd=stage.at('out'))
    check(f'{name} is loaded once', again.returncode, 3)


def main() -> None:
    arguments = arguments_of(__doc__)
    for it in ('restore', 'handover'):
        arguments.add_argument(f'--{it}', default=built(it), metavar='FILE')
    given = arguments.parse_args()
    programs = {it: os.path.abspath(getattr(given, it)) for it in ('restore', 'handover')}
    releases = [*SAMPLES.values(), *map(some_release, range(10))]
    with tempfile.TemporaryDirectory() as folder:
        server = Server(folder)
        try:
            for at, release in enumerate(releases):
                with Stage(programs) as stage:
                    check_release(server, f'release_{at}', release, stage)
        finally:
            server.stop()
    print(f'{counts["passed"]} passed, {counts["failed"]} failed')
    sys.exit(1 if counts['failed'] else 0)


if __name__ == '__main__':
    main()

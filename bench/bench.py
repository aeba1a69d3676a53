"""python3 -m bench.bench [PROGRAM ..] [--times N] [--only PART] [--keep FOLDER]: how long the
program takes, and how much memory.

Makes a large release (seeded: every run has the same bytes) and lets the program do each task:
takes of Fulls, of Differentials, of a late revision, of an Incremental and of repeats; each report
and two exports, and the same by a desk, which opens the store by SQL; a late revision under six
Differentials of 15 MB; a desk on a socket of this machine, and one with 50,000 receipts; a chain of
4,095 tiny Differentials, in order; bodies that no row lists yet, parked and then adopted; and
reports of a store with 256 MB of parked bodies. It prints for each task the time by the clock, the
processor time and the peak memory, with a column of these for each PROGRAM (the one that was built
in this checkout, if none is named), which do each task in turn; and of two the ratio of the second
to the first. With --times the least of N runs stands there. Beside a Full stands what the C library
takes to write the same rows, one a statement (`raw.py`).

Times of a busy machine say little; the ratios within one run say more."""
import argparse
import contextlib
import os
import random
import shutil
import sqlite3
import subprocess
import sys
import tempfile
import time
from collections.abc import Iterator

from bench.running import Program
from bench.running import Use
from bench.running import ask
from tests.support import TOP
from tests.support import arguments_of
from tests.support import built
from tests.support import program
from tests.support.files import read
from tests.support.stores import copy

SIZES = (12_500, 25_000, 50_000, 100_000)
# The tasks of a part, each with what it used.
Uses = Iterator[tuple[str, Use]]


def raw(store: str) -> Use:
    """What the SQL statements of a store's content take alone. They run in a process of its own:
    the peak memory of a run begins with the size of the process that starts it."""
    words = [sys.executable, '-m', 'bench.raw', store]
    ran = subprocess.run(words, check=True, capture_output=True, text=True, cwd=TOP)
    return Use(float(ran.stdout))


def fulls(release: str, restore: Program) -> Uses:
    for rows in SIZES:
        store = restore.fresh(f'growth-{rows}', f'{release}/growth/{rows}.csv')
        yield f'Full of {rows} objects', restore.take(store, f'{release}/growth/{rows}')
        yield '  the rows alone, by the C library', raw(store)


def days(release: str, restore: Program) -> Uses:
    """A Full of most bytes, and what comes after it."""
    store = restore.fresh('store', f'{release}/manifest.csv')
    yield 'Full of 97000 rows, 16 MiB', restore.take(store, f'{release}/full')
    yield '  the rows alone, by the C library', raw(store)
    reverse, opened = (copy(store, restore.at(it)) for it in ('reverse', 'opened'))
    clock, use = restore.arrivals(opened, f'{release}/diffs')
    yield ('30 Differentials of 300 objects, desk open',
           Use(0, clock[-1] - clock[0], use.memory))
    for task, store_of, folder in (
            ('30 Differentials of 300 objects', store, 'diffs'),
            ('30 Differentials, the last one first', reverse, 'late'),
            ('a late revision of the first one', store, 'revision'),
            ('an Incremental of 3000 objects', store, 'incr'),
            ('1000 arrivals of one small deposit', store, 'again'),
            ('1000 arrivals again', store, 'again')):
        yield task, restore.take(store_of, f'{release}/{folder}')
    yield from readings(store, restore)


def readings(store: str, restore: Program) -> Uses:
    """Reports and exports of a store, by its trees and by a desk."""
    for command, names in (('report', ('status', 'gaps', 'links', 'receipts')),
                           ('export', ('domain', 'contact'))):
        for name in names:
            yield f'{command} of {name}', restore.run(command, '--store', store, name)
    nothing = restore.run('as-of', '--store', store, 'latest')
    yield 'as-of latest, which changes nothing', nothing
    for path in ('/links', '/export/domain', '/export/contact'):
        yield f'a desk that serves {path} once', restore.served(store, path)
    first, later = restore.asked_again(store, '/status')
    yield 'GET /status of that store', first
    yield '  each later one', later


def moves(release: str, restore: Program) -> Uses:
    """A late revision of the first of so many Differentials of 15 MB: all are taken back, and
    applied again."""
    heavy = f'{release}/heavy'
    store = restore.fresh('heavy', f'{heavy}/manifest.csv')
    restore.take(store, f'{heavy}/full')
    for at in range(1, 7):
        restore.take(store, f'{heavy}/diffs/{at}')
        if at in (1, 2, 4, 6):
            moved = copy(store, restore.at('moved'))
            yield (f'a late revision under {at} Differentials of 15 MB',
                   restore.take(moved, f'{heavy}/revision'))


def receipts(release: str, restore: Program) -> Uses:
    """What receipts add to a report and to an arrival."""
    small = f'{release}/small'
    for count in (0, 10_000, 50_000):
        store = restore.fresh('many', f'{small}/manifest.csv')
        restore.take(store, f'{small}/full')
        with contextlib.closing(sqlite3.connect(store)) as database, database:
            # The receipt of the Full, under other numbers.
            database.executemany(
                'insert into receipt select ?, ?, digest, verdict, fault, row, 1, orphans '
                'from receipt where receipt = 1',
                ((2 + at, f'again{at}') for at in range(count)))
        yield (f'GET /status with {count} receipts, from the second on',
               restore.asked_again(store, '/status')[1])
        yield ('  PUT of a small Differential, 500 listed rows',
               restore.put_each(store, f'{small}/puts'))
        yield ('  GET /gaps with 501 places, from the second on',
               restore.asked_again(store, '/gaps')[1])


def socket(release: str, restore: Program) -> Uses:
    """A desk on a socket: PUTs in order, then as many GETs of each of some reports."""
    store, puts = restore.fresh('small', f'{release}/small/manifest.csv'), f'{release}/small/puts'
    restore.take(store, f'{release}/small/full')
    bodies = [(f'/arrivals/{name}', read(f'{puts}/{name}')) for name in sorted(os.listdir(puts))]
    asked = [('PUTs of small Differentials', 'PUT', bodies)]
    asked += [(f'GETs of {path}', 'GET', [(path, None)] * len(bodies))
              for path in ('/status', '/gaps', '/export/domain')]
    _, port, ended = restore.serve(store, len(bodies) * len(asked))
    for task, method, requests in asked:
        begun = time.perf_counter()
        for path, body in requests:
            ask(port, method, path, body)
        yield f'{len(requests)} {task}', Use((time.perf_counter() - begun) * 1000)
    yield '  the desk that served them', ended()


def chain(release: str, restore: Program) -> Uses:
    """Tiny Differentials in their order, an arrival where so many rows are held, and a store of as
    many rows."""
    store, manifest = copy(None, restore.at('chain')), f'{release}/chain/manifest.csv'
    yield ('init, 4096 listed rows',
           restore.run('init', '--store', store, '--manifest', manifest))
    yield ('report of status, 4096 listed rows',
           restore.run('report', '--store', store, 'status'))
    restore.take(store, f'{release}/chain/full')
    clock, use = restore.arrivals(store, f'{release}/chain/diffs')
    yield '4095 tiny Differentials in a chain', use
    # (The first row is held before.)
    for held, count in ((10, 10), (100, 50), (1000, 50), (4000, 50)):
        each = (clock[held - 1 + count] - clock[held - 1]) / count
        yield f'  one of them where {held} rows are held', Use(0, each, use.memory)


def some_bodies(release: str, of: str, most: int, folder: str) -> None:
    """Copies the first Differentials of a release, at most so many, into a new folder."""
    shutil.rmtree(folder, ignore_errors=True)
    os.makedirs(folder)
    for name in sorted(os.listdir(f'{release}/{of}/diffs'))[:most]:
        shutil.copy(f'{release}/{of}/diffs/{name}', folder)


def adopted(release: str, restore: Program) -> Uses:
    """Parks bodies in a store that lists the Full alone, and amends it with the whole manifest.
    Beside it a store that lists them all takes the same bodies."""
    for task, of, most in (('tiny Differentials', 'chain', 1024),
                           ('Differentials of 300 objects', '.', 30)):
        manifest, first = f'{release}/{of}/manifest.csv', restore.at('first.csv')
        bodies = restore.at('bodies')
        some_bodies(release, of, most, bodies)
        with open(manifest) as whole, open(first, 'w') as part:
            part.writelines(whole.readline() for _ in range(2))
        spare, listed = restore.fresh('adopted', first), restore.fresh('listed', manifest)
        for store in (spare, listed):
            restore.take(store, f'{release}/{of}/full')
        yield f'{most} {task}, taken where listed', restore.take(listed, bodies)
        yield '  parked', restore.take(spare, bodies, want=1)
        yield '  adopted', restore.run('amend', '--store', spare, '--manifest', manifest)
        gaps = [restore.printed('report', '--store', it, 'gaps') for it in (spare, listed)]
        if gaps[0] != gaps[1]:
            sys.exit('bench: the gaps after the amendment are others than where all was listed')


def parked(release: str, restore: Program) -> Uses:
    """Reports of a store with 256 parked bodies of 1 MB, by its trees; and a command that opens it
    by SQL."""
    store = restore.fresh('parked', f'{release}/small/manifest.csv')
    bodies, letters = restore.at('bodies'), random.Random(1)
    shutil.rmtree(bodies, ignore_errors=True)
    os.makedirs(bodies)
    for at in range(256):
        with open(f'{bodies}/{at}', 'wb') as body:
            body.write(letters.randbytes(1 << 20))
    yield '256 bodies of 1 MB, parked', restore.take(store, bodies, want=1)
    for name in ('parked', 'status'):
        yield f'  report of {name}', restore.run('report', '--store', store, name)
    nothing = restore.run('as-of', '--store', store, 'latest')
    yield '  as-of latest, which changes nothing', nothing


PARTS = {it.__name__: it for it in (fulls, days, moves, socket, receipts, chain, adopted, parked)}


def tell(task: str, uses: list[Use]) -> None:
    cells = ' '.join(f'{it.took:9.1f} {it.processor:9.1f} ms {it.memory:5.0f} MB' for it in uses)
    kind, ratio = 'processor' if uses[0].processor else 'took', ''
    if len(uses) == 2:
        ratio = f' {getattr(uses[1], kind) / getattr(uses[0], kind):6.3f}'
    print(f'{task:44} {cells}{ratio}', flush=True)


def measure(release: str, programs: list[Program], given: argparse.Namespace) -> None:
    """Prints the least use of each program for each task."""
    for part in (PARTS[it] for it in ([given.only] if given.only else PARTS)):
        rounds = [zip(*(part(release, it) for it in programs)) for _ in range(given.times)]
        # (The rounds go through the tasks one after the other.)
        for seen in zip(*map(list, rounds)):
            tell(seen[0][0][0], [Use.least([of_round[at][1] for of_round in seen])
                                 for at in range(len(programs))])


def main() -> None:
    arguments = arguments_of(__doc__)
    arguments.add_argument('programs', nargs='*', type=program, metavar='PROGRAM')
    arguments.add_argument('--times', type=int, default=1, metavar='N')
    arguments.add_argument('--only', choices=PARTS, metavar='PART', help=', '.join(PARTS))
    arguments.add_argument('--keep', metavar='FOLDER', help='a folder to work in, which is kept')
    given = arguments.parse_args()
    work = os.path.abspath(given.keep or tempfile.mkdtemp(prefix='restore-bench-'))
    subprocess.run([sys.executable, '-m', 'bench.release', f'{work}/release'], check=True, cwd=TOP)
    paths = given.programs or [program(built('restore'))]
    programs = [Program(path, f'{work}/{at}') for at, path in enumerate(paths)]
    measure(f'{work}/release', programs, given)
    if not given.keep:
        shutil.rmtree(work)


if __name__ == '__main__':
    main()

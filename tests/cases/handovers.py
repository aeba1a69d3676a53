"""`handover bundle`: registries that are rebuilt from their tables as one deposit; and the refusals
of all commands of `handover`, after which nothing is left behind."""
import contextlib
import functools
import os
import shutil
import sqlite3
from collections.abc import Callable
from collections.abc import Sequence

from tests.support import formats
from tests.support.bundles import Header
from tests.support.bundles import Table
from tests.support.bundles import deposit
from tests.support.bundles import manifest
from tests.support.files import read
from tests.support.flawed import some_release
from tests.support.formats import KINDS
from tests.support.formats import envelope_in
from tests.support.formats import record
from tests.support.limits import MOST_BYTES
from tests.support.outputs import no_longer_files
from tests.support.outputs import run_held_up
from tests.support.releases import SAMPLES
from tests.support.releases import Release
from tests.support.releases import numbered
from tests.support.releases import sample
from tests.support.reports import report
from tests.support.stage import Failed
from tests.support.stage import Given
from tests.support.stage import Stage
from tests.support.stage import Wanted
from tests.support.stage import case
from tests.support.stage import compare
from tests.support.stage import compare_all
from tests.support.steps import Copy
from tests.support.steps import FirstStore
from tests.support.steps import Folder
from tests.support.steps import Link
from tests.support.steps import Statements
from tests.support.steps import Step
from tests.support.steps import Text
from tests.support.stores import change_row
from tests.support.stores import opened
from tests.support.stores import run

CHECK, BUNDLE = 'check --store a.db', 'bundle --store a.db --id G1 out'
TABLES, PAGE = 'tables --store a.db out', 'page --store a.db out'
# More bytes than a log has, and fewer than what is made of a registry.
SHORT = 100


def names_in(folder: str) -> list[str]:
    """The paths of all that is in a folder."""
    return sorted(
        os.path.relpath(f'{at}/{name}', folder) for at, *names in os.walk(folder)
        for name in sum(names, []))


def clear(stage: Stage) -> None:
    for name in os.listdir(stage.room.name):
        path = stage.at(name)
        shutil.rmtree(path) if os.path.isdir(path) and not os.path.islink(path) else os.remove(path)


# ---- there and back


def rebuild_in_parts(stage: Stage) -> None:
    """The release, once its second part is listed."""
    SAMPLES['a first part'].rebuild(stage)
    stage.write('second.csv', sample('parts/second.csv'))
    run(stage, 'amend --store a.db --manifest second.csv')


# How stores are rebuilt that are handed over.
REBUILT = {name: it.rebuild
           for name, it in SAMPLES.items()} | {'the release in parts': rebuild_in_parts} | {
               f'the release of seed {seed}':
               lambda stage, seed=seed: some_release(seed).rebuild(stage)
               for seed in range(4)
           }


def check_there_and_back(stage: Stage, rebuild: Callable[..., None], *given: object) -> None:
    """A registry that is rebuilt so is bundled, and rebuilt from that bundle alone: each export is
    the same, and so is the bundle of that."""
    rebuild(stage, *given)
    Folder('next').do(stage)
    run(stage, 'bundle --store a.db --id G1 next/n1', 'handover')
    compare('files', 'n1', ' '.join(os.listdir(stage.at('next'))))
    body = read(stage.at('next/n1'))
    # The plain reader finds in it a Full of the chain's end that has the store's objects and says
    # how many there are, and no other rows.
    end = dict(
        it.split(' ', 1)
        for it in run(stage, 'report --store a.db status').decode().splitlines())['end'].split()[0]
    with opened(stage.at('a.db')) as database:
        objects = {(KINDS[kind], key): it
                   for kind, key, it in database.execute('SELECT kind, key, record FROM object')}
    found = formats.deposit(body)
    compare('header', f'G1 {end} FULL None 0',
            f'{found.name} {formats.place_text(found.place)} {found.prev} {found.resend}')
    compare('counts', f'{ {kind: sum(it[0] == kind for it in objects) for kind in KINDS} }',
            f'{found.counts}')
    if found.orphans or found.deletes or found.says != objects:
        raise Failed('the bundle has other objects')
    stage.write('next.csv', run(stage, 'manifest next/n1', 'pack'))
    stage.check('init --store b.db --manifest next.csv', Wanted(0, 'listed 1\n'))
    stage.check('take --store b.db next', Wanted(0, report('receipts', ['1,n1,A1,,G1,0,new,0'])))
    for kind in KINDS:
        compare(
            f'export of {kind}',
            *(run(stage, f'export --store {store} {kind}').decode() for store in ('a.db', 'b.db')))
    run(stage, 'bundle --store b.db --id G1 again', 'handover')
    if read(stage.at('again')) != body:
        raise Failed('the bundle of the registry that was rebuilt is another one')


CASES: dict[str, Callable[[Stage], None]] = {
    f'There and back: {name}': functools.partial(check_there_and_back, rebuild=it)
    for name, it in REBUILT.items()
}


# ---- tables that are or aren't one deposit

# A Full, a Differential on it, and a later revision of that.
HEADERS = (Header('F1', 'FULL',
                  '2024-03-03T00:00:00Z'), Header('D2', 'DIFF', '2024-03-04T00:00:00Z', 'F1'))
D2_LATER = HEADERS[1]._replace(resend=1)


def contacts(rows: bytes, fields: tuple[str, ...] = ('id', 'roid'), key: str | None = None,
             name: str = 'contact', role: str = 'parent') -> Table:
    """A table of contacts, or of their child rows."""
    return Table(name, 'contact', role, fields, rows, key)


def children(rows: bytes, name: str = 'more', fields: tuple[str, ...] = ('id', 'text'),
             key: str | None = None) -> Table:
    return contacts(rows, fields, key, name, 'child')


def hosts(rows: bytes) -> Table:
    return Table('host', 'host', 'parent', ('name',), rows)


def release_of(*contents: Sequence[Table]) -> Release:
    """A Full, and a Differential if there are two, with these tables."""
    bodies = list(map(deposit, HEADERS, contents))
    return Release(manifest(zip(HEADERS, bodies)), numbered(bodies))


def store_of(stage: Stage, *contents: Sequence[Table]) -> None:
    release_of(*contents).rebuild(stage)
    compare('held', f'held {len(contents)}',
            run(stage, 'report --store a.db status').decode().splitlines()[1])


def check_refused(stage: Stage, refusal: str, line: str = BUNDLE, status: int = 1,
                  kept: Sequence[str] = ('a.db',), **given: Given) -> None:
    """Compares a refusal, after which the folder has what it had, and these files are as they
    were."""
    names, before = names_in(stage.room.name), [read(stage.at(it)) for it in kept]
    stage.check(line, Wanted(status, '', f'{refusal}\n'), program='handover', **given)
    compare_all(f'$ handover {line}\nfiles', names, names_in(stage.room.name))
    if [read(stage.at(it)) for it in kept] != before:
        raise Failed(f'$ handover {line}\na file is changed')


FIRST = contacts(b'C1,X1\n')
CHILD = children(b'C1,x\n')
HOST = hosts(b'ns1.example\n')
MARK = b'\xef\xbb\xbf'
# The tables of a Full and of a Differential, and why they are no one deposit.
REFUSED = (
    ('H4 contact', (FIRST,), (contacts(b'C2\n', ('id',)),)),
    # The same fields in another order.
    ('H4 contact', (FIRST,), (contacts(b'X2,C2\n', ('roid', 'id'), 'id'),)),
    # One name for tables of two kinds, and for a parent and a child table.
    ('H4 more', (FIRST, CHILD), (HOST,
                                 Table('more', 'host', 'child', ('id', 'text'),
                                       b'ns1.example,x\n'))),
    ('H4 contact', (FIRST,), (contacts(b'C2,X2\n',
                                        name='people'), contacts(b'C2,X2\n', role='child'))),
    # The key is in one field here, and in another one there.
    ('H5 contact', (FIRST,), (contacts(b'X2,C2\n', key='roid'),)),
    ('H5 more', (FIRST, CHILD), (contacts(b'C2,X2\n'), children(b'x,C2\n', key='text'))),
    # A reader drops the first mark alone.
    ('H6 contact', (contacts(MARK + MARK + b'X1,C1\n', ('roid', 'id'), 'id'),), (HOST,)),
    # The rows are in the order of their keys.
    ('H6 contact', (contacts(b'X2,C2\n' + MARK + b'X1,C1\n', ('roid', 'id'), 'id'),), (HOST,)),
)
# The same of which one deposit is made.
TAKEN = (
    # The key is in both fields of each row.
    ((contacts(b'C1,C1\n'),), (contacts(b'C2,C2\n', key='roid'),)),
    # It is in the second field of all rows, and in the first one of some.
    ((contacts(b'C1,C1\n', key='roid'),), (contacts(b'X2,C2\n', key='roid'),)),
    # A name in other letters is the key.
    ((hosts(b'NS1.example\nns2.EXAMPLE\n'),), ()),
    # A mark that doesn't come first.
    ((contacts(b'X1,C1\n' + MARK + b'X2,C2\n', ('roid', 'id'), 'id'),), ()),
    # The row with other fields is replaced.
    ((contacts(b'C1\n', ('id',)),), (contacts(b'C1,X1\n'),)),
    # An empty registry.
    ((), ()),
)


def played_apart(play: Callable[..., None], given: Sequence[object]) -> Callable[[Stage], None]:
    """A case that plays each of these in a folder of its own."""
    def play_all(stage: Stage) -> None:
        for at, it in enumerate(given):
            with case(f'row {at}, {it!r:.200}'):
                play(stage, *it)
            clear(stage)
    return play_all


def check_contents_refused(stage: Stage, refusal: str, *contents: Sequence[Table],
                           lines: Sequence[str] = (BUNDLE,)) -> None:
    store_of(stage, *contents)
    for line in lines:
        check_refused(stage, refusal, line)


CASES['Tables that are no one deposit'] = played_apart(check_contents_refused, REFUSED)
CASES['Tables that are one deposit'] = played_apart(check_there_and_back,
                                                    [(store_of, *it) for it in TAKEN])


def test_keys(stage: Stage) -> None:
    """The key of a bundle's table is the first field that has the key in each row."""
    for rows, key in ((b'C1,C1\n', 'id'), (b'C1,C1\nX2,C2\n', 'roid')):
        store_of(stage, (contacts(rows, key='roid'),))
        run(stage, BUNDLE, 'handover')
        compare('key', key, envelope_in(read(stage.at('out')))['contents'][0]['key'])
        clear(stage)


def check_limit(stage: Stage, refusal: str, first: Sequence[Table], second: Sequence[Table],
                later: Sequence[Table]) -> bytes:
    """Compares that a Full and a Differential make a deposit, and that with a later revision, which
    has more, they don't."""
    store_of(stage, first, second)
    run(stage, BUNDLE, 'handover')
    os.rename(stage.at('out'), stage.at('done'))
    body = deposit(D2_LATER, later)
    stage.write('later.csv', manifest([(D2_LATER, body)]))
    stage.write('later/n3', body)
    run(stage, 'amend --store a.db --manifest later.csv')
    stage.check('take --store a.db later', Wanted(0, report('receipts', ['3,n3,A1,,D2,1,new,0'])))
    check_refused(stage, refusal)
    return read(stage.at('done'))


def test_most_tables(stage: Stage) -> None:
    """A bundle has 63 tables at most."""
    def some(key: str, front: str, count: int) -> list[Table]:
        return [
            contacts(f'{key},X\n'.encode()),
            *(children(f'{key},x\n'.encode(), f'{front}{at}') for at in range(count))
        ]

    body = check_limit(stage, 'U4 out', some('C1', 'a', 40), some('C2', 'b', 22),
                       some('C2', 'b', 23))
    compare('tables', '63', f'{len(envelope_in(body)["contents"])}')


def test_most_rows(stage: Stage) -> None:
    """A bundle has 100,000 rows at most."""
    def some(key: str, count: int) -> list[Table]:
        return [
            contacts(f'{key},X\n'.encode()),
            children(f'{key}\n'.encode() * count, fields=('id',))
        ]

    body = check_limit(stage, 'U11 out', some('C1', 50_000), some('C2', 49_998), some('C2', 49_999))
    compare('rows', '100000', f'{sum(text.count(10) for _, text in formats.sections(body)[1:])}')


def test_most_bytes(stage: Stage) -> None:
    """A bundle has 16,777,216 bytes at most."""
    def some(key: str, count: int) -> list[Table]:
        return [contacts(f'{key},{count * "x"}\n'.encode(), ('id', 'text'))]

    # The length of a bundle with texts of 10,000,000 bytes gives that of the second text with which
    # it is as long as it may be: the numbers in it have as many digits.
    first, second = 9_000_000, 1_000_000
    store_of(stage, some('C1', first), some('C2', second))
    run(stage, BUNDLE, 'handover')
    last = second + MOST_BYTES - os.path.getsize(stage.at('out'))
    clear(stage)
    body = check_limit(stage, 'U4 out', some('C1', first), some('C2', last), some('C2', last + 1))
    compare('bytes', f'{MOST_BYTES}', f'{len(body)}')


def test_other_objects(stage: Stage) -> None:
    """A bundle that reads as other objects than those of the store, which no deposit makes, is
    none."""
    store_of(stage, (FIRST, CHILD))
    rows = [('contact', [('id', 'C1')]), *((it, [('id', 'C1')]) for it in ('b', 'a'))]
    change_row(stage, 'a.db', 'UPDATE object SET record = ? WHERE key = ?', (record(rows), b'C1'))
    check_refused(stage, 'H8 out')


# ---- stores that are none, files that can't be written, and words

# What stands in a store's place, the refusal, and whether it is opened as a database.
OTHERS = (
    (Copy('a.db', 'no-database.txt'), 'S1', True),
    (Text('a.db', ''), 'S3', True),
    (Statements('a.db', 'CREATE TABLE note (id INTEGER PRIMARY KEY)'), 'S3', True),
    # A store of version 1.
    (FirstStore('a.db', 'first.csv', (('n1', 'f1.bundle'),)), 'S3', True),
    # A folder, a link to nothing, and nothing.
    (Folder('a.db'), 'E1 a.db', False),
    (Link('a.db', 'absent.db'), 'S3', False),
    (Folder('more'), 'S3', False),
)


def check_no_store(stage: Stage, line: str, made: Step, refusal: str, is_opened: bool) -> None:
    """Compares a refusal of what is no store, which stays as it is. An empty file is a database
    without tables then."""
    made.do(stage)
    names, before = names_in(stage.room.name), read(stage.at('a.db')) if is_opened else b''
    stage.check(line, Wanted(3, '', f'{refusal}\n'), program='handover')
    compare_all('files', names, names_in(stage.room.name))
    if before and read(stage.at('a.db')) != before:
        raise Failed('a file is changed')
    if is_opened and not before:
        with contextlib.closing(sqlite3.connect(stage.at('a.db'))) as database:
            compare('tables', '[]',
                    f'{database.execute("SELECT name FROM sqlite_master").fetchall()}')


CASES['What is no store is refused, and nothing is made'] = played_apart(
    check_no_store, [(line, *it) for it in OTHERS for line in (CHECK, BUNDLE, TABLES, PAGE)])


def test_a_store_that_is_in_use(stage: Stage) -> None:
    """Another command has the store."""
    def meanwhile() -> None:
        for line in (CHECK, BUNDLE, TABLES, PAGE):
            check_refused(stage, 'S1', line, 3)

    store_of(stage, (FIRST,))
    take, receipts = 'take --store a.db a.db-deposits', report('receipts',
                                                               ['1,0000,A1,,F1,0,new,0'])
    stage.compare(take, Wanted(0, receipts),
                  run_held_up(stage, take, len(report('receipts')), meanwhile))
    run(stage, BUNDLE, 'handover')


def test_a_body_that_is_no_bundle(stage: Stage) -> None:
    """The body of the chain's last deposit is no bundle any more."""
    store_of(stage, (FIRST,))
    change_row(stage, 'a.db', 'UPDATE held SET body = ?', (b'escrow-bundle 1\n',))
    for line in (CHECK, BUNDLE, PAGE):
        check_refused(stage, 'S1', line, 3)


def test_where_nothing_is_written(stage: Stage) -> None:
    """A bundle or a page that can't be written, or whose place is taken."""
    store_of(stage, (FIRST,))
    for made in (Folder('folder'), Text('file', 'text'), Link('link', 'nowhere'),
                 Link('store', 'a.db'), Text('beside.part', 'text')):
        made.do(stage)
    for line in (BUNDLE, PAGE):
        for target in ('folder', 'file', 'link', 'store', 'beside', 'a.db', 'absent/out',
                       'file/out', ''):
            with case(f'at {target!r}'):
                check_refused(stage, f'E1 {target or "(an empty path)"}', line, 3,
                              ['a.db', 'file', 'beside.part'], words=[*line.split()[:-1], target])
        with case('a file that is too long'):
            check_refused(stage, 'E1 out', line, 3, prepare=no_longer_files(SHORT))
    with open('/dev/full', 'wb') as full:
        stage.check(CHECK, Wanted(3, '', 'E1 -\n'), program='handover', out=full)


def test_progress(stage: Stage) -> None:
    """How far the work is stands on standard error, if it is asked for: of a short one that it
    begins, of files that they are written."""
    store_of(stage, (FIRST, CHILD))
    lines = run(stage, CHECK, 'handover', (1,)).decode()
    stage.check(f'{CHECK} --progress', Wanted(1, lines, 'opening a.db\n'), program='handover')
    stage.check(f'--progress {BUNDLE}', Wanted(2, '', None), program='handover')
    for line in (BUNDLE, 'page --store a.db page'):
        stage.check(f'{line} --progress', Wanted(0, '', 'opening a.db\n'), program='handover')
    check_refused(stage, 'opening a.db\nE1 out', f'{BUNDLE} --progress', 3)
    files = [
        *(f'{it}.csv' for it in 'registrar contact more host domain idn nndn'.split()),
        'registry.sqlite'
    ]
    told = ''.join(f'{it}: written\n' for it in files)
    stage.check('tables --store a.db --progress --sqlite files',
                Wanted(0, '', f'opening a.db\n{told}'), program='handover')
    stage.check('tables --store a.db --progress files', Wanted(3, '', 'E1 files\n'),
                program='handover')


# Words that are no command. The last one has a byte that is no UTF-8.
NO_WORDS = ('', 'check', 'check --store', 'check --store a.db more',
            'check --store a.db --store a.db', 'check --store a.db --id G1', 'Check --store a.db',
            'check --store a.db --now', 'page --store a.db out --now', 'page --store a.db --now G1',
            'check --store a.db --now 2024-03-03T00:00:00Z --now 2024-03-03T00:00:00Z',
            'bundle --store a.db --id G1 --now 2024-03-03T00:00:00Z out',
            '--store a.db check', 'rows --store a.db out', 'bundle --store a.db',
            'bundle --store a.db --id G1', 'bundle --store a.db out', 'bundle --id G1 out',
            'bundle --store a.db --id G1 out more', 'bundle --store a.db --id G1 --all out', 'page',
            'page --store a.db', 'page out', 'page --store a.db out more',
            'page --store a.db --id G1 out', 'tables', 'tables --store a.db', 'tables out',
            'tables --store a.db out more', 'tables --store a.db --sqlite=yes out',
            'tables --store a.db --sqlite --sqlite out', 'tables --store a.db --Sqlite out',
            'tables --store a.db --id G1 out', 'tables --progress out',
            'bundle --store a.db --id G1 \udcff')


def test_words(stage: Stage) -> None:
    """Words that are no command, and ids."""
    store_of(stage, (FIRST,))
    names, before = names_in(stage.room.name), read(stage.at('a.db'))
    for line in NO_WORDS:
        stage.check(ascii(line), Wanted(2, '', None), line.split(), 'handover')
    compare_all('files', names, names_in(stage.room.name))
    for name in ('', 'a' * 65, 'G/1', 'G1\n', 'é'):
        check_refused(stage, 'U6 out', words=['bundle', '--store', 'a.db', '--id', name, 'out'])
    stage.check('an id of 64 letters', Wanted(),
                ['bundle', '--store', 'a.db', '--id', 'aZ09._-'.ljust(64, 'a'), 'out'], 'handover')
    if read(stage.at('a.db')) != before:
        raise Failed('the store is changed')

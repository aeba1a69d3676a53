"""`handover bundle --series`: registries that are handed over as a series of bundles. The plain
reader finds in the bundles the store's objects, each once, and a store of these bundles alone has
the same exports and is handed over as the same files."""
import os
import shutil
from collections.abc import Sequence
from typing import NamedTuple

from tests.cases.handovers import FIRST
from tests.cases.handovers import HEADERS
from tests.cases.handovers import children
from tests.cases.handovers import clear
from tests.cases.handovers import contacts
from tests.cases.handovers import names_in
from tests.cases.handovers import store_of
from tests.support import formats
from tests.support.bundles import Table
from tests.support.bundles import manifest
from tests.support.files import read
from tests.support.formats import KINDS
from tests.support.formats import envelope_in
from tests.support.formats import record
from tests.support.outputs import no_longer_files
from tests.support.reports import report
from tests.support.stage import Failed
from tests.support.stage import Stage
from tests.support.stage import Wanted
from tests.support.stage import case
from tests.support.stage import compare
from tests.support.stage import compare_all
from tests.support.stores import change_row
from tests.support.stores import opened
from tests.support.stores import run

SERIES = 'bundle --store a.db --id G1 --series out'
# The moment of the last deposit of HEADERS, and how those of the bundles before the last one begin.
END, BEFORE_END = '2024-03-04T00:00:00Z', '2024-03-03T23:59:59.999999'
Tables = Sequence[Table]


def with_children(key: str, count: int) -> list[Table]:
    """A contact with so many child rows."""
    return [contacts(f'{key},X\n'.encode()), children(f'{key}\n'.encode() * count, fields=('id',))]


def with_text(key: str, length: int) -> list[Table]:
    """A contact with a text of so many bytes."""
    return [contacts(f'{key},{length * "x"}\n'.encode(), ('id', 'text'))]


def in_rows(first: int, count: int) -> list[Table]:
    """So many contacts of one row each."""
    return [contacts(''.join(f'C{at:06},X\n' for at in range(first, first + count)).encode())]


class Registry(NamedTuple):
    """The tables of a Full and of a Differential on it, how many contacts they have, and how many
    rows each bundle of them."""
    name: str
    first: Tables
    second: Tables
    contacts: int
    rows: list[int]


REGISTRIES = (
    Registry('as many rows as a bundle has', in_rows(0, 50_000), in_rows(50_000, 50_000), 100_000,
             [100_000]),
    Registry('one row more', in_rows(0, 100_000), in_rows(100_000, 1), 100_001, [100_000, 1]),
    Registry('objects that are whole', with_children('C1', 60_000), with_children('C2', 60_000), 2,
             [60_001, 60_001]),
    Registry('many bytes', with_text('C1', 9_000_000), with_text('C2', 9_000_000), 2, [1, 1]),
    Registry('two rows', [contacts(b'C1,X1\n')], [contacts(b'C2,X2\n')], 2, [2]),
)


def ids_of(length: int) -> list[str]:
    """The ids of the bundles of G1."""
    return [*(f'G1.{number}of{length}' for number in range(1, length)), 'G1']


def moments_of(length: int) -> list[str]:
    """The moments of at most ten bundles, of which the last one is of the chain's end."""
    return [*(f'{BEFORE_END}{1_000 - it}Z' for it in range(length - 1, 0, -1)), END]


def check_bundle(at: int, body: bytes, registry: Registry) -> None:
    """Compares what one of the bundles says of itself."""
    found, length = formats.deposit(body), len(registry.rows)
    prev = ids_of(length)[at - 1] if at else None
    place = f'{moments_of(length)[at]} {"DIFF" if at else "FULL"}'
    told = f'{found.name} {formats.place_text(found.place)} {found.prev} {found.resend}'
    compare('header', f'{ids_of(length)[at]} {place} {prev} 0', told)
    counts = {kind: registry.contacts * (kind == 'contact') for kind in KINDS}
    compare('counts', f'{counts if at == length - 1 else {}}', f'{found.counts}')
    series = envelope_in(body).get('series')
    part = series and [series['deposit'], series['part'].whole(), series['of'].whole()]
    compare('series', f'{["G1", at + 1, length] if length > 1 else None}', f'{part}')
    texts = [text for _, text in formats.sections(body)[1:]]
    compare('rows', f'{registry.rows[at]}', f'{sum(it.count(10) for it in texts)}')
    if found.orphans or found.deletes:
        raise Failed('the bundle has more than objects')


def check_bundles(stage: Stage, bodies: list[bytes], registry: Registry) -> None:
    """Compares what bundles say of themselves, and their objects with those of the store."""
    said: dict[tuple[str, bytes], bytes] = {}
    for at, body in enumerate(bodies):
        with case(f'bundle {at + 1}'):
            check_bundle(at, body, registry)
        says = formats.deposit(body).says
        if said.keys() & says.keys():
            raise Failed(f'bundle {at + 1} has an object that an earlier one has')
        said |= says
    with opened(stage.at('a.db')) as database:
        stored = database.execute('SELECT kind, key, record FROM object')
        if said != {(KINDS[kind], key): it for kind, key, it in stored}:
            raise Failed('the bundles have other objects than the store')


def check_series(stage: Stage, registry: Registry) -> None:
    """A registry is handed over as a series, and rebuilt from that alone."""
    store_of(stage, registry.first, registry.second)
    run(stage, SERIES, 'handover')
    length = len(registry.rows)
    names = [f'G1-{number:03}' for number in range(1, length + 1)]
    wanted = ['deposits', *(f'deposits/{it}' for it in names), 'manifest.csv']
    compare_all('files', wanted, names_in(stage.at('out')))
    bodies = [read(stage.at(f'out/deposits/{it}')) for it in names]
    check_bundles(stage, bodies, registry)
    if length == 1:
        run(stage, 'bundle --store a.db --id G1 one', 'handover')
        if bodies[0] != read(stage.at('one')):
            raise Failed('the bundle of the series is another one')
    words = ' '.join(f'out/deposits/{it}' for it in reversed(names))
    listed = run(stage, f'manifest {words}', 'pack').decode()
    compare('manifest', listed, read(stage.at('out/manifest.csv')).decode())
    stage.check('init --store b.db --manifest out/manifest.csv', Wanted(0, f'listed {length}\n'))
    receipts = [
        f'{at},{name},A1,,{id},0,new,0'
        for at, (name, id) in enumerate(zip(names, ids_of(length)), 1)
    ]
    stage.check('take --store b.db out/deposits', Wanted(0, report('receipts', receipts)))
    for kind in KINDS:
        exports = [run(stage, f'export --store {it} {kind}') for it in ('a.db', 'b.db')]
        if exports[0] != exports[1]:
            raise Failed(f'the export of {kind} is another one')
    run(stage, 'bundle --store b.db --id G1 --series again', 'handover')
    compare_all('files', wanted, names_in(stage.at('again')))
    if bodies != [read(stage.at(f'again/deposits/{it}')) for it in names]:
        raise Failed('the bundles of the registry that was rebuilt are others')


def test_registries(stage: Stage) -> None:
    """Registries around the limits of a bundle are handed over as series."""
    for registry in REGISTRIES:
        with case(registry.name):
            check_series(stage, registry)
        clear(stage)


def test_one_bundle(stage: Stage) -> None:
    """A series of one bundle is the bundle; of no object too. An empty folder is replaced."""
    for contents in ((FIRST, ), ()):
        store_of(stage, contents)
        os.mkdir(stage.at('out'))
        run(stage, SERIES, 'handover')
        run(stage, 'bundle --store a.db --id G1 one', 'handover')
        if read(stage.at('out/deposits/G1-001')) != read(stage.at('one')):
            raise Failed('the bundle of the series is another one')
        clear(stage)


def check_refused(stage: Stage, refusal: str, status: int, words: list[str] | None = None) -> None:
    """Compares a refusal, after which there is nothing that wasn't there."""
    names = names_in(stage.room.name)
    stage.check(SERIES, Wanted(status, '', f'{refusal}\n'), words, 'handover')
    compare_all('files', names, names_in(stage.room.name))


def words_of(name: str, folder: str = 'out') -> list[str]:
    return ['bundle', '--store', 'a.db', '--id', name, '--series', folder]


def test_refusals(stage: Stage) -> None:
    """Series that there are none of: an object that is too large, ids, fields."""
    store_of(stage, with_children('C1', 50_000), with_children('C2', 60_000))
    # The id of the first bundle has five letters more.
    for name in ('a' * 64, 'a' * 60, '', 'G/1', './G1'):
        check_refused(stage, 'U6 out', 1, words_of(name))
    run(stage, f'bundle --store a.db --id {"a" * 59} --series done', 'handover')
    shutil.rmtree(stage.at('done'))
    # No deposit makes this object, whose rows are more than a bundle has.
    rows = [('contact', [('id', 'C2'), ('roid', 'X')])]
    more = [('more', [('id', 'C2')])] * 100_000
    change_row(stage, 'a.db', 'UPDATE object SET record = ? WHERE key = ?',
               (record(rows + more), b'C2'))
    check_refused(stage, 'U11 out contact C2', 1)
    clear(stage)
    store_of(stage, [FIRST], [contacts(b'C2\n', ('id', ))])
    check_refused(stage, 'H4 contact', 1)
    clear(stage)
    stage.write('manifest.csv', manifest([(HEADERS[0], b'')]))
    run(stage, 'init --store a.db --manifest manifest.csv')
    check_refused(stage, 'H7', 1)


def test_places(stage: Stage) -> None:
    """A folder that can't be written, or whose place is taken."""
    store_of(stage, (FIRST, ))
    run(stage, 'bundle --store a.db --id G1 one', 'handover')
    os.makedirs(stage.at('full/of'))
    os.mkdir(stage.at('beside.part'))
    stage.write('file', b'text')
    for place, told in (('full', 'full'), ('file', 'file'), ('beside', 'beside.part'),
                        ('absent/out', 'absent/out'), ('', '(an empty path)')):
        with case(f'at {place!r}'):
            check_refused(stage, f'E1 {told}', 3, words_of('G1', place))
    with case('a file that is too long'):
        names = names_in(stage.room.name)
        stage.check(SERIES, Wanted(3, '', 'E1 out\n'), program='handover',
                    prepare=no_longer_files(100))
        compare_all('files', names, names_in(stage.room.name))
    stage.check(f'{SERIES} --progress', Wanted(0, '', 'opening a.db\n'), program='handover')
    stage.check('bundle --store a.db --id G1 --series', Wanted(2, '', None), program='handover')

"""The bundles of a series, as `pack` writes them and `restore` takes them: in any order, twice,
missing, between two runs, and of a deposit that was sent again. What the desk has to say is asked
of the plain model."""
import collections
import csv
import hashlib
import io
import os
import random
import shutil
from collections.abc import Iterator
from collections.abc import Mapping
from collections.abc import Sequence

from tests.cases.handovers import clear
from tests.support.bundles import HEADING
from tests.support.escrow import folders_in
from tests.support.files import read
from tests.support.formats import KINDS
from tests.support.formats import read_record
from tests.support.model import Desk
from tests.support.reports import report
from tests.support.stage import Failed
from tests.support.stage import Stage
from tests.support.stage import Wanted
from tests.support.stage import case
from tests.support.stage import compare
from tests.support.stage import compare_all
from tests.support.stores import run
from tests.support.telling import state
from tests.support.unpacking import Described
from tests.support.unpacking import bundle_in
from tests.support.unpacking import row_of

# A description and its files.
Files = tuple[dict[str, object], dict[str, bytes]]
FULL = {'id': 'F1', 'type': 'FULL', 'watermark': '2024-03-03T00:00:00Z'}
INCR = {'id': 'I2', 'type': 'INCR', 'watermark': '2024-03-04T00:00:00Z'}
DOMAINS = [f'd{at}.example' for at in range(8)]
TABLES = (
    ('registrar', 'registrar', 'parent', ('id',)),
    ('domain', 'domain', 'parent', ('name', 'clID')),
    ('domainStatuses', 'domain', 'child', ('name', 'status')),
)


def described(header: Mapping[str, object], names: Sequence[str], word: str,
              gone: Sequence[str] = ()) -> Files:
    """A description, and its files: a registrar, and domains with a word and a status each."""
    contents = [{
        'name': name, 'kind': kind, 'role': role, 'key': fields[0], 'fields': fields,
        'file': f'{name.lower()}.csv'
    } for name, kind, role, fields in TABLES]
    deletes = [{**contents[1], 'fields': ['name'], 'file': 'gone.csv'}] if gone else []
    rows = {
        'registrar.csv': ['R1'], 'domain.csv': [f'{it},{word}' for it in names],
        'domainstatuses.csv': [f'{it},ok' for it in names], 'gone.csv': gone
    }
    files = {name: ''.join(f'{it}\n' for it in its).encode() for name, its in rows.items()}
    return {**header, 'contents': contents, 'deletes': deletes}, files


def made(stage: Stage, name: str, given: Files, *words: str) -> list[bytes]:
    """A folder of parts, of so many rows at most."""
    os.mkdir(stage.at(f'{name}-room'))
    found = Described(stage.at(f'{name}-room'), *given, words)
    if found.status:
        raise Failed(f'{found.lines}')
    os.rename(found.out, stage.at(name))
    return [bundle_in(it) for it in folders_in(stage.at(name))]


def made_full(stage: Stage, most: int = 6) -> list[bytes]:
    return made(stage, 'F1', described(FULL, DOMAINS, 'R1'), '--part-rows', f'{most}')


def manifest_of(bundles: Sequence[bytes]) -> bytes:
    return (HEADING + ''.join(map(row_of, bundles))).encode()


def begin(stage: Stage, listed: Sequence[bytes], store: str = 'a.db') -> Desk:
    """A new store, and a model of it."""
    stage.write('manifest.csv', manifest_of(listed))
    run(stage, f'init --store {store} --manifest manifest.csv')
    return Desk(manifest_of(listed))


def take(stage: Stage, model: Desk, bundles: Sequence[bytes], store: str = 'a.db') -> None:
    """Takes bundles in their order in one run, and compares what is told of the store."""
    shutil.rmtree(stage.at('deposits'), ignore_errors=True)
    os.mkdir(stage.at('deposits'))
    names = [f'{len(model.receipts):03}-{at:03}' for at in range(len(bundles))]
    for name, body in zip(names, bundles):
        stage.write(f'deposits/{name}', body)
    rows = [model.row_text(model.arrive(*it)) for it in zip(names, bundles)]
    model.settle()
    stage.check(f'take --store {store} deposits', Wanted(0, report('receipts', rows)))
    check_store(stage, model, store)


def check_store(stage: Stage, model: Desk, store: str = 'a.db') -> None:
    stage.check(f'report --store {store} status', Wanted(0, state(model)['status']))
    stage.check(f'report --store {store} gaps', Wanted(0, report('gaps', model.gap_rows())))
    compare_all('export', map(str, cells_of(model)), map(str, exported(stage, store)))


def exported(stage: Stage, store: str) -> Iterator[list[str]]:
    """The cells of all objects, in the order of kinds."""
    for kind in KINDS:
        text = run(stage, f'export --store {store} {kind}').decode()
        yield from list(csv.reader(io.StringIO(text, newline=''), strict=True))[1:]


def cells_of(model: Desk) -> Iterator[list[str]]:
    objects = sorted(model.objects.items(), key=lambda it: (KINDS.index(it[0][0]), it[0][1]))
    for (kind, key), record in objects:
        count: collections.Counter[str] = collections.Counter()
        for at, (table, cells) in enumerate(read_record(record)):
            count[table] += at > 0
            for field, text in cells:
                yield [kind, key.decode(), table, f'{count[table] if at else 0}', field, text]


def check_manifest(stage: Stage, listed: Sequence[bytes]) -> None:
    """Compares the manifest of what is in the folder of bundles."""
    words = ['manifest', *(f'bundles/{it}' for it in os.listdir(stage.at('bundles')))]
    compare('manifest', manifest_of(listed).decode(), run(stage, ' '.join(words), 'pack').decode())


# ---- the cases


def test_bundles(stage: Stage) -> None:
    """`pack series` writes the bundles of bare files in parts, and a manifest lists them."""
    bundles = made_full(stage)
    os.mkdir(stage.at('bundles'))
    run(stage, 'series F1 bundles/F1', 'pack')
    names = sorted(os.listdir(stage.at('bundles')))
    compare_all('names', [f'F1-{at:03}' for at in range(1, len(bundles) + 1)], names)
    for name, body in zip(names, bundles):
        compare(name, body.decode(), read(stage.at(f'bundles/{name}')).decode())
    check_manifest(stage, bundles)
    # One is there already, as after a stop between two: none is written over, and none of this run
    # is left.
    os.remove(stage.at('bundles/F1-001'))
    stage.check('series F1 bundles/F1', Wanted(3, '', 'E1 bundles/F1-002\n'), program='pack')
    compare_all('names', names[1:], sorted(os.listdir(stage.at('bundles'))))


def test_orders(stage: Stage) -> None:
    """The bundles of a series in any order, some twice."""
    bundles = made_full(stage)
    for seed in range(4):
        chance = random.Random(seed)
        with case(f'seed {seed}'):
            model = begin(stage, bundles, f'{seed}.db')
            take(stage, model, chance.sample(bundles * 2, len(bundles) * 2), f'{seed}.db')


def test_runs(stage: Stage) -> None:
    """A run ends between two bundles of a series, and the next one goes on."""
    bundles = made_full(stage)
    for name, order in (('first', bundles), ('last', bundles[::-1])):
        model = begin(stage, bundles, f'{name}.db')
        for it in order:
            with case(f'{name} first'):
                take(stage, model, [it], f'{name}.db')
        take(stage, model, order, f'{name}.db')


# What is told where the second bundle of four is missing: the chain ends before it, and all after
# it wait for it.
GAPS = (
    '2024-03-02T23:59:59.999999997Z,FULL,0,chain,,',
    '2024-03-02T23:59:59.999999998Z,DIFF,,missing,,0',
    '2024-03-02T23:59:59.999999999Z,DIFF,0,blocked,2024-03-02T23:59:59.999999998Z DIFF,',
    '2024-03-03T00:00:00Z,DIFF,0,blocked,2024-03-02T23:59:59.999999998Z DIFF,',
)


def test_missing(stage: Stage) -> None:
    """A bundle of a series is missing: `report gaps` and `pack check` name it. It comes later."""
    bundles = made_full(stage)
    for missing in range(len(bundles)):
        store, rest = f'{missing}.db', bundles[:missing] + bundles[missing + 1:]
        model = begin(stage, bundles, store)
        with case(f'bundle {missing + 1} of {len(bundles)}'):
            take(stage, model, rest, store)
            told = run(stage, 'check --manifest manifest.csv deposits', 'pack').decode()
            wanted = f'no file: {" ".join(row_of(bundles[missing]).split(",")[:3])} resend 0'
            compare('the last line of pack check', wanted, told.splitlines()[-1])
            if missing == 1:
                stage.check(f'report --store {store} gaps', Wanted(0, report('gaps', GAPS)))
            take(stage, model, [bundles[missing]], store)


def test_mixed(stage: Stage) -> None:
    """A folder that has a part of another deposit: its bundle builds on one that is not listed."""
    bundles = made_full(stage)
    header = {**FULL, 'id': 'F2', 'watermark': '2024-03-10T00:00:00Z'}
    others = made(stage, 'F2', described(header, DOMAINS, 'R2'), '--part-rows', '6')
    last = f'part-{len(others):03}'
    shutil.rmtree(stage.at(f'F1/{last}'))
    shutil.copytree(stage.at(f'F2/{last}'), stage.at(f'F1/{last}'))
    os.mkdir(stage.at('bundles'))
    run(stage, 'series F1 bundles/F1', 'pack')
    listed = [*bundles[:-1], others[-1]]
    model = begin(stage, listed)
    check_manifest(stage, listed)
    take(stage, model, listed)
    if not run(stage, 'report --store a.db gaps').endswith(b',blocked,unlisted F2.3of4,\n'):
        raise Failed('the last place is not blocked by the part that is not listed')


def check_sent_again(stage: Stage, first: int, second: int) -> None:
    before = made_full(stage, first)
    given = described({**FULL, 'resend': 1}, DOMAINS[2:], 'R2')
    after = made(stage, 'again', given, '--part-rows', f'{second}', '--known', stage.at('F1'))
    model = begin(stage, before)
    take(stage, model, before)
    stage.write('more.csv', manifest_of(after))
    added = f'added {model.amend(manifest_of(after))}\n'
    stage.check('amend --store a.db --manifest more.csv', Wanted(0, added))
    model.settle()
    check_store(stage, model)
    for it in after:
        take(stage, model, [it])
    steps = [model.listed[it][4] for it in model.steps]
    compare_all('chain', (hashlib.sha256(it).hexdigest() for it in after), steps)
    places = run(stage, 'report --store a.db gaps').decode().splitlines()
    stand = sum(',standing,' in it for it in places)
    compare('former places that stand', f'{len(before) - 1}', f'{stand}')


def test_sent_again(stage: Stage) -> None:
    """A deposit is sent again as fewer bundles, or more: no former one stays in the chain."""
    for first, second in ((6, 12), (12, 4)):
        with case(f'{first} rows, then {second}'):
            check_sent_again(stage, first, second)
        clear(stage)


def test_incremental(stage: Stage) -> None:
    """An Incremental on a Full that is a series builds on the whole of it."""
    full = made_full(stage)
    for name, words in (('one', ()), ('series', ('--part-rows', '6'))):
        given = described(INCR, DOMAINS[4:] + ['new.example'], 'R2', DOMAINS[:2])
        bundles = made(stage, name, given, '--known', stage.at('F1'), *words)
        model = begin(stage, [*full, *bundles], f'{name}.db')
        with case(name):
            take(stage, model, [*bundles, *full], f'{name}.db')
            names = {key.decode() for kind, key in model.objects if kind == 'domain'}
            compare_all('domains', sorted([*DOMAINS[2:], 'new.example']), sorted(names))

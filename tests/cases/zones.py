"""`handover zone`: the zones of worked registries and of registries at random, against the plain
model (support/zones.py) and the programs of others."""
import functools

from tests.cases.handovers import SHORT
from tests.cases.handovers import check_refused
from tests.cases.handovers import names_in
from tests.support.bundles import HEADING
from tests.support.bundles import manifest
from tests.support.checkers import checked
from tests.support.checkers import missing
from tests.support.files import read
from tests.support.outputs import no_longer_files
from tests.support.releases import Release
from tests.support.releases import numbered
from tests.support.stage import Failed
from tests.support.stage import Stage
from tests.support.stage import Wanted
from tests.support.stage import case
from tests.support.stage import compare
from tests.support.stage import compare_all
from tests.support.steps import Folder
from tests.support.steps import Link
from tests.support.steps import Text
from tests.support.stores import EMPTY_LOG
from tests.support.stores import run
from tests.support.tables import Row
from tests.support.zone_registries import draw_registry
from tests.support.zone_rows import HEADER
from tests.support.zone_rows import NS
from tests.support.zone_rows import OUT1
from tests.support.zone_rows import SERIAL
from tests.support.zone_rows import SOA
from tests.support.zone_rows import WORKED
from tests.support.zone_rows import ZERO
from tests.support.zone_rows import Worked
from tests.support.zone_rows import full_of
from tests.support.zones import Zone
from tests.support.zones import tables_of
from tests.support.zones import unsigned_line

# The registries at random: the seed, how many domains, and the share that is odd.
DRAWN = ((0, 30, 0.2), (1, 30, 0.2), (2, 30, 0.2), (3, 60, 0.1), (4, 60, 0.3), (5, 400, 0.05))
LINE = f'zone --store a.db --origin example --apex apex --serial {SERIAL} out'


def store_of(stage: Stage, objects: list[list[Row]], apex: str = SOA + NS) -> None:
    """Makes a store of a registry, and the operator's file."""
    body = full_of(objects)
    Release(manifest([(HEADER, body)]), numbered([body])).rebuild(stage)
    compare('held', 'held 1', run(stage, 'report --store a.db status').decode().splitlines()[1])
    stage.write('apex', apex.encode())


def check_made(stage: Stage, records: list[str], told: list[str], origin: str = 'example',
               line: str = LINE) -> str:
    """Makes a zone, and compares it and what is told. Nothing else is made or changed. Gives the
    counts."""
    out = line.split()[-1]
    names, before = {*names_in(stage.room.name), 'a.db-wal', out}, read(stage.at('a.db'))
    got = stage.end(stage.begin(line.replace('example', origin).split(), 'handover'))
    *lines, last = got.err.decode().splitlines() or ['']
    compare_all('standard error', told, lines)
    compare('the last line of it', unsigned_line(origin), last)
    compare('status', '0', f'{got.status}')
    compare_all('the zone', records, read(stage.at(out)).decode().split('\n')[:-1])
    compare_all('files', sorted(names), names_in(stage.room.name))
    if read(stage.at('a.db')) != before or len(read(stage.at('a.db-wal'))) > EMPTY_LOG:
        raise Failed('the store is changed')
    return got.out.decode()


def check_worked(stage: Stage, row: Worked) -> None:
    store_of(stage, row.objects, row.apex)
    if not row.refusal:
        line = LINE.replace('zone', f'zone {row.flags}')
        check_made(stage, row.records(), row.lines(), row.origin, line)
        return
    names = sorted({*names_in(stage.room.name), 'a.db-wal'})
    got = stage.end(stage.begin(LINE.replace('example', row.origin).split(), 'handover'))
    compare('the refusal', row.refusal, got.err.decode().splitlines()[-1])
    compare('status and standard output', "1 b''", f'{got.status} {got.out}')
    compare_all('files', names, names_in(stage.room.name))


CASES = {f'A zone: {row.title}': functools.partial(check_worked, row=row) for row in WORKED}


def test_registries_at_random(stage: Stage) -> None:
    """Registries at random, against the plain model: the zone, what is told, and the counts."""
    for at, (seed, count, odd) in enumerate(DRAWN):
        with case(f'seed {seed}'), Stage(stage.programs) as own:
            objects = draw_registry(seed, count, odd)
            store_of(own, objects)
            zone = Zone(tables_of(objects), SOA + NS, 'example', SERIAL)
            counts = check_made(own, zone.records, zone.told)
            compare_all('counts', [f'{name} {it}' for name, it in zone.counts.items()],
                        counts.splitlines())
            check_made(own, zone.records, zone.told, line=LINE.replace(' out', ' again'))


def test_programs_of_others(stage: Stage) -> None:
    """Other programs take a zone, where they are installed."""
    for name, package in missing().items():
        print(f'zones: {name} is not run: the package {package} is not installed', flush=True)
    store_of(stage, draw_registry(7, 200, 0.1))
    stage.end(stage.begin(LINE.split(), 'handover'))
    for it in checked(stage.at('out'), 'example'):
        if not it.takes:
            raise Failed(f'{it.name} refuses the zone:\n{it.said}')


def test_serials(stage: Stage) -> None:
    """Serials, and what is none."""
    store_of(stage, [ZERO])
    for text in ('0', '4294967296', '99999999999999999999', 'x', '1.5', '+1', ''):
        with case(f'{text!r}'):
            check_refused(stage, 'Z2 the serial is not from 1 to 4294967295', LINE,
                          kept=('a.db', 'apex'),
                          words=[text if it == f'{SERIAL}' else it for it in LINE.split()])
    most = '4294967295'
    zone = [SOA.replace('SERIAL', most).strip(), NS.strip(), f'0.example. 3600 IN NS {OUT1}.']
    check_made(stage, zone, [], line=LINE.replace(f'{SERIAL}', most))


def test_where_no_zone_is_written(stage: Stage) -> None:
    """A zone whose place is taken or has no room, and an operator's file that is not there."""
    store_of(stage, [ZERO])
    for made in (Folder('folder'), Text('file', 'text'), Link('link', 'nowhere'),
                 Text('beside.part', 'text')):
        made.do(stage)
    kept = ('a.db', 'apex', 'file', 'beside.part')
    for target in ('folder', 'file', 'link', 'beside', 'a.db', 'absent/out', 'file/out', ''):
        with case(f'at {target!r}'):
            check_refused(stage, f'E1 {target or "(an empty path)"}', LINE, 3, kept,
                          words=[*LINE.split()[:-1], target])
    for name in ('absent', 'folder'):
        check_refused(stage, f'E1 {name}', LINE.replace('apex apex', f'apex {name}'), 3, kept)
    with case('a file that is too long'):
        check_refused(stage, 'E1 out', LINE, 3, kept, prepare=no_longer_files(SHORT))


def test_no_chain(stage: Stage) -> None:
    """A store without a chain has no zone, and what is no store neither."""
    Release(HEADING.encode(), []).rebuild(stage)
    stage.write('apex', (SOA + NS).encode())
    check_refused(stage, 'H7', LINE, kept=('a.db', 'apex'))
    stage.check('an absent store', Wanted(3, '', 'S3\n'), LINE.replace('a.db', 'b.db').split(),
                'handover')


def test_words(stage: Stage) -> None:
    """Words that are no command."""
    store_of(stage, [ZERO])
    names = names_in(stage.room.name)
    for wrong in ('zone', LINE.removesuffix(' out'), f'{LINE} --ttl 60', f'{LINE} more',
                  f'{LINE} --store a.db', f'{LINE} --day --day', f'{LINE} --day=yes',
                  *(LINE.replace(it, '') for it in ('--store a.db', '--origin example',
                                                    '--apex apex', f'--serial {SERIAL}')),
                  LINE.replace('zone', 'Zone'), LINE.replace(' out', ' --id G1 out')):
        stage.check(wrong, Wanted(2, '', None), wrong.split(), 'handover')
    compare_all('files', names, names_in(stage.room.name))

"""python3 -m trials.zone_servers [--domains N] [--seed N] [--restore PROGRAM --handover PROGRAM]
python3 -m trials.zone_servers --model [--domains N] [--seed N]
python3 -m trials.zone_servers --zone FILE --tables DIR --origin TLD --apex FILE --serial N

Holds a zone against what others make of it: four checkers have to take it, NSD has to load it on
this machine alone, to hand over just its records, and to answer as the tables say for each domain,
delegated, held or else left out, for the servers in the zone, and for names that are not there.
What the tables say is what the plain model (tests/support/zones.py) makes of them.

The zone is what `handover zone` writes of a registry at random; with --model what the model itself
writes of it, which needs no program; or a FILE that was made of the tables in DIR (`handover
tables`).

Then zones that are wrong in one way each: the answers have to show that. How many of these the
checkers take is told: they don't know the registry.

It needs nsd; a checker that is not installed is told. Debian's packages: bind9-utils, nsd,
knot-dnssecutils, ldnsutils. The last line is `N questions, M wrong zones, K faults`; the status is
0 where K is 0."""
import argparse
import os
import random
import subprocess
import sys
import tempfile
from collections.abc import Callable
from collections.abc import Iterator
from pathlib import Path

from tests.support import arguments_of
from tests.support import built
from tests.support.bundles import manifest
from tests.support.checkers import checked
from tests.support.checkers import missing
from tests.support.checkers import path_of
from tests.support.dns import Record
from tests.support.name_server import Lookup
from tests.support.name_server import NameServer
from tests.support.name_server import answer_of
from tests.support.zone_registries import draw_registry
from tests.support.zone_rows import HEADER
from tests.support.zone_rows import NS
from tests.support.zone_rows import SERIAL
from tests.support.zone_rows import SOA
from tests.support.zone_rows import full_of
from tests.support.zones import Zone
from tests.support.zones import is_below
from tests.support.zones import read_tables
from tests.support.zones import tables_of

# The operator's own records of a registry at random.
APEX = f'{SOA}{NS}example. 3600 IN NS a.nic.example.\na.nic.example. 3600 IN A 192.0.2.53\n'
ABSENT, SHOWN = 200, 5
Lines = list[str]


# ---- the zone and its tables


def made_by_programs(given: argparse.Namespace, room: str, body: bytes) -> Lines:
    """The zone that the programs make of a deposit."""
    os.mkdir(f'{room}/deposits')
    for name, content in (('deposits/1', body), ('manifest.csv', manifest([(HEADER, body)])),
                          ('apex', APEX.encode())):
        Path(room, name).write_bytes(content)
    for words in ([given.restore, 'init', '--store', 'a.db', '--manifest', 'manifest.csv'],
                  [given.restore, 'take', '--store', 'a.db', 'deposits'],
                  [given.handover, 'zone', '--store', 'a.db', '--origin', 'example', '--apex',
                   'apex', '--serial', str(SERIAL), 'zone']):
        subprocess.run(words, cwd=room, stdout=subprocess.DEVNULL, stderr=subprocess.DEVNULL,
                       check=True)
    return Path(room, 'zone').read_text('ascii').splitlines()


def given_zone(given: argparse.Namespace, room: str) -> tuple[Zone, Lines]:
    """The plain model of a zone, and the lines of the one that is tried."""
    if given.zone:
        model = Zone(read_tables(given.tables), given.apex.read_text('ascii'), given.origin,
                     given.serial)
        return model, given.zone.read_text('ascii').splitlines()
    objects = draw_registry(given.seed, given.domains, 0.05)
    model = Zone(tables_of(objects), APEX, 'example', SERIAL)
    lines = model.records if given.model else made_by_programs(given, room, full_of(objects))
    return model, lines


def record_of(line: str) -> Record:
    name, _, _, kind, data = line.split(' ', 4)
    return Record(name[:-1], kind, data.removesuffix('.') if kind == 'NS' else data)


# ---- questions


def questions_of(model: Zone) -> Iterator[tuple[str, str]]:
    """Names and types that are asked: of each domain, of names below it, of hosts, and others."""
    registry, origin = model.registry, model.origin
    yield from ((origin, it) for it in ('NS', 'DS'))
    for name in sorted({*registry.domains, *registry.nndns}):
        yield from ((name, it) for it in ('NS', 'DS', 'A'))
        yield f'www.{name}', 'A'
    hosts = {host for name in registry.domains for host in model.servers(name)}
    for host in sorted(hosts | {*registry.hosts, *model.operator.addresses}):
        yield from ((host, it) for it in ('A', 'AAAA'))
    yield from ((f'absent-{at}.{origin}', 'A') for at in range(ABSENT))


def is_askable(name: str, origin: str) -> bool:
    labels = [len(it.encode()) for it in name.split('.')]
    return is_below(name, origin) and all(0 < it < 64 for it in labels) and sum(labels) < 240


def faults_of_answers(model: Zone, room: str, path: str) -> tuple[int, Lines]:
    """How many questions NSD was asked, and what it answers otherwise than the tables say."""
    lookup = Lookup(model.origin, map(record_of, model.records))
    questions = [it for it in questions_of(model) if is_askable(it[0], model.origin)]
    faults = []
    with NameServer(room, path, model.origin) as nsd:
        try:
            server = nsd.connected()
        except ConnectionError as error:
            return 0, [f'{error}']
        with server:
            for name, kind in questions:
                wanted, got = lookup.answer(name, kind), answer_of(server.ask(name, kind))
                if got != wanted:
                    faults.append(f'{name} {kind}: wanted {wanted}; got {got}')
    return len(questions), faults


def faults_of_transfer(model: Zone, lines: Lines, room: str, path: str) -> Lines:
    """What is otherwise in the records that NSD hands over than in the file. (Of the SOA and of the
    operator's other types only that they are there.)"""
    with NameServer(room, path, model.origin) as nsd, nsd.connected() as server:
        got = {it for it in server.transfer(model.origin) if it.type in ('NS', 'DS', 'A', 'AAAA')}
    wanted = {it for it in map(record_of, lines) if it.type in ('NS', 'DS', 'A', 'AAAA')}
    return [f'transfer: {" ".join(it)}' for it in sorted(wanted ^ got)]


# ---- wrong zones


def without(chosen: Callable[[Record], bool]) -> Callable[[Lines, random.Random], Lines]:
    """Zones without one of these records."""
    def spoil(lines: Lines, chance: random.Random) -> Lines:
        gone = chance.choice([it for it in lines if chosen(record_of(it))])
        return [it for it in lines if it != gone]
    return spoil


def changed(chosen: Callable[[Record], bool],
            change: Callable[[str], str]) -> Callable[[Lines, random.Random], Lines]:
    """Zones in which one of these lines is another."""
    def spoil(lines: Lines, chance: random.Random) -> Lines:
        old = chance.choice([it for it in lines if chosen(record_of(it))])
        return [change(it) if it == old else it for it in lines]
    return spoil


def other_digit(line: str) -> str:
    return line[:-1] + ('0' if line[-1] != '0' else '1')


def added(line: str) -> Callable[[Lines, random.Random], Lines]:
    return lambda lines, _: [*lines, line]


def wrong_zones(model: Zone) -> dict[str, Callable[[Lines, random.Random], Lines]]:
    """What is done to a zone, by what is wrong with it then."""
    registry, origin = model.registry, model.origin
    out = {why: next(it for it in registry.domains if model.kept_out(it) == why
                     and model.fault(it) is None) for why in ('held', 'pendingDelete')}
    secured = next(it for it, its in model.secured.items() if its)
    bare = next(it for it in model.delegations if not model.secured.get(it))
    mirrors = {it for it in model.delegations if it not in registry.domains}
    orphans = {host for host, its in model.glue.items() if its and model.cut(host) is None}
    several = {it for it, its in model.delegations.items() if len(its) > 1}
    single = {it for it, its in model.delegations.items() if len(its) == 1}

    def is_glue(it: Record) -> bool:
        return it.type == 'A' and it.name in model.glue and it.name not in orphans
    return {
        'a held domain is delegated': added(f'{out["held"]}. 3600 IN NS ns1.provider.net.'),
        'a domain that is deleted is delegated':
            added(f'{out["pendingDelete"]}. 3600 IN NS ns1.provider.net.'),
        'a domain is lost': without(lambda it: it.type == 'NS' and it.name in single
                                    and not model.secured.get(it.name)),
        'a server is lost': without(lambda it: it.type == 'NS' and it.name in several),
        'a server is another one':
            changed(lambda it: it.type == 'NS' and it.name in several,
                    lambda it: f'{it.rsplit(" ", 1)[0]} other.provider.net.'),
        'a DS is lost': without(lambda it: it.type == 'DS' and it.name == secured),
        'a DS has another digest': changed(lambda it: it.type == 'DS', other_digit),
        'a DS is too short': changed(lambda it: it.type == 'DS', lambda it: it[:-10]),
        'a domain has a DS that is not its own': added(f'{bare}. 3600 IN DS 1 13 2 {"AB" * 32}'),
        'an address is lost': without(is_glue),
        'an address is another one': changed(is_glue, other_digit),
        'the address of a server below a held domain is lost':
            without(lambda it: it.type in ('A', 'AAAA') and it.name in orphans),
        'a mirrored name is lost': lambda lines, _: [
            it for it in lines if record_of(it).name != min(mirrors)],
        'a name that is not there has an address': added(f'absent-1.{origin}. 3600 IN A 192.0.2.1'),
    }


def try_wrong_zones(model: Zone, lines: Lines, room: str) -> tuple[int, int, int]:
    """Tries each wrong zone: how many there are, how many of them all checkers take, and how many
    the answers don't show."""
    chance, taken, hidden = random.Random(1), 0, 0
    zones = wrong_zones(model)
    for at, (title, spoil) in enumerate(zones.items()):
        path = f'{room}/wrong-{at}'
        Path(path).write_text(''.join(f'{it}\n' for it in spoil(lines, chance)), 'ascii')
        refused = [it.name for it in checked(path, model.origin) if not it.takes]
        _, faults = faults_of_answers(model, room, path)
        taken, hidden = taken + (not refused), hidden + (not faults)
        print(f'{"shown" if faults else "HIDDEN"}: {title}: {len(faults)} answers; refused by '
              f'{", ".join(refused) or "no checker"}', flush=True)
    return len(zones), taken, hidden


# ---- the trial


def try_zone(model: Zone, lines: Lines, room: str) -> tuple[int, Lines]:
    """Tries a zone: how many questions there were, and what is wrong."""
    path = f'{room}/zone-tried'
    Path(path).write_text(''.join(f'{it}\n' for it in lines), 'ascii')
    faults = [f'{it.name}: {it.said.strip()[-400:]}' for it in checked(path, model.origin)
              if not it.takes]
    faults += faults_of_transfer(model, lines, room, path)
    asked, wrong = faults_of_answers(model, room, path)
    return asked, faults + wrong


def arguments() -> argparse.Namespace:
    words = arguments_of(__doc__)
    words.add_argument('--domains', type=int, default=1000)
    words.add_argument('--seed', type=int, default=1)
    words.add_argument('--model', action='store_true')
    for name in ('restore', 'handover'):
        words.add_argument(f'--{name}', default=built(name), type=os.path.abspath)
    for name in ('zone', 'tables', 'apex'):
        words.add_argument(f'--{name}', type=Path)
    words.add_argument('--origin')
    words.add_argument('--serial', type=int)
    given = words.parse_args()
    if given.zone and None in (given.tables, given.apex, given.origin, given.serial):
        words.error('--zone needs --tables, --apex, --origin and --serial')
    return given


def main() -> int:
    given = arguments()
    for name, package in missing().items():
        print(f'{name} is not run: the package {package} is not installed')
    if path_of('nsd') is None:
        sys.exit('zone_servers: there is no nsd: the package nsd has it')
    with tempfile.TemporaryDirectory(prefix='zone-') as room:
        model, lines = given_zone(given, room)
        asked, faults = try_zone(model, lines, room)
        print(*faults[:SHOWN], sep='\n', end='\n' if faults else '')
        wrong = taken = hidden = 0
        if not given.zone:
            wrong, taken, hidden = try_wrong_zones(model, lines, room)
            print(f'the checkers take {taken} of the wrong zones')
    print(f'{asked} questions, {wrong} wrong zones, {len(faults) + hidden} faults')
    return int(bool(faults) or hidden > 0)


if __name__ == '__main__':
    sys.exit(main())

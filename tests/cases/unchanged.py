"""What `handover` reads: FILE and its log stay as they are, byte for byte, whatever command reads
them, and each says and makes the same again."""
import os

from tests.cases.handovers import BUNDLE
from tests.cases.handovers import CHECK
from tests.cases.handovers import PAGE
from tests.cases.handovers import TABLES
from tests.cases.handovers import names_in
from tests.cases.loading import LOAD
from tests.cases.zones import LINE as ZONE
from tests.cases.zones import store_of
from tests.support.bundles import manifest
from tests.support.files import read
from tests.support.messages import put
from tests.support.sockets import response_to
from tests.support.sockets import serve
from tests.support.stage import Failed
from tests.support.stage import Stage
from tests.support.stage import Wanted
from tests.support.stage import case
from tests.support.stores import EMPTY_LOG
from tests.support.stores import contents
from tests.support.stores import copy
from tests.support.stores import run
from tests.support.zone_registries import draw_registry
from tests.support.zone_rows import HEADER
from tests.support.zone_rows import NS
from tests.support.zone_rows import SOA
from tests.support.zone_rows import full_of

# Each command that reads a store.
READERS = (CHECK, PAGE, TABLES, LOAD, f'{LOAD} --sqlite', BUNDLE, ZONE)
# A registry of which each of them makes something: its seed, how many domains, the share that is
# odd.
DRAWN = (1, 30, 0.2)


def made(stage: Stage, path: str) -> dict[str, bytes]:
    """What a command made: a file, the files of a folder, or nothing."""
    paths = {'': path, **{it: f'{path}/{it}' for it in names_in(stage.at(path))}}
    return {name: read(stage.at(it)) for name, it in paths.items() if os.path.isfile(stage.at(it))}


def check_unchanged(stage: Stage, store: str, out: str = 'out') -> None:
    """Runs each reader of a store, and each again."""
    before, answers = contents(stage.at(store)), {}
    for at, line in enumerate(READERS * 2):
        words = line.replace('a.db', store).replace(' out', f' {out}{at}')
        with case(words):
            got = stage.end(stage.begin(words.split(), 'handover'))
            if got.status not in (0, 1) or (got.status == 1) != (line == CHECK):
                raise Failed(f'status {got.status}: {got.err!r:.400}')
            if contents(stage.at(store)) != before:
                raise Failed('the store or its log is changed')
            answer = got, made(stage, f'{out}{at}')
            if answers.setdefault(line, answer) != answer:
                raise Failed('it is another answer')


def test_a_store_at_rest(stage: Stage) -> None:
    """A store that no command uses stays as it is, and its log empty; or there is none."""
    store_of(stage, draw_registry(*DRAWN))
    check_unchanged(stage, 'a.db')
    os.remove(stage.at('a.db-wal'))
    check_unchanged(stage, 'a.db', 'again')


def put_stopped(stage: Stage) -> None:
    """What a stopped command leaves of a store: all that was taken is in its log."""
    body = full_of(draw_registry(*DRAWN))
    stage.write('listed.csv', manifest([(HEADER, body)]))
    stage.write('apex', (SOA + NS).encode())
    run(stage, 'init --store a.db --manifest listed.csv')
    child, port = serve(stage, 'a.db', 2)
    response_to(port, put('1', body))
    copy(stage.at('a.db'), stage.at('stopped.db'))
    child.kill()
    child.wait()
    if len(read(stage.at('stopped.db-wal'))) <= EMPTY_LOG:
        raise Failed('nothing is in the log')


def test_after_a_stopped_command(stage: Stage) -> None:
    """What a stopped command wrote is in the log alone: it is read there, and stays there."""
    put_stopped(stage)
    check_unchanged(stage, 'stopped.db')


def test_beside_a_desk(stage: Stage) -> None:
    """Beside a desk that has the store each reader is `S1`, and changes nothing."""
    store_of(stage, draw_registry(*DRAWN))
    child, _ = serve(stage, 'a.db', 1)
    before, names = contents(stage.at('a.db')), names_in(stage.room.name)
    for line in READERS:
        stage.check(line, Wanted(3, '', 'S1\n'), program='handover')
        if contents(stage.at('a.db')) != before or names_in(stage.room.name) != names:
            raise Failed(f'{line}: a file is changed or made')
    child.kill()
    child.wait()
    check_unchanged(stage, 'a.db')

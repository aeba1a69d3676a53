"""What desks over files that fail are told, and what they must answer: for the modules whose files
fail, and those that ask over HTTP."""
import re
from collections.abc import Callable
from collections.abc import Iterable
from collections.abc import Sequence

from tests.support.harness import Harness
from tests.support.stage import Failed
from tests.support.stage import Stage
from tests.support.stage import case
from tests.support.stage import difference
from tests.support.steps import Bodies
from tests.support.steps import FirstScript
from tests.support.steps import Manifest

# By what the rows are in order of each table that stores of both versions have.
FIRST_TABLES = {
    'listed': 'row',
    'receipt': 'receipt',
    'held': 'row',
    'step': 'pos',
    'object': 'kind, key',
    'undo': 'pos, kind, key'
}
# Those and the others that a store of this version has.
TABLES = {'info': 'id'} | FIRST_TABLES | {'parked': 'digest', 'moment': 'id'}
NOON = '2024-03-04T12:00:00Z'
# The files of a desk, as a harness is told of them, and their names.
FILES = {'log': 'log', 'database': 'database file'}
# More calls of a file than there are.
MOST_CALLS = 5_000


def put_files(stage: Stage, **listed: Sequence[str]) -> None:
    """The bodies that arrive, each in a file of its name, and manifests, each with the bodies that
    it lists."""
    Bodies(('F1', 'D2', 'D2Resent', 'D3', 'F5', 'Abc', 'Empty')).do(stage)
    for name, names in listed.items():
        Manifest(f'{name}.csv', names).do(stage)


def put_first_store(stage: Stage, lost: Iterable[tuple[str, str]]) -> None:
    """The statements that make a store of version 1, which lists F1, took it as number 1, and then
    gave A2 to bodies, each under its number."""
    Manifest('early.csv', ('F1',)).do(stage)
    FirstScript('first.sql', 'early.csv', (('1', 'F1'), *lost)).do(stage)


def query(table: str) -> str:
    """The line that asks for all rows of a table, where no desk is open."""
    return f'query SELECT * FROM {table} ORDER BY {TABLES[table]}'


def compare_any(line: str, got: str, *wanted: str) -> str:
    """What came of a line, which must be one of these."""
    if got not in wanted:
        found = [
            it for at, one in enumerate(wanted)
            for it in difference('or' if at else 'answer', one, got.encode())
        ]
        raise Failed('\n'.join([f'> {line}', *found]))
    return got


def check(desk: Harness, line: str, *wanted: str) -> str:
    """The answer to a line, without the work of an event. It must be one of these."""
    return compare_any(line, re.sub('; cleared .*', '', desk.ask(line)), *wanted)


def is_answered(desk: Harness, line: str, wanted: str) -> bool:
    """Whether a line has this answer: a file that fails refuses it by `S1` alone."""
    return check(desk, line, wanted, 'S1\n') == wanted


def is_open(desk: Harness, make: str = 'create listed.csv', made: str = 'created\n') -> bool:
    """Opens a store, which is made or migrated where there is none of this version. Whether it is
    open: `S1` alone refuses it."""
    answer = check(desk, 'open', 'opened\n', 'S1\n', 'S3\n')
    if answer == 'S3\n':
        answer = check(desk, make, made, 'S1\n')
    return answer != 'S1\n'


def over_calls(file: str, play: Callable[[int], bool]) -> None:
    """Plays with the next call of a file, one after the other, which fails, up to a time that there
    is none: then `play` is false."""
    for calls in range(MOST_CALLS):
        with case(f'the {FILES[file]} fails after {calls} calls'):
            if not play(calls):
                break
    if calls in (0, MOST_CALLS - 1):
        raise Failed(f'{calls} calls of the {FILES[file]} failed')


def run_line(events: Sequence[str]) -> str:
    """Events that come in one run, as a failure shows them."""
    return f'run {len(events)}: {", ".join(events)}'


def run(desk: Harness, events: Sequence[str]) -> str:
    *told, last = f'run {len(events)}', *events
    for line in told:
        desk.tell(line)
    return desk.ask(last)

"""A stop at each call of a file, and the store opened again.

For every k, the log or the database file fails each call past the k-th, while a store is made and
takes bodies or other events, or while one of version 1 is migrated, up to what is first refused.
What a crash then leaves is opened again: all that was written, or what was synced alone. The desk
stands for what was answered, or for that and what was refused. All that was refused comes again,
and in the end the desk has what one has that nothing happened to."""
import functools
from collections.abc import Callable
from collections.abc import Mapping
from collections.abc import Sequence
from typing import NamedTuple

from tests.support.bodies import bytes_of
from tests.support.bodies import manifest_text
from tests.support.events import FILES
from tests.support.events import FIRST_TABLES
from tests.support.events import NOON
from tests.support.events import check
from tests.support.events import compare_any
from tests.support.events import is_answered
from tests.support.events import over_calls
from tests.support.events import put_files
from tests.support.events import put_first_store
from tests.support.events import query
from tests.support.events import run
from tests.support.events import run_line
from tests.support.first_store import Values
from tests.support.first_store import first_rows
from tests.support.first_store import undo_of
from tests.support.harness import Harness
from tests.support.model import Desk
from tests.support.stage import Failed
from tests.support.stage import Stage
from tests.support.stage import case
from tests.support.stage import text_of
from tests.support.telling import answer
from tests.support.telling import rows_told
from tests.support.telling import state

def check_stops(stage: Stage, file: str, play: Callable[[Harness, str, str], bool]) -> None:
    """Plays with a stop after no call of a file, after one, and so on up to a run that nothing
    stops. A crash leaves all that was written, or what was synced alone."""
    def is_stopped(calls: int) -> bool:
        is_whole = []
        for left in ('written', 'synced'):
            with case(f'what was {left} is left'), Harness(stage) as desk:
                is_whole.append(play(desk, f'stop {file} {calls}', f'crash {left}'))
        return not all(is_whole)

    over_calls(file, is_stopped)


class Events(NamedTuple):
    """Bodies that a manifest lists, those that an amendment lists, and the lines of what happens to
    a desk that lists the first ones."""
    first: tuple
    amended: tuple
    lines: tuple

    def model_after(self, stage: Stage, count: int) -> tuple[Desk, list[str]]:
        model = Desk(manifest_text(self.first).encode())
        return model, [answer(stage, model, it).text for it in self.lines[:count]]


def state_in(desk: Harness, *wanted: Desk) -> int:
    """What the desk has, which must be what one of these models has. Gives which."""
    states = [''.join(state(it).values()) for it in wanted]
    return states.index(
        compare_any('all that it has', ''.join(map(desk.ask, state(wanted[0]))), *states))


def check_images(desk: Harness, model: Desk) -> None:
    """What stood before each step of the chain, in the end."""
    check(desk, 'close', '')
    check(desk, query('undo'), rows_told(undo_of(model)))


def count_answered(desk: Harness, lines: Sequence[str], answers: Sequence[str]) -> int | None:
    """Makes a store, and sends the events one by one up to the first that is refused: how many were
    answered, or None where there is no store."""
    if not is_answered(desk, 'create first.csv', 'created\n'):
        return None
    for count, (line, wanted) in enumerate(zip(lines, answers)):
        if compare_any(line, run(desk, [line]), text_of([wanted]), 'S1\n') == 'S1\n':
            return count
    return len(lines)


def over_events(stage: Stage, file: str, events: Events) -> None:
    """Stops a file while a store is made and takes events. What is left stands for those before the
    one that was refused, or for them and that one; where there was no store to begin with it may
    have none, and that is made anew. The others are sent in one run."""
    put_files(stage, first=events.first, amended=events.amended)
    models = [events.model_after(stage, it) for it in range(len(events.lines) + 1)]

    def play(desk: Harness, stop: str, crash: str) -> bool:
        check(desk, stop, '')
        count = count_answered(desk, events.lines, models[-1][1])
        check(desk, crash, '')
        if check(desk, 'open', 'opened\n', *(['S3\n'] if count is None else [])) == 'S3\n':
            check(desk, 'create first.csv', 'created\n')
        done = count or 0
        rest, may_be = events.lines[done:], models[:1] if count is None else models[done:done + 2]
        model, _ = events.model_after(stage, done + state_in(desk, *(it for it, _ in may_be)))
        compare_any(run_line(rest), run(desk, rest),
                    text_of(answer(stage, model, it).text for it in rest))
        state_in(desk, models[-1][0])
        check_images(desk, models[-1][0])
        return count == len(events.lines)

    check_stops(stage, file, play)


# Bodies that arrive, of which the last one takes two steps back.
ARRIVALS = Events(('F1', 'D2', 'D3', 'I4', 'F5', 'D6', 'D2Resent'), (),
                  ('comes 1 F1', 'comes 2 D2', 'comes 3 D3', 'comes 4 D2Resent'))
# D2, `abc` and an empty body are parked. The amendment lists D2, which is held from then on, and
# `abc`, from which no deposit reads, so that it is dropped; the empty body stays parked. A moment
# between D2 and D3 takes D3's step back, and D2 at resend 1 comes under it.
MIXED = Events(('F1', 'D3', 'D2Resent'), ('F1', 'D2', 'Abc'),
               ('comes 1 F1', 'comes 2 D2', 'comes 3 Abc', 'comes 4 Empty', 'amend amended.csv',
                'comes 5 D3', f'as-of {NOON}', 'comes 6 D2Resent'))


# ---- a store of version 1, which is migrated

# What version 1 did not keep: D2 came as number 2 before its row.
LOST = (('2', 'D2'),)
# What the desk over the migrated store is told then.
AFTER = ('comes 2 D2', 'amend amended.csv')


def check_first_tables(desk: Harness, rows: Mapping[str, Sequence[Values]]) -> None:
    """Compares the rows of the tables that both versions have."""
    for table in FIRST_TABLES:
        check(desk, query(table), rows_told(rows[table]))


def check_migrated(stage: Stage, desk: Harness, model: Desk) -> None:
    """Compares what an open desk tells with the model, and goes on."""
    state_in(desk, model)
    for line in AFTER:
        check(desk, line, f'{answer(stage, model, line).text}\n')
        state_in(desk, model)
    check_images(desk, model)


def over_migration(stage: Stage, file: str, before: Sequence[str] = ()) -> None:
    """Stops a file while a store is migrated, which both is still of version 1 and is migrated
    after some stop. These lines come before. What is left has the same rows as ever, is migrated or
    opened, and goes on."""
    put_files(stage, amended=('F1', 'D2'))
    put_first_store(stage, LOST)
    listed = manifest_text(['F1']).encode()
    arrivals = [(number, bytes_of(name)) for number, name in (('1', 'F1'), *LOST)]
    rows, found = first_rows(listed, arrivals), set()

    def play(desk: Harness, stop: str, crash: str) -> bool:
        for line in ('script first.sql', *before, stop):
            check(desk, line, '')
        is_migrated = is_answered(desk, 'migrate', 'migrated\n')
        check(desk, crash, '')
        check_first_tables(desk, rows)
        again = check(desk, 'migrate', 'S3\n', *([] if is_migrated else ['migrated\n']))
        found.add(again == 'migrated\n')
        if again != 'migrated\n':
            check(desk, 'open', 'opened\n')
        check(desk, 'close', '')
        check_first_tables(desk, rows)
        check(desk, 'open', 'opened\n')
        check_migrated(stage, desk, Desk(listed, early=arrivals))
        return is_migrated

    check_stops(stage, file, play)
    if len(found) != 2:
        each = 'of version 1' if found == {True} else 'migrated'
        raise Failed(f'every store that was left is {each}')


# What is stopped, and the files whose calls are.
PLAYS = (
    ('bodies arrive', functools.partial(over_events, events=ARRIVALS), FILES),
    ('bodies arrive, a manifest is amended and a moment is set',
     functools.partial(over_events, events=MIXED), FILES),
    ('a store of version 1 that lies in it is migrated', over_migration, ['log']),
    ('a store of version 1 that lies in the log is migrated', over_migration, ['database']),
    ('a store of version 1 that was closed is migrated',
     functools.partial(over_migration, before=['reopen']), FILES),
)
CASES = {f'The {FILES[file]} stops at each call, while {when}': functools.partial(play, file=file)
         for when, play, files in PLAYS for file in files}

"""Lists of events, with each call of a file failing once: while a store is made or migrated and
takes the list, and while one that took it is opened and takes it again.

An event is answered or refused by `S1`; a run goes on after one that was refused, so the others are
answered, unless the files have to be opened again. Once the list is sent again the answers and all
rows of the store are those of the plain model, which took the answered events and then the list.
Where it is open whether a change was kept, as after a sync that failed, the desk refuses until its
files are opened again, and the event of that change may have been taken in. How often the files
have to be opened again is known of each list."""
import functools
import re
from collections.abc import Callable
from collections.abc import Sequence
from typing import NamedTuple

from tests.support.bodies import bytes_of
from tests.support.bodies import manifest_text
from tests.support.events import FILES
from tests.support.events import NOON
from tests.support.events import TABLES
from tests.support.events import check
from tests.support.events import is_open
from tests.support.events import over_calls
from tests.support.events import put_files
from tests.support.events import put_first_store
from tests.support.events import query
from tests.support.events import run
from tests.support.events import run_line
from tests.support.first_store import rows_of
from tests.support.harness import Harness
from tests.support.model import Desk
from tests.support.stage import Failed
from tests.support.stage import Stage
from tests.support.stage import case
from tests.support.stage import compare
from tests.support.stage import text_of
from tests.support.telling import answer
from tests.support.telling import rows_told

# Two answers to a run, and what a desk then has, as queries tell it.
Outcome = tuple[str, str | None, str]
# How many pages the log may have where a call of a file fails, so that it is never copied into the
# database file, or before each commit; and how many that were read are kept.
ROOMS = {'log': '1000 2000', 'database': '1 2000'}
# Version 1 listed F1, took it as number 1, and answered A2 to these.
LOST = (('2', 'D2'), ('3', 'Abc'))


class List(NamedTuple):
    """The lines before a store is made, the line that makes it, its answer, the bodies that it
    lists, and the events. Each of these changes a store that has not seen it."""
    before: tuple[str, ...]
    make: str
    made: str
    first: tuple[str, ...]
    events: tuple[str, ...]

    def model(self) -> Desk:
        early = (('1', 'F1'), *LOST) if self.before else ()
        return Desk(
            manifest_text(self.first).encode(),
            early=[(number, bytes_of(name)) for number, name in early])


# The first manifest lists F1, D3 and D2 at resend 1, so D2 and `abc` are parked. The amendment
# lists D2, which is held from then on; `abc` stays parked. A moment between D2 and D3 takes D3's
# step back. D2 at resend 1 comes under it, and D3 stands on that once the moment is taken back.
WORKED = List((), 'create first.csv', 'created\n', ('F1', 'D3', 'D2Resent'),
              ('comes 1 F1', 'comes 2 D2', 'comes 3 Abc', 'amend second.csv', 'comes 4 D3',
               f'as-of {NOON}', 'comes 5 D2Resent', 'as-of latest'))
# Moves of the chain: two steps of one key back and two forward, of which one deletes a key; all is
# cleared, and made again; and all is cleared, and a first step made of four objects.
MOVED = List((), 'create moved.csv', 'created\n', ('F1', 'D2', 'D3', 'D2Resent', 'F5'),
             ('comes 1 F1', 'comes 2 D2', 'comes 3 D3', 'comes 4 D2Resent',
              'as-of 2024-03-01T00:00:00Z', 'as-of latest', 'comes 5 F5'))
# Of what was lost `abc` comes again before its row, and D2 after it.
AGAIN = ('comes 3 Abc', 'amend third.csv', 'comes 4 D3', 'comes 2 D2')
MIGRATED = List(('script first.sql',), 'migrate', 'migrated\n', ('F1',), AGAIN)
# The same, where the store of version 1 lies in the database file.
CLOSED = List(('script first.sql', 'reopen'), 'migrate', 'migrated\n', ('F1',), AGAIN)


def send(desk: Harness, events: Sequence[str]) -> str:
    """What comes of events in one run: an answer to each, or `S1`."""
    came = run(desk, events)
    if not re.fullmatch(
            len(events) * r'(?:[0-9]+,[0-9]+,A[1-5],.*|added [0-9]+|as of .*|S1)\n', came):
        raise Failed(f'> {run_line(events)}\n  answer: {came!r}')
    return came


def has_lost(came: str) -> bool:
    return 'S1' in came.splitlines()


def send_soundly(desk: Harness, told: List) -> str:
    """Opens the files, of which no call fails any more, and gives what comes of the list."""
    check(desk, 'crash written', '')
    if not is_open(desk, told.make, told.made):
        raise Failed('> open\n  S1 of sound files')
    came = send(desk, told.events)
    if has_lost(came):
        raise Failed(f'> {run_line(told.events)}\n  S1 of sound files: {came!r}')
    return came


def send_twice(desk: Harness, told: List) -> tuple[Outcome, bool, bool]:
    """Sends a list over files of which one call fails, and sends it again: to the same desk, where
    that refused an event; or else, and where it refuses again, to the one of the files that are
    opened again. Where the store is refused it is tried once more, and then the files are opened
    again. Gives what comes of it (a line for each event, the same once it is sent again, and then
    all rows of the store), whether the files had to be opened again, and whether the call came."""
    again = None
    if is_open(desk, told.make, told.made) or is_open(desk, told.make, told.made):
        came = send(desk, told.events)
        if has_lost(came):
            again = send(desk, told.events)
    else:
        came = send_soundly(desk, told)
    has_failed = has_lost(came) or check(desk, 'failed', 'true\n', 'false\n') == 'true\n'
    is_reopened = again is not None and has_lost(again)
    if again is None or is_reopened:
        again = send_soundly(desk, told)
    check(desk, 'crash written', '')
    rows = ''.join(f'> {it}\n{desk.ask(it)}' for it in map(query, TABLES))
    return (came, again, rows), is_reopened, has_failed


def undisturbed(stage: Stage, told: List, is_again: bool, answered: tuple[bool, ...],
                is_kept: bool) -> Outcome:
    """What comes of the answered events, and then of the list, where nothing happens: the line of
    an event that was not answered is S1. Where the first of these was kept all the same it comes,
    too."""
    model, kept = told.model(), answered.index(False) if is_kept else None
    for line in told.events if is_again else ():
        answer(stage, model, line)
    came = [
        answer(stage, model, line).text if it or at == kept else ''
        for at, (line, it) in enumerate(zip(told.events, answered))
    ]
    again = text_of(answer(stage, model, line).text for line in told.events)
    rows = rows_of(model)
    return (text_of(line if it else 'S1' for line, it in zip(came, answered)), again,
            ''.join(f'> {query(it)}\n{rows_told(rows[it])}' for it in TABLES))


def check_call(stage: Stage, told: List, file: str, is_again: bool,
               wanted_of: Callable[..., Outcome], calls: int) -> tuple[bool, bool]:
    """Compares what comes of a list where the call after so many others fails. Where the files had
    to be opened again that may be what comes of the answered events and the first of the others.
    Gives whether they had to be, and whether the call came."""
    with Harness(stage) as desk:
        # The list finds nothing, a store that is to be migrated, or one that took it.
        for line in told.before:
            check(desk, line, '')
        if is_again:
            send_soundly(desk, told)
        check(desk, f'room {ROOMS[file]}', '')
        check(desk, f'fail {file} {calls}', '')
        taken, is_reopened, has_failed = send_twice(desk, told)
    answered = tuple(it != 'S1' for it in taken[0].splitlines())
    if answered.count(False) > 1 and not is_reopened:
        raise Failed(f'{answered.count(False)} events were refused')
    wanted = wanted_of(answered, False)
    if is_reopened and wanted != taken:
        wanted = wanted_of(answered, True)
    for what, want, came in zip(('answer', 'answer when sent again', 'rows in the end'), wanted,
                                taken):
        with case(f'> {run_line(told.events)}'):
            compare(what, want, came)
    return is_reopened, has_failed


def check_calls(stage: Stage, told: List, file: str, is_again: bool,
                reopened: Sequence[bool]) -> None:
    """Each call, up to a run of which none fails. After so many of them the files have to be opened
    again."""
    put_files(stage, first=WORKED.first, second=('F1', 'D2'), third=('F1', 'D2', 'D3'),
              moved=MOVED.first)
    put_first_store(stage, LOST)
    ends, wanted_of = [], functools.cache(functools.partial(undisturbed, stage, told, is_again))

    def play(calls: int) -> bool:
        is_reopened, has_failed = check_call(stage, told, file, is_again, wanted_of, calls)
        ends.append(is_reopened)
        return has_failed

    over_calls(file, play)
    if sum(ends) != reopened:
        raise Failed(
            f'the files had to be opened again after {sum(ends)} calls of the {file}: wanted '
            f'{reopened}'
        )


# When a call fails: the list, whether it is sent again, and after how many calls of each file the
# files have to be opened again.
PHASES = (
    # Each of the eight events is a commit. Of each commit it is open after two syncs, and the write
    # between them. Before each of them the log is emptied, after a sync of the database file.
    ('a store is made and takes a list', WORKED, False, {'log': 24, 'database': 8}),
    # Of a list that was taken in two events are commits: the moment is set, and taken back.
    ('a store is opened and takes its list again', WORKED, True, {'log': 6, 'database': 2}),
    # Each of the seven events is a commit.
    ('the chain is moved back and forward, and cleared', MOVED, False, {'log': 21, 'database': 7}),
    # Each of the four events is a commit. Where the migration is open, that is found as the store
    # is made.
    ('a store of version 1 that lies in it is migrated and takes a list', MIGRATED, False,
     {'log': 12}),
    ('a store of version 1 that lies in the log is migrated and takes a list', MIGRATED, False,
     {'database': 4}),
    # No event of a list that was taken in changes a migrated store.
    ('a store that was migrated from the log is opened and takes its list again', MIGRATED, True,
     {'log': 0}),
    # The same, where the store of version 1 was closed, so that it lies in the database file.
    ('a store of version 1 that was closed is migrated and takes a list', CLOSED, False,
     {'log': 12, 'database': 4}),
    ('a store that was closed and migrated is opened and takes its list again', CLOSED, True,
     {'log': 0}),
)
CASES = {f'Each call of the {FILES[file]} fails once, while {when}':
         functools.partial(check_calls, told=told, file=file, is_again=is_again, reopened=count)
         for when, told, is_again, counts in PHASES for file, count in counts.items()}

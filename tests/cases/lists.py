"""Random lists of events over desks, against the plain model: each answer, and the whole state
whenever the store is closed.

Some desks are given the events one by one, others all of them in one call. Some stores are of
version 1: each is migrated, and then the events come, many of them arrivals that version 1
answered."""
import contextlib
import functools
from collections.abc import Callable
from collections.abc import Sequence

from tests.support.first_store import first_rows
from tests.support.first_store import first_script
from tests.support.formats import Refused
from tests.support.formats import manifest
from tests.support.harness import Harness
from tests.support.model import Desk
from tests.support.reports import report
from tests.support.stage import Stage
from tests.support.stage import case
from tests.support.stage import text_of
from tests.support.telling import answer
from tests.support.telling import state
from tests.support.universe import Chance
from tests.support.universe import History
from tests.support.universe import draw_arrival
from tests.support.universe import draw_event
from tests.support.universe import draw_first
from tests.support.universe import draw_history
from tests.support.universe import drawn
from tests.support.universe import manifest_text

# How many lists a case plays, each of a seed.
LISTS = 25
# How many events a list has that is played one by one, that is played in one call, or that follows
# a migration.
EVENTS, RUN_EVENTS, LATER_EVENTS = 18, 24, 16


def draw_migrated(chance: Chance, closes: bool) -> History:
    """A list after a migration. In one of three cases an event is an early one
    again."""
    bodies, rows = drawn(chance)
    # Rows that make a manifest: one that is listed first, and some more.
    listed = [draw_first(chance, rows)]
    for _ in range(chance.below(6)):
        row = chance.low_one_of(rows)
        with contextlib.suppress(Refused):
            manifest(manifest_text([*listed, row]))
            listed.append(row)
    history = History(bodies, listed)
    for _ in range(chance.below(8) + 3):
        history.early.append(draw_arrival(chance, bodies, history.early))
    for _ in range(LATER_EVENTS):
        again = chance.is_one_in(3)
        history.events.append(chance.one_of(history.early) if again else
                              draw_event(chance, bodies, rows, history, closes))
    return history


class Play:
    """A desk that plays a list, and the model."""

    def __init__(self, stage: Stage, desk: Harness, history: History) -> None:
        self.stage, self.desk = stage, desk
        for name, content in history.files.items():
            stage.write(name, content)
        arrivals = [(number, history.files[body])
                    for _, number, body in map(str.split, history.early)]
        self.model = Desk(history.files['first.csv'], early=arrivals)
        if arrivals:
            stage.write('first.sql',
                        first_script(first_rows(history.files['first.csv'], arrivals)).encode())
            desk.check('script first.sql', '')
            desk.check('migrate', 'migrated\n')
        else:
            desk.check('create first.csv', 'created\n')

    def check_state(self) -> None:
        for question, wanted in state(self.model).items():
            self.desk.check(question, wanted)

    def one_by_one(self, lines: Sequence[str]) -> None:
        for line in lines:
            if line == 'close':
                self.check_state()
                self.desk.check(line, '')
                self.desk.check('open', 'opened\n')
                self.check_state()
            else:
                self.desk.check(line, answer(self.stage, self.model, line).whole())
                self.desk.check('parked', report('parked', self.model.parked_rows()))
        self.check_state()

    def in_one_call(self, lines: Sequence[str]) -> None:
        answers = [answer(self.stage, self.model, it) for it in lines]
        self.desk.check(f'run {len(lines)}', text_of(it.text for it in answers), *lines)
        self.desk.check('writes', text_of([sum(it.writes for it in answers)]))
        self.check_state()


def play_all(stage: Stage, play: Callable[['Play', Sequence[str]], None],
             draw: Callable[..., History], first: int) -> None:
    """Plays the lists of some seeds, each over a desk of its own."""
    for seed in range(first, first + LISTS):
        history = draw(Chance.of_seed(seed), closes=play == Play.one_by_one)
        with case(f'the list of seed {seed}:\n{history.shown()}'), Harness(stage) as desk:
            play(Play(stage, desk, history), history.events)


DRAW, DRAW_RUN = (functools.partial(draw_history, count=count) for count in (EVENTS, RUN_EVENTS))
CASES = {
    title: functools.partial(play_all, play=play, draw=draw, first=first)
    for title, play, draw, first in (
        ('Lists of the first seeds', Play.one_by_one, DRAW, 0),
        ('Lists of the second seeds', Play.one_by_one, DRAW, 100),
        ('Lists of the third seeds', Play.one_by_one, DRAW, 200),
        ('Runs of the first seeds', Play.in_one_call, DRAW_RUN, 1000),
        ('Runs of the second seeds', Play.in_one_call, DRAW_RUN, 1100),
        ('Lists of the first seeds over stores that were migrated', Play.one_by_one, draw_migrated,
         2000),
        ('Lists of the second seeds over stores that were migrated', Play.one_by_one, draw_migrated,
         2100),
        ('Runs over stores that were migrated', Play.in_one_call, draw_migrated, 2200),
    )
}

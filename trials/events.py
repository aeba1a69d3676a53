"""python3 -m trials.events [--examples N] [--harness FILE] [NAME ..]: plays random lists of events
on desks, and looks for one whose answers or state differ from those of the plain model.

The events are those of the tests' lists (tests/cases/lists.py): arrivals, amended manifests,
moments and closes, one by one or in one call, over new stores or over stores that were migrated.
Hypothesis (Debian's package python3-hypothesis) draws N lists (200) of each way, or of those with
these names, and makes one that fails as short as it can, which it then shows. The last line is
`N lists, N events`."""
import collections
import os
from collections.abc import Callable
from typing import NamedTuple

from hypothesis import HealthCheck
from hypothesis import given
from hypothesis import note
from hypothesis import settings
from hypothesis.strategies import DataObject
from hypothesis.strategies import data
from hypothesis.strategies import integers
from tests.cases.lists import Play
from tests.cases.lists import draw_migrated
from tests.support import arguments_of
from tests.support import built
from tests.support import program
from tests.support.harness import Harness
from tests.support.stage import Stage
from tests.support.universe import Chance
from tests.support.universe import History
from tests.support.universe import draw_history

MOST_EVENTS = 24


class Way(NamedTuple):
    """How lists are drawn and played."""
    play: Callable[[Play, list[str]], None]
    is_migrated: bool

    def drawn(self, source: DataObject) -> History:
        chance = Chance(lambda count: source.draw(integers(0, count - 1)))
        closes = self.play == Play.one_by_one
        if self.is_migrated:
            return draw_migrated(chance, closes)
        return draw_history(chance, source.draw(integers(1, MOST_EVENTS)), closes)


WAYS = {
    'lists': Way(Play.one_by_one, False),
    'runs': Way(Play.in_one_call, False),
    'lists-after-migration': Way(Play.one_by_one, True),
    'runs-after-migration': Way(Play.in_one_call, True),
}


def play_lists(way: Way, harness: str, examples: int, counts: collections.Counter[str]) -> None:
    """Plays so many lists, each over a desk of its own."""

    @settings(max_examples=examples, deadline=None, database=None,
              suppress_health_check=list(HealthCheck))
    @given(data())
    def check(source: DataObject) -> None:
        history = way.drawn(source)
        note(history.shown())
        counts['lists'] += 1
        counts['events'] += len(history.early) + len(history.events)
        with Stage({'desk_harness': harness}) as stage, Harness(stage) as desk:
            way.play(Play(stage, desk, history), history.events)

    check()


def main() -> None:
    arguments = arguments_of(__doc__)
    arguments.add_argument('--examples', type=int, default=200, metavar='N')
    arguments.add_argument('--harness', type=program, default=built('desk_harness'), metavar='FILE')
    arguments.add_argument('names', nargs='*', metavar='NAME')
    words, counts = arguments.parse_args(), collections.Counter()
    if others := set(words.names) - set(WAYS):
        arguments.error(f'none of {", ".join(WAYS)}: {", ".join(others)}')
    if not os.access(words.harness, os.X_OK):
        arguments.error(f'there is no program {words.harness}: `./check` builds it')
    for name in words.names or WAYS:
        play_lists(WAYS[name], words.harness, words.examples, counts)
        print(f'{name}: the lists are played', flush=True)
    print(f'{counts["lists"]} lists, {counts["events"]} events')


main()

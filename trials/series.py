"""python3 -m trials.series [--examples N]: unpacks lists of deposits, each with all earlier ones
known, and looks for bundles that no manifest lists beside each other, or that make another registry
than the deposits whole.

A list has a few Fulls, Incrementals, Differentials and resends of small files, of which each is one
bundle or a series (`unpack_rde --described --part-rows`). Some deposits never arrive. What has to
come is asked of the plain model of a desk over the whole deposits. Hypothesis (Debian's package
python3-hypothesis) draws N lists (1,000), and makes one that fails as short as it can. No built
program is needed. The last line is `N lists, N deposits, N series, N refused, N chains`."""
import collections
import tempfile
from collections.abc import Sequence
from typing import NamedTuple

from hypothesis import HealthCheck
from hypothesis import given
from hypothesis import note
from hypothesis import settings
from hypothesis.strategies import SearchStrategy
from hypothesis.strategies import builds
from hypothesis.strategies import integers
from hypothesis.strategies import lists
from hypothesis.strategies import sampled_from
from hypothesis.strategies import tuples
from tests.support import arguments_of
from tests.support.bundles import HEADING
from tests.support.formats import TYPES
from tests.support.formats import Refused
from tests.support.formats import manifest
from tests.support.formats import moment_text
from tests.support.model import Desk
from tests.support.unpacking import Described
from tests.support.unpacking import row_of

DAY = 1_709_424_000_000_000_000
# Moments of some days, and on one of them nanoseconds apart, where the parts of a resend may be.
DAYS = tuple(DAY + at * 86_400_000_000_000 for at in range(-1, 4))
MOMENTS = (*DAYS, *DAYS, *(DAY + at for at in (1, 2, 4_096, 4_097)))
KEYS = ('a', 'b', 'c', 'd', 'e')
# Why a deposit may be refused, beside those that it is refused for whole.
REFUSALS = ('there is no room for', 'one deposit has one place',
            'has its watermark, type and resend', 'has to be based on this Full')


class Drawn(NamedTuple):
    """A deposit: its place and resend, which earlier one it names, of how many rows a bundle may
    be, its objects and deletes, and whether it arrives."""
    moment: int
    type: str
    resend: int
    prev: int
    most: int | None
    keys: list
    gone: list
    arrives: bool

    @property
    def id(self) -> str:
        return f'{self.type[0]}{self.moment - DAY}'.replace('-', '_')

    def header(self, ids: Sequence[str]) -> dict[str, object]:
        told = {
            'id': self.id, 'type': self.type, 'watermark': moment_text(self.moment),
            'resend': self.resend
        }
        if self.type == 'DIFF':
            told['prevId'] = ids[self.prev % len(ids)] if ids else 'X'
        return told

    def files(self, number: int, ids: Sequence[str]) -> tuple[dict[str, object], dict[str, bytes]]:
        """Its description and its files. Its number tells its objects from those of others."""
        table = {
            'name': 'contact', 'kind': 'contact', 'role': 'parent', 'key': 'id',
            'fields': ['id', 'clID'], 'file': 'c.csv'
        }
        deletes = [{**table, 'fields': ['id'], 'file': 'd.csv'}]
        rows = {'c.csv': [f'{it},{number}' for it in self.keys], 'd.csv': self.gone}
        files = {name: ''.join(f'{it}\n' for it in its).encode() for name, its in rows.items()}
        return {**self.header(ids), 'contents': [table], 'deletes': deletes}, files


SOME_KEYS = lists(sampled_from(KEYS), unique=True)


def some(moments: Sequence[int], types: Sequence[str],
         resends: Sequence[int]) -> SearchStrategy[Drawn]:
    arrives = sampled_from((True, True, True, False))
    return builds(Drawn, sampled_from(moments), sampled_from(types), sampled_from(resends),
                  integers(0, 3), sampled_from((None, 1, 2)), SOME_KEYS, SOME_KEYS, arrives)


# A Full, and what comes after it.
DEPOSITS = tuples(some(DAYS[:1], ['FULL'], [0]),
                  lists(some(MOMENTS, TYPES, (0, 0, 1, 2)), max_size=6))


def listed(bundles: Sequence[bytes]) -> bytes:
    return (HEADING + ''.join(map(row_of, bundles))).encode()


def is_listed(bundles: Sequence[bytes]) -> bool:
    try:
        return manifest(listed(bundles)) is not None
    except Refused:
        return False


def in_order(it: Drawn) -> tuple[int, int, int]:
    """Deposits come in the order of places, and resends after them."""
    return it.resend, it.moment, TYPES.index(it.type)


class Desks:
    """The deposits that were taken, whole and as they were unpacked, and which of them arrived."""

    def __init__(self, folder: str, counts: collections.Counter[str]) -> None:
        self.folder, self.counts = folder, counts
        self.whole, self.parts, self.known, self.ids = [], [], [], []
        self.arrived = [], []

    def unpack(self, it: Drawn, number: int) -> None:
        words = [word for folder in self.known for word in ('--known', folder)]
        words += ['--part-rows', f'{it.most}'] if it.most else []
        made = Described(f'{self.folder}/{number}', *it.files(number, self.ids), words)
        if not is_listed([*self.whole, made.given()]):
            return
        self.counts['deposits'] += 1
        if made.status:
            assert any(why in made.lines[-1] for why in REFUSALS), made.lines
            self.counts['refused'] += 1
        else:
            self.take(it, made)

    def take(self, it: Drawn, made: Described) -> None:
        whole, parts = made.given(), made.bundles()
        note(f'{it} as {[row_of(body)[:60] for body in parts]}')
        self.counts['series'] += len(parts) > 1
        self.known.append(made.out)
        self.ids.append(it.id)
        self.whole.append(whole)
        self.parts += parts
        if it.arrives:
            self.arrived[0].append(whole)
            self.arrived[1].extend(parts)

    def check(self) -> None:
        """The bundles can be listed, and make what the deposits make."""
        assert is_listed(self.parts), 'no manifest lists the bundles'
        whole, parts = (Desk(listed(its), [(f'n{at}', it) for at, it in enumerate(arrived)])
                        for its, arrived in zip((self.whole, self.parts), self.arrived))
        note('\n'.join([*whole.gap_rows(), '--', *parts.gap_rows()]))
        self.counts['chains'] += len(whole.steps) > 1
        assert parts.objects == whole.objects, 'the bundles make another registry'


def main() -> None:
    arguments = arguments_of(__doc__)
    arguments.add_argument('--examples', type=int, default=1_000, metavar='N')
    words, counts = arguments.parse_args(), collections.Counter()

    @settings(max_examples=words.examples, deadline=None, database=None,
              suppress_health_check=list(HealthCheck))
    @given(DEPOSITS)
    def check(deposits: tuple[Drawn, list[Drawn]]) -> None:
        counts['lists'] += 1
        with tempfile.TemporaryDirectory(prefix='case-') as folder:
            desks = Desks(folder, counts)
            first, others = deposits
            for number, it in enumerate([first, *sorted(others, key=in_order)]):
                desks.unpack(it, number)
            desks.check()

    check()
    names = ('lists', 'deposits', 'series', 'refused', 'chains')
    print(', '.join(f'{counts[it]} {it}' for it in names))


main()

"""A plain model of a desk, by the words of docs/DEFINITIONS.md alone (formats.py reads the bytes).

It keeps the rows that are listed and all bodies that came, and makes anew of them what is held, the
chain and the objects."""
import hashlib
from collections.abc import Iterable
from collections.abc import Iterator
from typing import NamedTuple

from tests.support import formats
from tests.support.formats import Deposit
from tests.support.formats import Named
from tests.support.formats import Place
from tests.support.formats import Refused
from tests.support.formats import held_in
from tests.support.formats import in_order
from tests.support.formats import moment_text
from tests.support.formats import place_text
from tests.support.formats import verdict


class Receipt(NamedTuple):
    """What is answered to an arrival: the receipt's number, the verdict and fault, and the row that
    lists the body, or None; for A1 alone whether that row has such a receipt before, and the
    orphans."""
    receipt: int
    number: str
    digest: str
    verdict: str
    fault: str = ''
    row: int | None = None
    again: int | None = None
    orphans: int | None = None


class Gap(NamedTuple):
    """The line of a listed place: its state, the resend that is held, what blocks it, and the
    resend that is awaited."""
    place: Place
    state: str
    resend: int | None
    blocker: str | None
    awaited: int | None


class Desk:
    """What a desk keeps of manifests, of arrivals and of a moment, in nanoseconds; early ones are
    those that version 1 took, which kept no body that no row listed, and answered A2. What it
    holds, its chain and its objects may be changed, as those of a file that goes bad."""

    def __init__(self, manifest: bytes, arrivals: Iterable[tuple[str, bytes]] = (),
                 moment: int | None = None, early: Iterable[tuple[str, bytes]] = ()) -> None:
        self.listed, self.moment = formats.manifest(manifest), moment
        self.receipts: dict[tuple[str, str], Receipt] = {}
        self.kept: dict[str, bytes] = {}
        for number, body in early:
            self.arrive(number, body, is_early=True)
        for number, body in arrivals:
            self.arrive(number, body)
        self.settle()

    def arrive(self, number: str, body: bytes, is_early: bool = False) -> Receipt:
        """The receipt of an arrival, which is that of the first one like it. What is held then is
        left to `settle`."""
        digest = hashlib.sha256(body).hexdigest()
        row = next((at for at, it in enumerate(self.listed) if it[4] == digest), None)
        if row is not None or not is_early:
            self.kept[digest] = body
        if (number, digest) not in self.receipts:
            told = len(self.receipts) + 1, number, digest
            self.receipts[number, digest] = Receipt(
                *told, 'A2' if is_early else 'A5') if row is None else self.receipt(
                    told, row, body)
        return self.receipts[number, digest]

    def receipt(self, told: tuple[int, str, str], row: int, body: bytes) -> Receipt:
        """That of a body that a row lists."""
        found, fault = verdict(body, self.listed[row])
        if found != 'A1':
            return Receipt(*told, found, fault, row)
        again = int(any(it.verdict == 'A1' and it.row == row for it in self.receipts.values()))
        return Receipt(*told, found, '', row, again, held_in(body).orphans)

    def amend(self, manifest: bytes) -> int:
        """Lists the rows of a manifest that are not listed yet. It is refused for a fault of its
        own, or for one against a row that is listed: then by its least row with that."""
        more = formats.manifest(manifest)
        new = [it for it in more if it not in self.listed]
        if fault := formats.fault_among([*self.listed, *new]):
            raise Refused(fault[0], next(at for at, row in enumerate(more, 1) if row in new and any(
                (formats.fault_among([it, row]) or [0])[0] == fault[0] for it in self.listed)))
        self.listed += new
        return len(new)

    def settle(self) -> None:
        """Makes anew what is held, the chain and the objects."""
        self.held = {at: self.kept[it[4]] for at, it in enumerate(self.listed)
                     if it[4] in self.kept and verdict(self.kept[it[4]], it)[0] == 'A1'}
        self.steps = self.latest_chain()
        self.objects = made_by(held_in(self.held[it]) for it in self.steps)

    @property
    def parked(self) -> list[str]:
        """The digests of the bodies that no row lists, in order."""
        return sorted(self.kept.keys() - {it[4] for it in self.listed})

    # ---- chains

    def place(self, row: int) -> Place:
        return self.listed[row][1]

    def used(self, place: Place | None) -> int | None:
        """The held row of a place with the greatest resend."""
        return max((at for at in self.held if self.place(at) == place),
                   key=lambda at: self.listed[at][3], default=None)

    def base(self, row: int) -> Place | None:
        """The place that a row builds on: none for a Full, or where none is listed."""
        _, place, prev, _, _ = self.listed[row]
        if place[1] == 'INCR':
            fulls = [it[1] for it in self.listed if it[1][1] == 'FULL' and it[1][0] < place[0]]
            return max(fulls, key=in_order, default=None)
        return next((it[1] for it in self.listed if it[0] == prev and place[1] == 'DIFF'), None)

    def chain_to(self, row: int) -> list[int] | None:
        """The chain that ends with a used row, or none."""
        chain = [row]
        while self.place(chain[0])[1] != 'FULL':
            before = self.used(self.base(chain[0]))
            if before is None:
                return None
            chain.insert(0, before)
        return chain

    def latest_chain(self) -> list[int]:
        """The chain whose end is the greatest place, of those up to the moment."""
        for place in sorted({self.place(at) for at in self.held}, key=in_order, reverse=True):
            if (self.moment is None or place[0] <= self.moment) and (chain := self.chain_to(
                    self.used(place))):
                return chain
        return []

    # ---- gaps

    def gaps(self) -> list[Gap]:
        return list(map(self.gap, sorted({it[1] for it in self.listed}, key=in_order)))

    def gap(self, place: Place) -> Gap:
        used = self.used(place)
        held = None if used is None else self.listed[used][3]
        resends = [
            it[3] for at, it in enumerate(self.listed) if it[1] == place and at not in self.held
        ]
        awaited = max((it for it in resends if held is None or it > held), default=None)
        if used is None:
            return Gap(place, 'missing', None, None, awaited)
        if self.chain_to(used) is None:
            return Gap(place, 'blocked', held, self.blocker(used), awaited)
        return Gap(place, 'chain' if used in self.steps else 'standing', held, None, awaited)

    def blocker(self, row: int) -> str:
        """What blocks a row: the first base on the way back that isn't held or isn't listed."""
        base = self.base(row)
        if base is None:
            return 'no earlier FULL' if self.place(
                row)[1] == 'INCR' else f'unlisted {self.listed[row][2]}'
        used = self.used(base)
        return place_text(base) if used is None else self.blocker(used)

    def gap_rows(self) -> Iterator[str]:
        for (watermark, kind), state, resend, blocker, awaited in self.gaps():
            told = moment_text(watermark), kind, resend, state, blocker, awaited
            yield ','.join('' if it is None else f'{it}' for it in told)

    def row_text(self, it: Receipt) -> str:
        listed: tuple[object, object] = ('', '')
        copy: tuple[object, object] = ('', '')
        if it.row is not None:
            listed = self.listed[it.row][0], self.listed[it.row][3]
        if it.verdict == 'A1':
            copy = 'again' if it.again else 'new', it.orphans
        return ','.join(map(str, [it.receipt, it.number, it.verdict, it.fault, *listed, *copy]))

    def receipt_rows(self) -> Iterator[str]:
        return map(self.row_text, self.receipts.values())

    def parked_rows(self) -> Iterator[str]:
        return (f'{it},{len(self.kept[it])}' for it in self.parked)


def made_by(deposits: Iterable[Deposit]) -> dict[Named, bytes]:
    """The records of the objects that deposits make, one after the other."""
    made: dict[Named, bytes | None] = {}
    for it in deposits:
        made |= it.says
    return {key: record for key, record in made.items() if record is not None}

"""The headers of a series: of a deposit that is given as several bundles, each of which builds on
the one before.

The last one has the deposit's own id and watermark, so that what builds on the deposit builds on
the whole of it. Those before it have the deposit's type (the first one) or are Differentials, have
its id with their number behind it, and come a nanosecond after each other. A resend has places of
its own, so that nothing of an earlier revision is between its bundles."""
import json
import os
from collections.abc import Iterable
from collections.abc import Iterator
from datetime import datetime
from datetime import timedelta
from enum import Enum
from typing import NamedTuple

from faults import Refusal
from limits import MOST_ID
from limits import MOST_PARTS
from writing import DESCRIPTION

EPOCH = datetime(1970, 1, 1)
SECOND = 1_000_000_000
# The member of a header by which an Incremental is known that is given as a Differential.
INCREMENTAL = 'incremental'
Header = dict[str, object]


class DepositType(str, Enum):
    """The type of a deposit, by its word (RFC 8909 section 5.1)."""
    FULL = 'FULL'
    INCREMENTAL = 'INCR'
    DIFFERENTIAL = 'DIFF'

    __str__ = str.__str__


TYPES = tuple(it.value for it in DepositType)


def nanoseconds(watermark: str) -> int:
    """A watermark of the desk's form as a number."""
    seconds, _, fraction = watermark.removesuffix('Z').partition('.')
    return (datetime.fromisoformat(seconds) - EPOCH) // timedelta(seconds=1) * SECOND + int(
        fraction.ljust(9, '0'))


def watermark_text(moment: int) -> str:
    seconds, fraction = divmod(moment, SECOND)
    point = f'.{fraction:09}'.rstrip('0') if fraction else ''
    return f'{EPOCH + timedelta(seconds=seconds):%Y-%m-%dT%H:%M:%S}{point}Z'


class Place(NamedTuple):
    """Where a bundle stands among others."""
    moment: int
    type: DepositType


class Known(NamedTuple):
    """A deposit that was unpacked before: in one folder, or in parts."""
    id: str
    type: DepositType
    moment: int
    resend: int
    prev: str | None
    is_incremental: bool
    folder: str
    folders: list[str]
    places: list[Place]

    @property
    def is_series(self) -> bool:
        return len(self.folders) > 1

    @property
    def own_type(self) -> DepositType:
        """Its type before it was given as another."""
        return DepositType.INCREMENTAL if self.is_incremental else self.type


def is_folder(path: str) -> bool:
    return os.path.exists(os.path.join(path, DESCRIPTION))


def known_in(folder: str) -> Known:
    """The deposit in a folder that was written before."""
    parts = [
        os.path.join(folder, it) for it in sorted(os.listdir(folder)) if it.startswith('part-')
    ] if os.path.isdir(folder) else []
    folders = [folder] if is_folder(folder) else [it for it in parts if is_folder(it)]
    if not folders:
        raise Refusal(folder, f'it has no {DESCRIPTION}')
    try:
        return known_of(folder, folders, [header_in(it) for it in folders])
    except (ValueError, KeyError, TypeError, AttributeError):
        raise Refusal(folder, f'its {DESCRIPTION} is none that unpack_rde wrote') from None


def known_of(folder: str, folders: list[str], headers: list[Header]) -> Known:
    """The deposit in these folders, by their headers."""
    if folders != [folder]:
        check_parts(folder, headers)
    first, last = headers[0], headers[-1]
    places = [Place(nanoseconds(it['watermark']), DepositType(it['type'])) for it in headers]
    return Known(last['id'], places[0].type, nanoseconds(last['watermark']),
                 last.get('resend') or 0, first.get('prevId'),
                 places[0].type is DepositType.INCREMENTAL or INCREMENTAL in first, folder, folders,
                 places)


def check_parts(folder: str, headers: list[Header]) -> None:
    """Refuses parts that are not all those of one deposit."""
    own, of = headers[-1]['id'], len(headers)
    for part, header in enumerate(headers, 1):
        if header.get('series') != {'deposit': own, 'part': part, 'of': of}:
            raise Refusal(
                folder, f'in the place of part {part} of {of} of {own} it has {header["id"]}')


def header_in(folder: str) -> Header:
    with open(os.path.join(folder, DESCRIPTION), encoding='utf-8') as file:
        return json.load(file)


def in_order(known: Iterable[Known]) -> list[Known]:
    """From the earliest to the latest."""
    return sorted(known, key=lambda it: (it.moment, it.resend))


class Series:
    """The headers of the bundles of a deposit, by its own header and by what is known of earlier
    ones."""

    def __init__(self, path: str, header: Header, known: list[Known]) -> None:
        self.path, self.header, self.known = path, header, known
        self.id, self.type = str(header['id']), DepositType(header['type'])
        self.moment = nanoseconds(str(header['watermark']))
        self.resend = int(header.get('resend', 0))

    def refused(self, what: str) -> Refusal:
        return Refusal(self.path, what)

    def full(self) -> Known | None:
        """The last known Full before an Incremental."""
        fulls = [it for it in self.known if it.type is DepositType.FULL and it.moment < self.moment]
        return fulls[-1] if fulls else None

    def revisions(self) -> list[Known]:
        """The known revisions of the deposit itself, which may have other ids."""
        own_type = DepositType.INCREMENTAL if INCREMENTAL in self.header else self.type
        return [it for it in self.known if (it.moment, it.own_type) == (self.moment, own_type)]

    def part_id(self, part: int, of: int) -> str:
        if part == of:
            return self.id
        found = f'{self.id}{f".r{self.resend}" if self.resend else ""}.{part}of{of}'
        if len(found) > MOST_ID:
            raise self.refused(
                f'the id of a part of its series is longer than {MOST_ID} characters: {found}')
        return found

    def place(self, part: int, of: int) -> Place:
        # (The places of one revision are below MOST_PARTS nanoseconds.)
        moment = self.moment if part == of else self.moment - self.resend * MOST_PARTS - (of - part)
        if moment < 0:
            raise self.refused(
                'there is no room for the watermarks of its series, which would be before 1970')
        return Place(moment, self.type if part == 1 else DepositType.DIFFERENTIAL)

    def headers(self, of: int) -> Iterator[Header]:
        """The header of each bundle; of one that has the whole deposit, the deposit's own."""
        if of == 1:
            yield self.header
            return
        front = {
            it: value
            for it, value in self.header.items()
            if it not in ('id', 'type', 'watermark', 'prevId', 'resend')
        }
        for part in range(1, of + 1):
            place = self.place(part, of)
            header = {
                'id': self.part_id(part, of), 'type': place.type,
                'watermark': watermark_text(place.moment)
            }
            if part > 1:
                header['prevId'] = self.part_id(part - 1, of)
            elif 'prevId' in self.header:
                header['prevId'] = self.header['prevId']
            if part == of and self.resend:
                header['resend'] = self.resend
            yield {**header, **front, 'series': {'deposit': self.id, 'part': part, 'of': of}}

    def check(self, of: int) -> None:
        """Refuses a deposit whose bundles can't be listed beside those that are known."""
        if of > MOST_PARTS:
            raise self.refused(f'it needs {of} bundles, and a store lists at most {MOST_PARTS}')
        own = [self.place(1, of), self.place(of, of)]
        what, revisions = 'it' if of == 1 else f'its series of {of}', self.revisions()
        for known in self.known:
            if known in revisions:
                self.check_revision(known, own[-1], of)
                continue
            taken = taken_of(known.places, own)
            if taken is not None:
                raise self.refused(
                    f'there is no room for {what}: {known.id} in {known.folder} has the place '
                    f'{watermark_text(taken.moment)} {taken.type}')
            if self.is_base_of(known, of):
                raise self.refused(
                    f'the Incremental {known.id} in {known.folder} has to be based on this Full: '
                    f'unpack this without it, and then {known.id} again with --known of this')

    def is_base_of(self, known: Known, of: int) -> bool:
        """Whether this is the last Full before a known Incremental, which is based on another: by
        its type on the first bundle alone; if it was given as a Differential, on the Full that was
        the last one then."""
        is_after = known.is_incremental and known.moment > self.moment
        if self.type is not DepositType.FULL or not is_after:
            return False
        fulls = {
            it.id: it.moment
            for it in self.known
            if it.type is DepositType.FULL and it.moment < known.moment
        }
        if max(fulls.values(), default=0) > self.moment:
            return False
        if known.type is DepositType.INCREMENTAL:
            return of > 1
        return fulls.get(known.prev, self.moment) < self.moment

    def check_revision(self, known: Known, last: Place, of: int) -> None:
        if known.places[-1] != last:
            before, now = ('a series' if it else 'one bundle' for it in (known.is_series, of > 1))
            if before == now:
                before, now = known.type, self.type
            raise self.refused(
                f'{known.id} in {known.folder} is {before}, and this is {now}: one deposit has one '
                'place. Unpack both with --series, or list the latest revision alone in a new '
                'store')
        if known.resend == self.resend and known.id != self.id:
            raise self.refused(f'{known.id} in {known.folder} has its watermark, type and resend')


def taken_of(places: list[Place], own: list[Place]) -> Place | None:
    """The place of a known deposit's bundles that leaves no room for others, of which these are the
    first place and the last one."""
    (first, last), begin, end = own, places[0], places[-1]
    if begin.moment <= last.moment < end.moment or is_within(first, places):
        return end
    if is_within(begin, own):
        return begin
    return next((it for it in places if first.moment <= it.moment < last.moment or it == last),
                None)


def is_within(place: Place, full: list[Place]) -> bool:
    """Whether an Incremental would be based on the first part of a Full that is not whole by
    then."""
    is_base = (place.type, full[0].type) == (DepositType.INCREMENTAL, DepositType.FULL)
    return is_base and full[0].moment < place.moment <= full[-1].moment

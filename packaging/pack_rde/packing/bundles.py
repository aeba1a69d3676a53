"""Bundles of deposits: a Full, and Differentials on it, which may be the bundles of one series."""
import csv
import io
import json
import os
from collections.abc import Iterator
from typing import Any
from typing import BinaryIO
from typing import NamedTuple

from faults import Refusal
from limits import MOST_BYTES
from limits import MOST_SECTION
from packing.forms import is_moment

FIRST_LINE, LAST_LINE, ENVELOPE = b'escrow-bundle 1\n', b'end\n', 'envelope.json'
# The longest line of a section: its name, a space, a length and a line end.
MOST_LINE = MOST_SECTION + len(f' {MOST_BYTES}\n')


class Section(NamedTuple):
    """Where the bytes of a section are."""
    start: int
    length: int


class Table(NamedTuple):
    """A table as a bundle declares it."""
    name: str
    kind: str
    is_parent: bool
    key: int
    fields: list[str]
    section: Section


class Part(io.RawIOBase):
    """The bytes of a section, which are read from its file piece by piece."""

    def __init__(self, file: BinaryIO, section: Section) -> None:
        super().__init__()
        self.file, self.left = file, section.length
        file.seek(section.start)

    def readable(self) -> bool:
        return True

    def readinto(self, buffer: Any) -> int:
        piece = self.file.read(min(len(buffer), self.left))
        buffer[:len(piece)] = piece
        self.left -= len(piece)
        return len(piece)


class Bundle:
    """A bundle: what it says of itself, and the tables that it declares."""

    def __init__(self, path: str) -> None:
        self.path = path
        with open(path, 'rb') as file:
            self.sections = self.sections_of(file)
            self.envelope = self.envelope_in(file)
        self.id, self.type = self.text('id'), self.text('type')
        self.watermark, self.previous = self.text('watermark'), self.envelope.get('prevId') or None
        if not is_moment(self.watermark):
            raise self.refused(f'its watermark is not one: {self.watermark!r}')
        self.contents, self.deletes = self.tables('contents'), self.tables('deletes')

    def refused(self, what: str) -> Refusal:
        return Refusal(self.path, what)

    def text(self, member: str) -> str:
        found = self.envelope.get(member)
        if not isinstance(found, str):
            raise self.refused(f'its envelope has no {member}')
        return found

    def sections_of(self, file: BinaryIO) -> dict[str, Section]:
        found: dict[str, Section] = {}
        if file.readline(MOST_LINE) != FIRST_LINE:
            raise self.refused('its first line is not "escrow-bundle 1"')
        while (line := file.readline(MOST_LINE)) != LAST_LINE:
            name, _, length = line.decode('latin-1').removesuffix('\n').partition(' ')
            if not length.isdecimal() or not line.endswith(b'\n') or name in found:
                what = f'section {len(found) + 1}: no line with a new name and a length'
                raise self.refused(what)
            found[name] = Section(file.tell(), int(length))
            file.seek(int(length), os.SEEK_CUR)
            if file.read(1) != b'\n':
                raise self.refused(f'section {len(found)} {name}: it is cut off')
        if file.read(1):
            raise self.refused('more after the line "end"')
        return found

    def envelope_in(self, file: BinaryIO) -> dict[str, Any]:
        place = self.sections.get(ENVELOPE)
        if place is None or place.length > MOST_BYTES:
            raise self.refused(f'it has no {ENVELOPE}')
        try:
            found = json.load(Part(file, place))
        except ValueError as error:
            raise self.refused(f'{ENVELOPE}: no JSON: {error}') from None
        if not isinstance(found, dict):
            raise self.refused(f'{ENVELOPE}: no JSON object')
        return found

    def tables(self, member: str) -> list[Table]:
        """The tables that are declared, parent tables first."""
        try:
            found = [Table(it['name'], it['kind'], it['role'] == 'parent',
                           it['fields'].index(it['key']),
                           it['fields'], self.sections[it['file']])
                     for it in self.envelope.get(member) or []]
        except (KeyError, TypeError, ValueError, AttributeError) as error:
            raise self.refused(f'{ENVELOPE}: {member}: a table is not declared: {error}') from None
        return sorted(found, key=lambda it: not it.is_parent)

    def rows(self, table: Table) -> Iterator[list[str]]:
        """The rows of a declared table."""
        with open(self.path, 'rb') as file:
            part = io.BufferedReader(Part(file, table.section))
            rows = csv.reader(io.TextIOWrapper(part, encoding='utf-8-sig', newline=''))
            try:
                for row in rows:
                    if row and len(row) != len(table.fields):
                        counts = f'{len(row)} fields, and not {len(table.fields)}'
                        raise self.refused(f'{table.name}: {counts}')
                    if row:
                        yield row
            except (UnicodeDecodeError, csv.Error) as error:
                raise self.refused(f'{table.name}: a row cannot be read: {error}') from None


def in_time(watermark: str) -> tuple[str, str]:
    """What watermarks are in order by."""
    seconds, _, fraction = watermark.removesuffix('Z').partition('.')
    return seconds, fraction.ljust(9, '0')


def chain_of(bundles: list[Bundle]) -> list[Bundle]:
    """Bundles in their order: a Full, then Differentials, each on the one before."""
    found = sorted(bundles, key=lambda it: in_time(it.watermark))
    first = found[0]
    if first.type != 'FULL':
        raise first.refused(f'the earliest bundle is no FULL, but {first.type}')
    for before, it in zip(found, found[1:]):
        if it.type != 'DIFF' or it.previous != before.id:
            raise it.refused(f'it is no Differential on {before.id}, the deposit before it')
    return found

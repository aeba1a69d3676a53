"""Takes a deposit in whatever form it is, and writes it into a folder: as one bundle's files, or as
a series."""
import re
from collections.abc import Iterable
from typing import NamedTuple

from csv_files import CsvFiles
from cutting import Cutting
from faults import Note
from faults import Notes
from faults import Refusal
from folder import LIMITS
from folder import Folder
from folder import Part
from keys import Keys
from limits import MOST_KEY
from names import Table
from progress import Progress
from series import INCREMENTAL
from series import DepositType
from series import Header
from series import Known
from series import Series
from series import in_order
from series import known_in
from writing import Limits
from writing import Portions

# What a cell can have in a CSV file alone, and a terminal may obey. (A tab and line ends are
# ordinary.)
CONTROLS = re.compile('[\x00-\x08\x0b\x0c\x0e-\x1f\x7f-\x9f]')


class Asked(NamedTuple):
    """What is asked for: the document or the description, where its files are, where the folder is
    to be, and how."""
    document: str
    files: str
    target: str
    known: list[str]
    map: str | None
    is_strict: bool
    is_series: bool
    limits: Limits = LIMITS


class Unpacking:
    """What is taken of a deposit with tables of these names, in their order. A form of deposits has
    a class of its own, which says how one is read."""

    def __init__(self, asked: Asked, notes: Notes, progress: Progress,
                 tables: Iterable[str]) -> None:
        self.asked, self.notes, self.progress = asked, notes, progress
        self.path = asked.document
        self.envelope: Header = {}
        self.counts: dict[str, int] = {}
        self.told: list[str] = []  # before, of the same deposit
        self.known: list[Known] = []
        self.place: tuple[str, int] | None = None
        self.portions: dict[tuple[str, bool], Portions] = {}
        self.files = CsvFiles(self.path, asked.files, progress)
        self.folder = Folder(asked.target, list(tables))
        self.rest = self.folder.rest
        self.keys = Keys(self.folder.path)

    def read(self) -> None:
        """Reads the deposit: its header, its counts, and the rows of its portions."""
        raise NotImplementedError

    def take(self) -> list[Part]:
        """Reads the deposit, and puts the folder at its place. Its bundles' files."""
        try:
            self.know()
            self.read()
            for portions in self.portions.values():
                if portions.is_to_cut():
                    Cutting(portions, self.keys, self.path).cut()
            return self.finish()
        except BaseException:
            self.folder.give_up()
            raise
        finally:
            self.keys.close()
            self.rest.close()
            for it in self.portions.values():
                it.close()

    def know(self) -> None:
        """Reads what is known of earlier deposits, the earliest first."""
        self.known = in_order(map(known_in, self.asked.known))

    def refused(self, what: str) -> Refusal:
        """A refusal at the place that is read."""
        return Refusal(self.path if self.place is None else ':'.join(map(str, self.place)), what)

    def check_key(self, table: Table, key: str) -> None:
        if not key:
            raise self.refused(f'a {table.kind} without {table.key}')
        if len(key.encode()) > MOST_KEY:
            raise self.refused(f'the {table.key} of a {table.kind} is longer than {MOST_KEY} bytes')

    def tell_orphan(self, table: Table, key: str) -> None:
        """Tells of a row of a child table if the object that it is of is not in the deposit."""
        if not self.keys.has(table.kind, key):
            self.notes.add(Note.ORPHAN,
                           f'row of {table.name} of a {table.kind} that is not in the deposit')

    def tell_control(self, table: Table, field: str, value: str) -> None:
        """Tells of a cell that a terminal may obey."""
        if not value.isprintable() and CONTROLS.search(value):
            self.notes.add(
                Note.CONTROL, f'cell of {table.name}.{field} with control characters, as they are')

    def tell_unnamed(self, named: set[str], beside: str) -> None:
        """Tells of CSV files that lie beside what names these files."""
        for name in self.files.unnamed(named):
            self.notes.add(Note.UNKNOWN, f'file {name} beside the {beside}, which does not name it')

    def finish(self) -> list[Part]:
        series = Series(self.path, self.envelope, self.known)
        if self.envelope['type'] == DepositType.INCREMENTAL:
            series = self.based(series)
        if self.asked.is_strict and self.notes.has(Note.UNKNOWN):
            raise Refusal(self.path, 'it has what is unknown, and --strict was given')
        is_series = self.asked.is_series or any(it.is_series for it in series.revisions())
        portions = [it for its in self.portions.values() for it in its.all]
        parts = self.folder.arrange(portions, self.asked.limits, is_series)
        series.check(len(parts))
        headers = list(series.headers(len(parts)))
        if self.counts:
            headers[-1]['counts'] = self.counts
        if lines := [*self.told, *self.notes.for_envelope()]:
            headers[-1]['notes'] = lines
        for part, header in zip(parts, headers, strict=True):
            self.folder.describe(part, header)
        self.folder.keep_seconds(parts[-1], self.keys.seconds())
        self.keys.close()
        self.folder.finish()
        return parts

    def based(self, series: Series) -> Series:
        """An Incremental is based on the last Full's first bundle; on a series of them as a
        Differential on the whole Full."""
        full = series.full()
        if full is None:
            self.notes.add(
                Note.GIVEN,
                'as an Incremental, whose Full is in no folder of --known: if that is a series, '
                'name it'
            )
            return series
        if not full.is_series:
            return series
        self.notes.add(Note.GIVEN, f'as a Differential on {full.id}, since this Full is a series')
        self.envelope = {
            **self.envelope, 'type': DepositType.DIFFERENTIAL, 'prevId': full.id, INCREMENTAL: True
        }
        return Series(self.path, self.envelope, self.known)

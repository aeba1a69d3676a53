"""The DS records of a zone, as `handover zone` writes it: a record in each line, with its full
name, TTL and class."""
import re
import sqlite3
from typing import NamedTuple

from faults import Refusal
from progress import opened_plain

RECORD = re.compile(r'(\S+)\.\s+\d+\s+IN\s+([A-Z][A-Z0-9]*)\s+(\S.*)')
DS = re.compile(r'(\d{1,5})\s+(\d{1,3})\s+(\d{1,3})\s+((?:[0-9A-Fa-f]{2})+)', re.ASCII)
MOST_LINE = 1 << 17
SCHEMA = """
PRAGMA journal_mode = OFF;
PRAGMA cache_size = -4000;
CREATE TABLE ds (name TEXT, tag INTEGER, algorithm INTEGER, type INTEGER, digest TEXT);
BEGIN;
"""
FOUND = 'SELECT tag, algorithm, type, digest FROM ds WHERE name = ? ORDER BY rowid'


class Ds(NamedTuple):
    """A DS record (RFC 4034 5.1)."""
    tag: int
    algorithm: int
    type: int
    digest: str


class Zone:
    """A zone's name and DS records. These may be many: they are in a file without a name."""

    def __init__(self, path: str) -> None:
        self.path, self.origin, self.line = path, '', 0
        self.base = sqlite3.connect('', isolation_level=None)
        self.base.executescript(SCHEMA)
        with opened_plain(path) as file:
            while line := file.readline(MOST_LINE):
                self.line += 1
                self.take(line.decode('latin-1'))
        if not self.origin:
            raise Refusal(path, 'it has no record')
        self.base.execute('CREATE INDEX by_name ON ds (name)')

    def refused(self, what: str) -> Refusal:
        return Refusal(f'{self.path}:{self.line}', what)

    def take(self, line: str) -> None:
        if not line.endswith('\n'):
            raise self.refused('the line is cut off, or too long')
        if not line.strip() or line.startswith(';'):
            return
        record = RECORD.fullmatch(line.rstrip())
        if record is None:
            raise self.refused('it is no record of the form NAME. TTL IN TYPE DATA')
        name, kind, data = record[1].lower(), record[2], record[3]
        if not self.origin:
            if kind != 'SOA':
                raise self.refused('the first record of a zone is its SOA')
            self.origin = name
        if kind == 'DS':
            self.add(name, data)

    def add(self, name: str, data: str) -> None:
        found = DS.fullmatch(data)
        if found is None:
            raise self.refused('it is no DS record')
        row = name, int(found[1]), int(found[2]), int(found[3]), found[4]
        self.base.execute('INSERT INTO ds VALUES (?, ?, ?, ?, ?)', row)

    def has(self, name: str) -> bool:
        """Whether this name is below the zone's."""
        return name.endswith(f'.{self.origin}')

    def ds_of(self, name: str) -> list[Ds]:
        """The DS records of a name, in the order of the zone."""
        return [Ds(*it) for it in self.base.execute(FOUND, (name,))]

    def close(self) -> None:
        self.base.close()

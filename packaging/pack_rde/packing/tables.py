"""The tables of a registry, object by object, and the folder of them that `handover tables` writes.

A source has `names()`, its tables, and `rows(table)`: the rows in the order of keys, each with the
key of its object and the cells that have a text. So memory is needed for one object at a time."""
import csv
import os
from collections import Counter
from collections.abc import Iterator
from dataclasses import dataclass
from dataclasses import field
from typing import Protocol

from faults import Refusal
from limits import MOST_BYTES
from names import Names
from packing.telling import Note
from packing.telling import Report

# What is referred to comes before what refers to it (RFC 8909 5.2).
KINDS = ('registrar', 'idn', 'contact', 'host', 'domain', 'nndn')
KEY, SUFFIX = 'key', '.csv'

Cells = dict[str, str]
Rows = Iterator[tuple[str, Cells]]
csv.field_size_limit(MOST_BYTES)


@dataclass
class Object:
    """An object: the cells of its parent row, and the rows of its child tables."""
    kind: str
    key: str
    cells: Cells
    children: dict[str, list[Cells]]


@dataclass
class Survey:
    """How many rows a table has, and of each field how many have a text there."""
    rows: int = 0
    fields: Counter[str] = field(default_factory=Counter)


class Unordered(Exception):
    """The rows of a table are not in the order of keys."""


class Source(Protocol):
    def names(self) -> list[str]: ...
    def rows(self, table: str) -> Rows: ...


class TablesFolder:
    """A folder of CSV files, each with a heading that begins with `key`."""

    def __init__(self, path: str) -> None:
        self.path = path

    def names(self) -> list[str]:
        return sorted(it.removesuffix(SUFFIX) for it in os.listdir(self.path)
                      if it.endswith(SUFFIX))

    def unordered_rows(self, table: str) -> Rows:
        path = os.path.join(self.path, table + SUFFIX)
        try:
            with open(path, encoding='utf-8', newline='') as file:
                rows = csv.reader(file, strict=True)
                heading = next(rows, [])
                if heading[:1] != [KEY] or len(set(heading)) != len(heading):
                    raise Refusal(path, f'its first line is no heading of {KEY} and other fields')
                for row in rows:
                    if len(row) != len(heading):
                        counts = f'{len(row)} fields, and not the {len(heading)} of the heading'
                        raise Refusal(f'{path}:{rows.line_num}', counts)
                    yield row[0], {name: text for name, text in zip(heading[1:], row[1:]) if text}
        except (UnicodeDecodeError, csv.Error) as error:
            raise Refusal(path, f'it cannot be read: {error}') from None

    def rows(self, table: str) -> Rows:
        last = ''
        for key, cells in self.unordered_rows(table):
            if key < last:
                raise Unordered
            last = key
            yield key, cells


def surveyed(source: Source, table: str) -> Survey:
    found = Survey()
    for _, cells in source.rows(table):
        found.rows += 1
        found.fields.update(cells.keys())
    return found


class Children:
    """Reads a child table along with its parent table."""

    def __init__(self, table: str, kind: str, rows: Rows, report: Report) -> None:
        self.what, self.rows, self.report = f'rows of {table} of no {kind}', rows, report
        self.next = next(rows, None)

    def of(self, key: str | None) -> list[Cells]:
        """The rows of the object with this key; those before it, or all without one, have none."""
        found = []
        while self.next is not None and (key is None or self.next[0] <= key):
            if self.next[0] == key:
                found.append(self.next[1])
            else:
                self.report.note(Note.ORPHAN, self.what)
            self.next = next(self.rows, None)
        return found


def objects_of(source: Source, kind: str, names: Names, report: Report) -> Iterator[Object]:
    """The objects of a kind, in the order of keys, with the child tables that have names."""
    there = source.names()
    children = {it.name: Children(it.name, kind, source.rows(it.name), report)
                for it in names.tables.values() if it.kind == kind and not it.is_parent
                and it.name in there}
    last = None
    for key, cells in source.rows(kind) if kind in there else ():
        if key == last:
            raise Refusal(f'{kind}{SUFFIX}', f'the {kind} {key} is there twice')
        last = key
        yield Object(kind, key, cells, {table: it.of(key) for table, it in children.items()})
    for it in children.values():
        it.of(None)

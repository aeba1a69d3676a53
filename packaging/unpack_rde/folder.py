"""Puts what was written together into the folder: as one bundle's files, or as a part for each
bundle of a series."""
import json
import os
import shutil
from collections.abc import Iterable
from typing import NamedTuple

from faults import Refusal
from limits import MOST_BYTES
from limits import MOST_ROWS
from limits import MOST_SECTIONS
from limits import OF_DESCRIPTION
from rest import NAME as REST
from rest import Rest
from series import Header
from writing import DESCRIPTION
from writing import Limits
from writing import Portion
from writing import TableFile
from writing import row_text

# What the rows of one bundle take.
LIMITS = Limits(MOST_ROWS, MOST_BYTES - OF_DESCRIPTION)
# Where a later deposit finds the objects that this one leaves out.
SECONDS, OF_SECONDS = 'second.csv', ('field', 'value', 'key')
FRAME = len('escrow-bundle 1\nend\n')


class Part(NamedTuple):
    """A bundle's files, in the order of tables, and the folder that they are in, from the folder of
    all."""
    name: str
    files: list[TableFile]

    @property
    def rows(self) -> int:
        return sum(it.rows for it in self.files)

    @property
    def size(self) -> int:
        return sum(it.size for it in self.files)


def joined(portions: Iterable[Portion], limits: Limits) -> list[list[Portion]]:
    """Portions that follow each other, as many together as one bundle takes."""
    found: list[list[Portion]] = []
    rows = size = sections = 0
    for it in portions:
        rows, size, sections = rows + it.rows, size + it.size, sections + len(it.tables)
        if not found or rows > limits.rows or size > limits.size or sections >= MOST_SECTIONS:
            found.append([])
            rows, size, sections = it.rows, it.size, len(it.tables)
        found[-1].append(it)
    return found


class Folder:
    """A folder that is being written, beside its place. Nothing is at its place until `finish`."""

    def __init__(self, target: str, order: list[str]) -> None:
        self.target, self.path, self.order, self.portions = target, f'{target}.part', order, 0
        if os.path.lexists(target):
            raise FileExistsError(17, 'something is at its place', target)
        os.mkdir(self.path)
        self.rest = Rest(os.path.join(self.path, REST))

    def new_portion(self) -> str:
        """A folder for a portion."""
        self.portions += 1
        path = os.path.join(self.path, f'.{self.portions}')
        os.mkdir(path)
        return path

    def arrange(self, portions: list[Portion], limits: Limits, is_series: bool) -> list[Part]:
        """Moves the files to where they stay: into a folder for each bundle, if these are several
        or are to be."""
        bundles = joined(portions, limits) or [[]]
        bundles += [[]] if is_series and len(bundles) == 1 else []
        digits = max(3, len(str(len(bundles))))
        parts = []
        for number, its in enumerate(bundles, 1):
            name = f'part-{number:0{digits}}' if len(bundles) > 1 else ''
            folder = os.path.join(self.path, name)
            os.makedirs(folder, exist_ok=True)
            files = sorted((file for it in its for file in it.tables.values()), key=lambda it:
                           (self.order.index(it.table.name), it.is_of_deletes))
            for file in files:
                file.move(folder)
            for it in its:
                os.rmdir(it.folder)
            parts.append(Part(name, files))
        if self.rest.close() and len(parts) > 1:
            os.rename(self.rest.path, os.path.join(self.path, parts[-1].name, REST))
        return parts

    def keep_seconds(self, part: Part, rows: list[tuple[str, str, str]]) -> None:
        """Writes the objects that are left out since another one has their key: a field, its value
        and that key."""
        if rows:
            with open(os.path.join(self.path, part.name, SECONDS), 'x', encoding='utf-8',
                      newline='') as file:
                file.writelines(map(row_text, [list(OF_SECONDS), *map(list, rows)]))

    def describe(self, part: Part, envelope: Header) -> None:
        """Writes the description of a part."""
        front = json.dumps(envelope, ensure_ascii=False, separators=(',', ':'))[:-1]
        lists = []
        for member, is_of_deletes in (('contents', False), ('deletes', True)):
            declared = [
                json.dumps(it.declaration(), separators=(',', ':'))
                for it in part.files
                if it.is_of_deletes == is_of_deletes
            ]
            lists.append(f'"{member}":[' + ',\n'.join(declared) + ']')
        data = (front + ',\n' + ',\n'.join(lists) + '}\n').encode()
        frames = FRAME + sum(len(f'{it.declaration()["file"]} {it.size}\n\n')
                             for it in part.files) + len(f'{DESCRIPTION} {len(data)}\n\n')
        if frames + len(data) + part.size > MOST_BYTES or len(part.files) >= MOST_SECTIONS:
            raise Refusal(
                str(envelope['id']),
                f'its description has {len(data)} bytes and {len(part.files)} tables, and one '
                'bundle takes no more')
        with open(os.path.join(self.path, part.name, DESCRIPTION), 'xb') as file:
            file.write(data)

    def finish(self) -> None:
        """Puts the folder at its place."""
        os.rename(self.path, self.target)

    def give_up(self) -> None:
        """Removes what was written."""
        shutil.rmtree(self.path, ignore_errors=True)

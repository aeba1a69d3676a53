"""Reads the CSV files that a deposit of the CSV model names: whole by their checksums, in their
encoding, row by row."""
import csv
import gzip
import hashlib
import io
import os
import re
import zlib
from collections.abc import Callable
from collections.abc import Iterator
from contextlib import contextmanager
from typing import BinaryIO

from faults import Refusal
from limits import MOST_BYTES
from progress import Progress
from progress import opened_plain
from reading import Definition

PIECE = 1 << 16
ENDINGS = ('.csv', '.csv.gz')
Words = dict[str, str]
csv.field_size_limit(MOST_BYTES)


class Lines:
    """The lines of a text, of which a row has no more characters than a bundle may have bytes."""

    def __init__(self, text: io.TextIOWrapper) -> None:
        self.text, self.size = text, 0

    def __iter__(self) -> 'Lines':
        return self

    def __next__(self) -> str:
        line = self.text.readline(MOST_BYTES)
        if not line:
            raise StopIteration
        self.size += len(line)
        if self.size >= MOST_BYTES:
            raise csv.Error(f'longer than {MOST_BYTES} characters')
        return line


class CsvFiles:
    """The CSV files of a deposit, in a folder."""

    def __init__(self, document: str, folder: str, progress: Progress) -> None:
        self.document, self.folder, self.progress = document, folder, progress

    def path(self, here: str, name: str) -> str:
        """Where the file is that is named here. It has to be in the folder: an archive may have
        links."""
        if name in ('', '.', '..') or re.search(r'[/\\\0]', name):
            raise Refusal(here, f'no name of a file: {name!r}')
        path = os.path.join(self.folder, name)
        if not os.path.exists(path) or os.path.isdir(path):
            raise Refusal(here, f'the file {name} is not in {self.folder}')
        if os.path.dirname(os.path.realpath(path)) != os.path.realpath(self.folder):
            raise Refusal(here, f'the file {name} is a link out of {self.folder}')
        return path

    def unnamed(self, named: set[str]) -> list[str]:
        """The CSV files in the folder but for these."""
        return [
            it for it in sorted(os.listdir(self.folder))
            if it.lower().endswith(ENDINGS) and it not in named
        ]

    def rows(self, definition: Definition) -> Iterator[tuple[str, int, list[str]]]:
        """The rows of the files of a definition, each with its file and its line."""
        for line, name, said in definition.files:
            path = self.path(f'{self.document}:{line}', name)
            try:
                check_sum(path, said)
                yield from self.rows_of_file(path, said, definition.separator,
                                             len(definition.fields))
            except (EOFError, zlib.error, gzip.BadGzipFile) as error:
                raise Refusal(path, f'it is not compressed as the document says: {error}') from None

    def rows_of_file(self, path: str, said: Words, separator: str,
                     width: int) -> Iterator[tuple[str, int, list[str]]]:
        """The rows of a file, each of which has so many fields."""
        encoding = said.get('encoding', 'UTF-8')
        number = 0
        try:
            with opened(path, said.get('compression'), self.progress.opened) as file:
                # Bytes that are no text are carried to the row that they are in, and refused there.
                text = io.TextIOWrapper(
                    file,
                    encoding='utf-8-sig' if encoding.upper() in ('UTF-8', 'UTF8') else encoding,
                    errors='surrogateescape', newline='')
                lines = Lines(text)
                rows = csv.reader(lines, delimiter=separator, strict=True)
                for row in rows:
                    lines.size, number = 0, rows.line_num
                    if row:
                        check_row(path, number, row, width)
                        yield path, number, row
        except LookupError:
            raise Refusal(path, f'its encoding {encoding} is not known') from None
        except UnicodeError as error:
            raise Refusal(f'{path}:{number + 1}', f'it is not {encoding}: {error}') from None
        except csv.Error as error:
            raise Refusal(f'{path}:{number + 1}', f'no row of CSV: {error}') from None


@contextmanager
def opened(path: str, compression: str | None,
           opener: Callable[[str], BinaryIO] = opened_plain) -> Iterator[BinaryIO]:
    if compression is not None and compression.lower() != 'gzip':
        raise Refusal(
            path,
            f'its compression {compression} is not known: decompress it, and take the attribute '
            'out of the document'
        )
    with opener(path) as file:
        if compression is None:
            yield file
        else:
            with gzip.GzipFile(fileobj=file, mode='rb') as unzipped:
                yield unzipped


def digests(path: str, compression: str | None, is_sha256: bool) -> str:
    """The CRC-32, or the SHA-256, of a file's bytes, in hexadecimal."""
    crc, sha = 0, hashlib.sha256()
    with opened(path, compression) as file:
        while piece := file.read(PIECE):
            if is_sha256:
                sha.update(piece)
            else:
                crc = zlib.crc32(piece, crc)
    return sha.hexdigest() if is_sha256 else f'{crc:08x}'


def check_sum(path: str, said: Words) -> None:
    """Compares the checksum that a document has for a file. Of a compressed one it may be that of
    its bytes before or after."""
    wanted, algorithm = said.get('cksum'), said.get('cksumAlg', 'CRC32')
    if wanted is None:
        return
    if algorithm not in ('CRC32', 'SHA256'):
        raise Refusal(path, f'its checksum is by {algorithm}, which is not known')
    compression = said.get('compression')
    found = {digests(path, it, algorithm == 'SHA256') for it in {None, compression}}
    if wanted.strip().lower().rjust(8, '0') not in found:
        raise Refusal(path,
                      f'its checksum is {" or ".join(sorted(found))}, and not {wanted.strip()}')


def check_row(path: str, number: int, row: list[str], width: int) -> None:
    if len(row) != width:
        raise Refusal(f'{path}:{number}',
                      f'{len(row)} fields, and not the {width} that are declared')
    for at, field in enumerate(row):
        if not field.isascii() and any('\udc80' <= it <= '\udcff' for it in field):
            raise Refusal(f'{path}:{number}',
                          f'field {at + 1} has bytes that are no text in its encoding')

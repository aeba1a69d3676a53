#!/usr/bin/env python3
"""unpack_rde: writes a registry escrow deposit (RFC 8909, with the objects of RFC 9022) as a folder
for `pack bundle`: the description envelope.json, and a CSV file for each table. What the deposit
has and the folder has not goes to standard error, a line each.

A deposit that is larger than one bundle becomes a series: the folder then has a folder part-001,
part-002 and so on for each bundle, of which the first has the deposit's type, each other one is a
Differential on the one before, and the last one has the deposit's id. So do CSV files without a
document, which have a description (--described)."""
import argparse
import os
import sqlite3
import sys

from deposit import Deposit
from described import Described
from faults import Notes
from faults import Refusal
from faults import printable
from folder import LIMITS
from folder import Part
from limits import MOST_ROWS
from progress import Progress
from unpacking import Asked
from unpacking import Unpacking
from writing import DESCRIPTION
from writing import Limits

DONE, REFUSED, STOPPED = 0, 1, 3
EXAMPLE = """Example, of a Full and a Differential on it:

  unpack_rde full/example_2024-03-03_full_S1_R0.xml F1
  unpack_rde --strict --known F1 diff/example_2024-03-04_diff_S1_R0.xml D2
  pack bundle --envelope F1/envelope.json F1 bundles/F1
  pack bundle --envelope D2/envelope.json D2 bundles/D2

Example, of bare CSV files that are larger than one bundle, in a folder with their description:

  unpack_rde --described files F1
  pack series F1 bundles/F1

Status: 0 done; 1 the deposit is refused; 2 invalid usage; 3 a file cannot be read or written."""


def number(most: int) -> 'argparse._ActionType':
    def read(text: str) -> int:
        if not text.isdecimal() or not 1 <= int(text) <= most:
            raise argparse.ArgumentTypeError(f'no number from 1 to {most}: {text}')
        return int(text)

    return read


def arguments() -> argparse.ArgumentParser:
    parser = argparse.ArgumentParser(prog='unpack_rde', description=__doc__, epilog=EXAMPLE,
                                     formatter_class=argparse.RawDescriptionHelpFormatter)
    add = parser.add_argument
    add('deposit', metavar='DEPOSIT',
        help='the XML document of the deposit; with --described a folder')
    add('folder', metavar='OUT', help='the folder that is written; nothing may be there')
    add('--described', action='store_true',
        help='DEPOSIT is a folder of CSV files with their description envelope.json, as pack '
        'describe proposes it')
    add('--files', metavar='DIR',
        help='where the CSV files are that the document names (the folder of DEPOSIT)')
    add('--known', metavar='FOLDER', action='append', default=[],
        help='a folder that was written of an earlier deposit, by which ROIDs and GURIDs are '
        'known, and Fulls that are series; may be given again')
    add('--map', metavar='FILE',
        help='lines of the table of names that take the place of its own (names.csv)')
    add('--strict', action='store_true', help='refuse a deposit that has anything unknown')
    add('--series', action='store_true',
        help='write a series, of two bundles at least, also of a deposit that fits into one')
    add('--part-rows', metavar='N', type=number(MOST_ROWS), default=LIMITS.rows,
        help='at most N rows in a bundle, for tests')
    add('--part-bytes', metavar='N', type=number(LIMITS.size), default=LIMITS.size,
        help='at most N bytes of rows in a bundle, for tests')
    add('--progress', action='store_true',
        help='tell on standard error how much is read, as on a terminal')
    return parser


def tell(*lines: str) -> None:
    for line in lines:
        print(printable(line), file=sys.stderr)


def words_in(given: list[str] | None) -> argparse.Namespace:
    parser = arguments()
    words = parser.parse_args(given)
    if words.described and words.map is not None:
        parser.error('--map is for documents: a description has the desk\'s names')
    return words


def asked_in(words: argparse.Namespace) -> Asked:
    """What the command's words ask for."""
    document = os.path.join(words.deposit, DESCRIPTION) if words.described else words.deposit
    files = os.path.dirname(os.path.abspath(document)) if words.files is None else words.files
    return Asked(document, files, words.folder, words.known, words.map, words.strict, words.series,
                 Limits(words.part_rows, words.part_bytes))


def unpacking(words: argparse.Namespace, notes: Notes, progress: Progress) -> Unpacking:
    form = Described if words.described else Deposit
    return form(asked_in(words), notes, progress)


def told_series(parts: list[Part]) -> str:
    rows, size = sum(it.rows for it in parts), sum(it.size for it in parts)
    names = f'{parts[0].name} to {parts[-1].name}'
    return f'unpack_rde: {rows} rows and {size} bytes: a series of {len(parts)} bundles, {names}'


def main(given: list[str] | None = None) -> int:
    words = words_in(given)
    notes, progress = Notes(), Progress(words.progress or sys.stderr.isatty())
    try:
        parts = unpacking(words, notes, progress).take()
    except Refusal as refusal:
        progress.end()
        tell(*notes.lines(), f'unpack_rde: {refusal}')
        return REFUSED
    except (OSError, sqlite3.Error) as error:
        progress.end()
        tell(f'unpack_rde: {error}')
        return STOPPED
    progress.end()
    tell(*notes.lines())
    for part in parts:
        for file in part.files:
            print(printable(os.path.join(part.name, file.name)), file.rows)
    if len(parts) > 1:
        tell(told_series(parts))
    elif words.described:
        tell(f'unpack_rde: one bundle takes them: pack bundle --envelope '
             f'{words.folder}/{DESCRIPTION} {words.folder} BUNDLE')
    return DONE


if __name__ == '__main__':
    sys.exit(main())

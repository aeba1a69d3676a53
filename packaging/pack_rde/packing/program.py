"""The program's words, what it makes of them, and what it tells."""
import argparse
import os
import sys
import time
from collections.abc import Callable
from contextlib import closing

from packing.bundles import Bundle
from packing.bundles import chain_of
from packing.document import Deposit
from packing.document import Header
from packing.document import Model
from packing.document import Packing
from packing.document import Progress
from packing.document import give_up
from faults import Refusal
from packing.fillings import Fillings
from packing.forms import ID
from packing.forms import MOST_RESEND
from packing.forms import NAME
from packing.forms import PREFIX
from packing.forms import is_moment
from packing.forms import is_url
from names import Names
from packing.rest import Rest
from packing.shape import Shape
from packing.store import Store
from packing.tables import KINDS
from packing.tables import TablesFolder
from packing.tables import Unordered
from packing.telling import Report
from packing.telling import ended
from packing.telling import tell

SECONDS = 2
ABOUT = """pack_rde: writes a Full of RFC 8909 and RFC 9022 of the tables of a registry.
Nothing is filled without an option that says so, and credentials are never
written. Standard error has a line for each thing that the deposit lacks or has in
another way (left out, filled, changed, orphan), and for each that refuses it
(missing, invalid, no room)."""
EXAMPLE = """Example: a Full of the tables in the folder registry, for the agent:

  handover tables --store desk.db registry
  pack_rde --id 20240304001 --watermark 2024-03-04T00:00:00Z --tld example \\
      registry example_2024-03-04_full_S1_R0.xml

Status: 0 done; 1 the deposit is refused; 2 invalid usage; 3 a file cannot be read
or written."""


def of_form(check: Callable[[str], bool], what: str) -> Callable[[str], str]:
    def word(text: str) -> str:
        if not check(text):
            raise argparse.ArgumentTypeError(f'{what}: {text!r}')
        return text
    return word


def resend(text: str) -> int:
    if not text.isascii() or not text.isdecimal() or int(text) > MOST_RESEND:
        raise argparse.ArgumentTypeError(f'no number from 0 to {MOST_RESEND}: {text!r}')
    return int(text)


ID_WORD = of_form(ID, 'not 1 to 13 letters and digits')
MOMENT_WORD = of_form(is_moment, 'no moment of the form 2024-03-04T00:00:00Z')
TLD_WORD = of_form(NAME, 'not 1 to 255 signs')


def words_of(given: list[str] | None) -> argparse.Namespace:
    parser = argparse.ArgumentParser(prog='pack_rde', description=ABOUT, epilog=EXAMPLE,
                                     formatter_class=argparse.RawDescriptionHelpFormatter)
    add = parser.add_argument
    add('sources', metavar='SOURCE', nargs='+',
        help='the folder that `handover tables` writes; or bundles: '
        'a Full, and Differentials on it, such as those of a series')
    add('out', metavar='OUT',
        help='the document that is written, or with --model csv the folder; nothing may be there')
    add('--model', type=Model, choices=list(Model), default=Model.XML, metavar='xml|csv',
        help='how objects are written (xml)')
    add('--id', type=ID_WORD, help='the id of the deposit (that of the last bundle)')
    add('--watermark', type=MOMENT_WORD,
        help='the moment that the tables are of (that of the last bundle)')
    add('--tld', type=TLD_WORD, help='the top level domain (that of the last bundle)')
    add('--resend', type=resend, default=0, metavar='N',
        help='how often the deposit was made before (0)')
    add('--also', metavar='FILE',
        help='objects that no table has, such as EPP parameters: rest.xml of unpack_rde')
    add('--roid', type=of_form(PREFIX, 'not 1 to 8 letters and digits'), metavar='SUFFIX',
        help="fill ROIDs that are missing: digits made of the key, and this id of the operator's "
        'repository')
    add('--status', action='store_true',
        help='fill statuses that are missing: ok, or inactive without servers')
    add('--idn-policy', type=of_form(is_url, 'no URL'), metavar='URL',
        help='fill policies of IDN tables that are missing')
    add('--map', metavar='FILE',
        help='lines of the table of names that take the place of its own, as for unpack_rde')
    add('--anyway', action='store_true', help='write the deposit with what is missing or invalid')
    add('--progress', action='store_true',
        help='say how far it is, also where standard error is no terminal')
    words = parser.parse_args(given)
    words.folder = next((it for it in words.sources if os.path.isdir(it)), None)
    if words.folder is not None and len(words.sources) > 1:
        parser.error('one folder, or bundles')
    for it in ('id', 'watermark', 'tld') if words.folder is not None else ():
        if getattr(words, it) is None:
            parser.error(f'--{it} is needed: the tables do not have it')
    return words


class Shown(Progress):
    """Says every two seconds how far it is."""

    def __init__(self) -> None:
        self.next = time.monotonic() + SECONDS

    def step(self, kind: str, number: int, of: int) -> None:
        if number % 256 == 0 and time.monotonic() >= self.next:
            self.next = time.monotonic() + SECONDS
            tell(f'pack_rde: {kind} {number} of {of}')


def folder_of(path: str) -> TablesFolder:
    folder = TablesFolder(path)
    if not set(KINDS) <= set(folder.names()) or 'envelope.json' in os.listdir(path):
        raise Refusal(path, 'it is no folder of handover tables, which has a file for each kind')
    return folder


def chain_in(words: argparse.Namespace) -> list[Bundle]:
    """The bundles. What the words don't say of the deposit is that of the last one."""
    chain = chain_of([Bundle(it) for it in words.sources])
    last = chain[-1]
    for name, check in (('id', ID), ('watermark', is_moment), ('tld', NAME)):
        if getattr(words, name) is None:
            value = last.envelope.get(name)
            if not isinstance(value, str) or not check(value):
                what = f'its {name} is none of a deposit ({value!r}): give one by --{name}'
                raise last.refused(what)
            setattr(words, name, value)
    return chain


def written(words: argparse.Namespace, packing: Packing, rest: Rest | None) -> dict[str, int]:
    """Writes the deposit of a source beside its place. The number of objects of each kind."""
    packing.look(words.model)
    header = Header(words.id, words.watermark, words.tld, words.resend)
    fillings = Fillings(words.roid, words.status, words.idn_policy)
    is_shown = words.progress or sys.stderr.isatty()
    deposit = Deposit(packing, fillings, Shown() if is_shown else Progress())
    if words.model is Model.XML:
        deposit.write_xml(part_of(words.out), header, rest)
    else:
        deposit.write_csv(part_of(words.out), header, rest, f'{os.path.basename(words.out)}.xml')
    return packing.counts()


def packed(words: argparse.Namespace, report: Report) -> dict[str, int]:
    """Writes the deposit beside its place. The number of objects of each kind."""
    # What SQLite has no memory for is on the disk of the deposit.
    os.environ['SQLITE_TMPDIR'] = os.path.dirname(os.path.abspath(words.out))
    names = Names(words.map)
    shape = Shape(names, words.map)
    rest = Rest(words.also, names) if words.also else None
    folder = folder_of(words.folder) if words.folder is not None else None
    chain = chain_in(words) if folder is None else []
    if folder is not None:
        try:
            return written(words, Packing(folder, names, shape, report), rest)
        except Unordered:
            give_up(part_of(words.out))
            report.forget()
    with closing(Store(names, report)) as store:
        if folder is not None:
            store.take_folder(folder)
        for number, it in enumerate(chain):
            store.take(number, it)
        store.settle()
        return written(words, Packing(store, names, shape, report), rest)


def part_of(out: str) -> str:
    return f'{out}.part'


def check_place(out: str) -> None:
    for it in (out, part_of(out)):
        if os.path.lexists(it):
            raise FileExistsError(17, 'something is at its place', it)


def finished(words: argparse.Namespace, report: Report) -> dict[str, int]:
    """Writes the deposit under its name, or nothing, and gives the number of objects by kind."""
    check_place(words.out)
    part = part_of(words.out)
    try:
        counts = packed(words, report)
        faults = report.number_of_faults()
        if faults and not words.anyway:
            what = f'{faults} faults: it is not written (--anyway writes it nevertheless)'
            raise Refusal(words.out, what)
        os.rename(part, words.out)
    except BaseException:
        give_up(part)
        raise
    return counts


def main(given: list[str] | None = None) -> int:
    words, report = words_of(given), Report()
    return ended('pack_rde', report, lambda: finished(words, report))

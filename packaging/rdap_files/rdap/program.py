"""The program's words, what it makes of them, and what it tells."""
import argparse
import os
import re
import sys
import time
from collections import Counter
from collections.abc import Callable
from contextlib import closing

from faults import Refusal
from names import Names
from packing.forms import is_moment
from packing.tables import objects_of
from packing.telling import Fault
from packing.telling import Report
from packing.telling import ended
from packing.telling import tell
from rdap.answers import ABSENT
from rdap.answers import Answers
from rdap.answers import Json
from rdap.answers import Service
from rdap.folder import KINDS
from rdap.folder import Folder
from rdap.folder import notices_in
from rdap.names import is_handle
from rdap.names import is_host
from rdap.tables import Tables
from rdap.zone import Zone

SECONDS = 2
URL = re.compile(r'https?://[A-Za-z0-9.-]+(:\d{1,5})?(/[A-Za-z0-9._~-]+)*/?', re.ASCII)
ABOUT = """rdap_files: writes the answers of RDAP (RFC 9083) of a registry's tables as
files that a web server serves: DIR/domain/NAME, DIR/nameserver/NAME,
DIR/entity/HANDLE for registrars, DIR/help, and DIR/404.json for the rest. No
contact is read. Whether a domain is signed is what the zone says. Standard error
has a line for each thing that is left out: an object whose name is no name of a
file, a text that is no status, date, address or GURID, rows without their object."""
EXAMPLE = """Example:

  handover tables --store desk.db registry
  rdap_files --base https://rdap.nic.example/ --updated 2024-03-04T00:00:00Z \\
      registry example.zone rdap

Status: 0 done; 1 the tables, the zone or a notice is refused; 2 invalid usage; 3 a
file cannot be read or written."""


def base(text: str) -> str:
    if not URL.fullmatch(text):
        raise argparse.ArgumentTypeError(f'no URL of https or http: {text!r}')
    return text if text.endswith('/') else f'{text}/'


def moment(text: str) -> str:
    if not is_moment(text):
        what = 'no moment of the form 2024-03-04T00:00:00Z'
        raise argparse.ArgumentTypeError(f'{what}: {text!r}')
    return text


def words_of(given: list[str] | None) -> argparse.Namespace:
    parser = argparse.ArgumentParser(prog='rdap_files', description=ABOUT, epilog=EXAMPLE,
                                     formatter_class=argparse.RawDescriptionHelpFormatter)
    add = parser.add_argument
    add('tables', metavar='TABLES', help='the folder that `handover tables` writes')
    add('zone', metavar='ZONE', help='the zone that `handover zone` writes of the same store')
    add('out', metavar='DIR', help='the folder that is written; nothing may be there')
    add('--base', type=base, required=True, metavar='URL',
        help='the URL under which DIR is served: what stands before domain/NAME')
    add('--updated', type=moment, required=True, metavar='MOMENT',
        help='the moment that the tables are of, the end of the chain')
    add('--notice', action='append', default=[], metavar='FILE',
        help='notices that each answer has, such as the terms of service: a notice of RFC 9083 '
        '4.3 in JSON, or a list of them; may be given again')
    add('--progress', action='store_true',
        help='say how far it is, also where standard error is no terminal')
    return parser.parse_args(given)


class Writer:
    """Writes answers whose names are names of files, and counts them."""

    def __init__(self, folder: Folder, report: Report, is_shown: bool) -> None:
        self.folder, self.report, self.is_shown = folder, report, is_shown
        self.counts: Counter[str] = Counter()
        self.next = time.monotonic() + SECONDS

    def write(self, kind: str, is_name: Callable[[str], bool], answer: tuple[str, Json]) -> None:
        name, members = answer
        if not is_name(name):
            self.report.fault(Fault.INVALID, 'name', f'{kind} {name}')
            return
        self.folder.write_named(kind, name, members)
        self.counts[kind] += 1
        if self.is_shown and time.monotonic() >= self.next:
            self.next = time.monotonic() + SECONDS
            tell(f'rdap_files: {kind} {self.counts[kind]}')


def write_objects(tables: Tables, zone: Zone, service: Service, writer: Writer) -> None:
    """Writes the answers of all objects of the tables, in their order."""
    names, report = Names(None), writer.report
    answers = Answers(service, objects_of(tables, 'registrar', names, report), report)
    for key in answers.registrars:
        writer.write('entity', is_handle, answers.entity(key))
    for it in objects_of(tables, 'host', names, report):
        writer.write('nameserver', is_host, answers.nameserver(it))
    is_any = is_in_zone = False
    for it in objects_of(tables, 'domain', names, report):
        is_any, is_in_zone = True, is_in_zone or zone.has(it.key)
        writer.write('domain', is_host, answers.domain(it, zone.ds_of(it.key)))
    if is_any and not is_in_zone:
        raise Refusal(zone.path, f'no domain of the tables is below {zone.origin}, its name')


def write_answers(words: argparse.Namespace, folder: Folder, report: Report) -> Counter[str]:
    """Writes all answers beside their place. How many there are of each kind."""
    # What SQLite has no memory for is on the disk of the answers.
    os.environ['SQLITE_TMPDIR'] = os.path.dirname(os.path.abspath(words.out))
    notices = tuple(it for path in words.notice for it in notices_in(path))
    service = Service(words.base, words.updated, notices)
    tables = Tables(words.tables)
    writer = Writer(folder, report, words.progress or sys.stderr.isatty())
    with closing(Zone(words.zone)) as zone:
        write_objects(tables, zone, service, writer)
    folder.write('help', service.help())
    folder.write('404.json', ABSENT)
    return writer.counts


def finished(words: argparse.Namespace, report: Report) -> dict[str, int]:
    """Writes the answers under the folder's name, or nothing, and counts them by kind."""
    folder = Folder(words.out)
    try:
        folder.begin()
        counts = write_answers(words, folder, report)
        folder.finish()
    except BaseException:
        folder.give_up()
        raise
    return {kind: counts[kind] for kind in KINDS}


def main(given: list[str] | None = None) -> int:
    words, report = words_of(given), Report()
    return ended('rdap_files', report, lambda: finished(words, report))

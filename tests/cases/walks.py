"""Exports of many objects: by a reader of the store, and by a desk on a port, which walks page by
page, 256 objects in each. And an export whose file is cut while it is printed."""
import os

from tests.support.bodies import BODIES
from tests.support.bodies import SHAPES
from tests.support.bodies import bytes_of
from tests.support.bodies import manifest_text
from tests.support.clients import table
from tests.support.formats import KINDS
from tests.support.messages import get
from tests.support.reports import report
from tests.support.sockets import response_to
from tests.support.sockets import serve
from tests.support.stage import Failed
from tests.support.stage import Stage
from tests.support.stage import Wanted
from tests.support.stores import run


def lines_of(table: str, row: str) -> list[str]:
    """The lines of an object that has no child rows, by its parent row."""
    kind, _, fields = SHAPES[table]
    cells = row.split(',')
    return [
        f'{kind},{cells[0]},{table},0,{name},{cell}'
        for name, cell in zip(fields, cells, strict=True)
    ]


def check_export(what: str, wanted: bytes, got: bytes) -> None:
    """Compares an export. (`difference` would take long over so many lines.)"""
    if got != wanted:
        pairs = zip(wanted.splitlines(), got.splitlines())
        first = next(((want, came) for want, came in pairs if want != came), 'the end alone')
        raise Failed(f'{what}\nof {len(wanted)} bytes came {len(got)}, and others: {first}')


def check_exports(stage: Stage, *bodies: str) -> None:
    for at, it in enumerate(bodies, 1):
        stage.write(f'deposits/{at}', bytes_of(it))
    stage.write('listed.csv', manifest_text(bodies).encode())
    stage.check('init --store a.db --manifest listed.csv', Wanted(0, f'listed {len(bodies)}\n'))
    rows = [f'{at},{at},A1,,{BODIES[it].listed[0]},0,new,0' for at, it in enumerate(bodies, 1)]
    stage.check('take --store a.db deposits', Wanted(0, report('receipts', rows)))
    child, port = serve(stage, 'a.db', len(KINDS))
    served = {kind: response_to(port, get(f'/export/{kind}')) for kind in KINDS}
    stage.end(child)
    for kind in KINDS:
        # (The bodies have parent rows alone, and each key once.)
        rows = [(row.partition(',')[0].encode(), lines_of(table, row)) for it in bodies
                for table, text in BODIES[it].contents.items() if SHAPES[table][0] == kind
                for row in text.splitlines()]
        lines = [line for _, its in sorted(rows) for line in its]
        check_export(f'$ restore export --store a.db {kind}',
                     report('export', lines).encode(), run(stage, f'export --store a.db {kind}'))
        check_export(f'GET /export/{kind}', table('export', *lines), served[kind])


def test_pages(stage: Stage) -> None:
    """No object of a kind, one, a page of them, and three pages."""
    check_exports(stage, 'Many')


def check_cut(stage: Stage, line: str) -> None:
    """An export that reads its file once to test it, and a second time to print it. If the file is
    cut in between, the status tells it, and what was printed is where the export begins."""
    whole, size = run(stage, line), os.path.getsize(stage.at('a.db'))
    child = stage.begin(line.split())
    if child.stdout is None:
        raise Failed('no pipe')
    # The pipe is full soon after its first byte, so the rest waits.
    front = child.stdout.read(1)
    os.truncate(stage.at('a.db'), size // 2)
    got = stage.end(child)
    printed = front + got.out
    stage.compare(line, Wanted(3, part='', err='S1\n'), got)
    if not whole.startswith(printed) or len(printed) == len(whole):
        raise Failed(f'of {len(whole)} bytes came {len(printed)}')


def test_two_large_deposits(stage: Stage) -> None:
    """More objects than one deposit may have, and a file that is cut while they are printed."""
    check_exports(stage, 'Hosts', 'Domains')
    check_cut(stage, 'export --store a.db domain')

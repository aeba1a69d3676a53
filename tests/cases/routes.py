"""Each route of a desk where one thing fails in the middle: a read, a write or the flush, or a call
of either file. The same request again has the response of a desk that nothing happened to."""
import functools
from dataclasses import dataclass

from tests.support.clients import AMPLE
from tests.support.clients import HELD
from tests.support.clients import READ_FAULT
from tests.support.clients import RECEIPTS
from tests.support.clients import SAMPLE
from tests.support.clients import SERVED
from tests.support.clients import WRITE_FAULT
from tests.support.clients import RequestDesk
from tests.support.clients import Wire
from tests.support.clients import list_sample
from tests.support.clients import new_desk
from tests.support.clients import replied
from tests.support.clients import table
from tests.support.events import check
from tests.support.events import is_open
from tests.support.events import over_calls
from tests.support.messages import get
from tests.support.messages import response
from tests.support.reports import report
from tests.support.reports import status
from tests.support.stage import Failed
from tests.support.stage import Stage


@dataclass(frozen=True)
class Route:
    """A request, its response, and how many receipts there are before it, and after it."""
    request: bytes
    response: bytes
    before: int = 2
    after: int = 2


# Requests to a desk one after the other. Two that read the same page stand apart.
ROUTES = (
    Route(SAMPLE, HELD, 0, 1),
    Route(get('/export/registrar'), table('export'), 1, 1),
    # The second receipt: a request before that was refused has none.
    Route(b'PUT /arrivals/n2 HTTP/1.0\r\nContent-Length: 3\r\n\r\nabc', replied(RECEIPTS[1]), 1, 2),
    Route(get('/export/contact'),
          table('export', 'contact,C1,contact,0,id,C1', 'contact,C1,contact,0,clID,R1')),
    # A repeat.
    Route(SAMPLE, HELD),
    Route(get('/export/host'), table('export')),
    Route(get('/receipts'), table('receipts', *RECEIPTS)),
    Route(get('/export/domain'), table('export')),
    Route(get('/gaps'), table('gaps', '2024-03-03T00:00:00Z,FULL,0,chain,,')),
    Route(get('/export/idn'), table('export')),
    Route(get('/receipts'), table('receipts', *RECEIPTS)),
    Route(get('/export/nndn'), table('export')),
    Route(get('/links'), table('links', 'V1,contact,C1,clID,R1,registrar')),
    Route(get('/parked'),
          table('parked', 'ba7816bf8f01cfea414140de5dae2223b00361a396177a9cb410ff61f20015ad,3')),
    Route(get('/moment'), response(200, 'latest\n')),
    Route(get('/status'), response(200, status(1, 1, 2, 1, '2024-03-03T00:00:00Z FULL 0',
                                               contact=1))),
)


def check_streams(stage: Stage, piece: int) -> None:
    """A read of each request fails after so many bytes, for each number of them; then a write of
    its response, and the flush; and then nothing."""
    list_sample(stage)
    with new_desk(stage) as desk:
        def check_route(wire: Wire, response: bytes, came: str, receipts: int) -> None:
            desk.check_served(wire, response, came=came)
            desk.check_receipts(*RECEIPTS[:receipts])

        for it in ROUTES:
            for count in range(len(it.request)):
                check_route(Wire(it.request, piece, readable=count), b'', READ_FAULT, it.before)
            for count in range(len(it.response)):
                check_route(Wire(it.request, piece, writable=count), it.response[:count],
                            WRITE_FAULT, it.after)
            check_route(Wire(it.request, piece, is_stuck=True), it.response, WRITE_FAULT, it.after)
            check_route(Wire(it.request, piece), it.response, SERVED, it.after)


CASES = {
    f'Each read and write of {what} fails, over the routes':
    functools.partial(check_streams, piece=piece)
    for what, piece in (('one byte', 1), ('many bytes', AMPLE))
}


UNAVAILABLE = response(503, 'S1\n')
# What needs another page asks the disk for it, and the log is copied into the database file now and
# then: it may have 8 pages, and one page that was read is kept.
ONE_PAGE = 'room 8 1'
# How often each request is refused at most: an arrival that is a commit twice, since it may be open
# whether it is kept, and any other request once.
REFUSED = (2, 1, 2, 1, 1, 1, 1, 1, 1, 1, 1, 1, 1, 1, 1, 1)


def count_answered(desk: RequestDesk, most: list[int]) -> int:
    """Sends the requests up to one that is refused twice: then the files have to be opened again.
    Notes how often each is refused. Once it has refused one the desk has the receipts of before;
    one that refuses each call tells none."""
    for at, route in enumerate(ROUTES):
        refusals = 0
        while refusals < 2 and not desk.check_served(Wire(route.request), route.response,
                                                     UNAVAILABLE):
            if not refusals:
                check(desk, 'receipts', report('receipts', RECEIPTS[:route.before]), 'S1\n')
            refusals += 1
        most[at] = max(most[at], refusals)
        if refusals > 1:
            return at
    return len(ROUTES)


def has_failed(stage: Stage, file: str, calls: int, most: list[int]) -> bool:
    """Sends all requests to a desk over files, of which the call after so many fails. Whether that
    call came."""
    with RequestDesk(stage) as desk:
        check(desk, ONE_PAGE, '')
        check(desk, f'fail {file} {calls}', '')
        # (Where a call may fail the store is opened once more.)
        count = count_answered(desk, most) if is_open(desk) or is_open(desk) else 0
        if count < len(ROUTES):
            check(desk, 'crash written', '')
            if not is_open(desk):
                raise Failed('sound files are refused')
        for route in ROUTES[count:]:
            desk.check_served(Wire(route.request), route.response)
        return check(desk, 'failed', 'true\n', 'false\n') == 'true\n'


def test_each_call_of_either_file(stage: Stage) -> None:
    """Each call of either file fails once, over the routes."""
    list_sample(stage)
    most = [0] * len(ROUTES)
    for file in ('database', 'log'):
        over_calls(file, lambda calls, file=file: has_failed(stage, file, calls, most))
    if tuple(most) != REFUSED:
        raise Failed(
            f'how often each request was refused at most:\nwanted {REFUSED}\ngot    {tuple(most)}')

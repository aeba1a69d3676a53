"""Requests and their responses, whole and in pieces; requests that are cut, too long, or lie of
their lengths; and requests around an amendment and a moment."""
import functools
import hashlib
from collections.abc import Iterable
from dataclasses import dataclass
from dataclasses import replace

from tests.support.bodies import bytes_of
from tests.support.clients import AMPLE
from tests.support.clients import BAD_REQUEST
from tests.support.clients import GET_ONLY
from tests.support.clients import HELD
from tests.support.clients import LENGTH_REQUIRED
from tests.support.clients import NOT_FOUND
from tests.support.clients import OTHER
from tests.support.clients import PUT_ONLY
from tests.support.clients import RECEIPTS
from tests.support.clients import SAMPLE
from tests.support.clients import SERVED
from tests.support.clients import TOO_LARGE
from tests.support.clients import WRITE_FAULT
from tests.support.clients import RequestDesk
from tests.support.clients import Wire
from tests.support.clients import list_sample
from tests.support.clients import new_desk
from tests.support.clients import replied
from tests.support.clients import table
from tests.support.events import check
from tests.support.messages import get
from tests.support.messages import put
from tests.support.messages import response
from tests.support.reports import status
from tests.support.stage import Stage
from tests.support.steps import FirstScript
from tests.support.steps import Manifest

GET_STATUS = get('/status')
NOTHING_TAKEN = response(200, status(1, 0, 0, 0, 'none'))
OTHER_RECEIPT = '1,n2,A5,,,,,'
OTHER_PARKED = replied(OTHER_RECEIPT)


@dataclass(frozen=True)
class Exchange:
    """Requests that come before, a request, its response, the receipts that there are then; and
    what comes of it."""
    before: tuple
    wire: Wire
    response: bytes
    receipts: tuple
    came: str = SERVED


ANSWERS = (
    Exchange((), Wire(SAMPLE), HELD, RECEIPTS[:1]),
    # An arrival that comes twice has the same response, and one receipt.
    Exchange((Wire(SAMPLE),), Wire(SAMPLE), HELD, RECEIPTS[:1]),
    Exchange((), Wire(OTHER), OTHER_PARKED, (OTHER_RECEIPT,)),
    Exchange((Wire(OTHER),), Wire(OTHER), OTHER_PARKED, (OTHER_RECEIPT,)),
    # So it is where the response did not go out.
    Exchange((Wire(OTHER, writable=100),), Wire(OTHER), OTHER_PARKED, (OTHER_RECEIPT,)),
    Exchange((), Wire(GET_STATUS), NOTHING_TAKEN, ()),
    Exchange((Wire(SAMPLE), Wire(OTHER)), Wire(get('/receipts?all')), table('receipts', *RECEIPTS),
             RECEIPTS),
    # No more is read than the answer needs: all of a request without a body, and nothing after a
    # body.
    Exchange((), Wire(GET_STATUS, readable=24), NOTHING_TAKEN, ()),
    Exchange((), Wire(OTHER, readable=51), OTHER_PARKED, (OTHER_RECEIPT,)),
    # A flush that fails.
    Exchange((), Wire(OTHER, is_stuck=True), OTHER_PARKED, (OTHER_RECEIPT,), WRITE_FAULT),
)

PUT = b'PUT /arrivals/n1 HTTP/1.1\r\n'
# Requests that are refused, and their responses.
REFUSED = (
    (b'PUT /arrivals/a%20b HTTP/1.1\r\nContent-Length: 3\r\n\r\nabc', response(400, 'N1\n')),
    (PUT + b'Content-Length: 4\r\n\r\nabc', BAD_REQUEST),
    (PUT + b'Content-Length: 3\r\nContent-Length: 3\r\n\r\nabc', BAD_REQUEST),
    (PUT + b'Content-Length: 3\r\nX: 1\r\ncontent-length: 4\r\n\r\nabc', BAD_REQUEST),
    (PUT + b'Content-Length: +3\r\n\r\nabc', BAD_REQUEST),
    (PUT + b'Content-Length: 3\r\nTransfer-Encoding:\r\n\r\nabc', LENGTH_REQUIRED),
    (PUT + b'Transfer-Encoding: chunked\r\nContent-Length: 3\r\n\r\nabc', LENGTH_REQUIRED),
    (PUT + b'\r\nabc', LENGTH_REQUIRED),
    (PUT + b'Content-Length: 16777217\r\n\r\nabc', TOO_LARGE),
    # Lengths that would be 0 in 64 bits, 3 in 32 bits, and 3 in 64 bits.
    (PUT + b'Content-Length: 18446744073709551616\r\n\r\nabc', TOO_LARGE),
    (PUT + b'Content-Length: 4294967299\r\n\r\nabc', TOO_LARGE),
    (PUT + b'Content-Length: 18446744073709551619\r\n\r\nabc', TOO_LARGE),
    # A path that is no text, and one that is.
    (b'GET /status\xff HTTP/1.1\r\n\r\n', BAD_REQUEST),
    (b'GET /export/\xc3\xa9 HTTP/1.1\r\n\r\n', NOT_FOUND),
    (b'GET /export/zone HTTP/1.1\r\n\r\n', NOT_FOUND),
    (b'POST /arrivals/ HTTP/1.1\r\n\r\n', NOT_FOUND),
    (b'PUT /arrivals/n1/n2 HTTP/1.1\r\n\r\n', NOT_FOUND),
    (b'POST /arrivals/n1 HTTP/1.1\r\n\r\n', PUT_ONLY),
    (b'HEAD /status?x=1 HTTP/1.1\r\n\r\n', GET_ONLY),
    (b'GET /status HTTP/1.1\r\nHost: desk\r\n', BAD_REQUEST),
)

# The paths of reports on a desk that holds the sample, and their responses.
REPORTS = (
    ('/status?x=1', response(200, status(1, 1, 1, 1, '2024-03-03T00:00:00Z FULL 0', contact=1))),
    ('/gaps', table('gaps', '2024-03-03T00:00:00Z,FULL,0,chain,,')),
    ('/links', table('links', 'V1,contact,C1,clID,R1,registrar')),
    ('/export/contact', table('export', 'contact,C1,contact,0,id,C1',
                              'contact,C1,contact,0,clID,R1')),
    ('/receipts', table('receipts', *RECEIPTS[:1])),
)


def head(lines: int = 0, size: int = 8_192, end: bytes = b'\r\n\r\n') -> bytes:
    """A request for the receipts of so many bytes, with so many short header lines before a long
    one, and this end."""
    front = b'GET /receipts HTTP/1.1\r\n' + lines * b'A: 1\r\n' + b'X: '
    return front.ljust(size - len(end), b'x') + end


# Heads of as many bytes and lines as there may be, of one more, and without an end; and their
# responses.
HEADS = (
    (head(), table('receipts')),
    (head(size=8_193), BAD_REQUEST),
    (head(lines=31), table('receipts')),
    (head(lines=32, size=400), BAD_REQUEST),
    (head(end=b''), BAD_REQUEST),
    (head(size=8_193, end=b''), BAD_REQUEST),
)


def check_exchanges(stage: Stage, exchanges: Iterable[Exchange], pieces: Iterable[int]) -> None:
    """Each of these with a new desk, in pieces of so many bytes."""
    list_sample(stage)
    for it in exchanges:
        for piece in pieces:
            with new_desk(stage) as desk:
                for wire in it.before:
                    desk.serve(wire)
                desk.check_served(replace(it.wire, piece=piece), it.response, came=it.came)
                desk.check_receipts(*it.receipts)


# What is asked for, and the pieces in which it comes.
ASKED = {
    'Requests are answered, whole and in pieces': (ANSWERS, (1, 7, AMPLE)),
    'Requests are refused in their order': ([
        Exchange((), Wire(it), response, ()) for it, response in REFUSED
    ], (1, AMPLE)),
    'A head has a limit': ([Exchange((), Wire(it), response, ())
                            for it, response in HEADS], (1, AMPLE)),
    'Reports are told': ([
        Exchange((Wire(SAMPLE),), Wire(get(it)), response, RECEIPTS[:1])
        for it, response in REPORTS
    ], (AMPLE,)),
}
CASES = {
    title: functools.partial(check_exchanges, exchanges=exchanges, pieces=pieces)
    for title, (exchanges, pieces) in ASKED.items()
}


def test_beginnings(stage: Stage) -> None:
    """No beginning of an arrival arrives, be it one of its head or of its body."""
    list_sample(stage)
    with new_desk(stage) as desk:
        for count in range(len(SAMPLE)):
            for piece in (1, AMPLE):
                desk.check_served(Wire(SAMPLE[:count], piece), BAD_REQUEST)
                desk.check_receipts()
        desk.check_served(Wire(SAMPLE), HELD)
        desk.check_receipts(*RECEIPTS[:1])


def test_an_amendment(stage: Stage) -> None:
    """Requests to a desk over a migrated store, around an amendment and a moment."""
    Manifest('first.csv', ('F1',)).do(stage)
    Manifest('amended.csv', ('F1', 'D2')).do(stage)
    FirstScript('first.sql', 'first.csv', (('1', 'F1'), ('2', 'D2'))).do(stage)
    d2 = bytes_of('D2')
    # Version 1 didn't keep D2, and its reply stays. As it comes again it is parked, and held once
    # it is listed.
    lost, d2_parked = '2,2,A2,,,,,', table('parked', f'{hashlib.sha256(d2).hexdigest()},{len(d2)}')
    before = ((put('2', d2), replied(lost)), (get('/parked'), d2_parked),
              (get('/gaps'), table('gaps', '2024-03-03T00:00:00Z,FULL,0,chain,,')))
    after = (
        (get('/parked'), table('parked')),
        (get('/gaps'),
         table('gaps', '2024-03-03T00:00:00Z,FULL,0,chain,,',
               '2024-03-04T00:00:00Z,DIFF,0,standing,,')),
        (get('/status'),
         response(
             200, status(2, 2, 2, 1, '2024-03-03T00:00:00Z FULL 0', registrar=1, contact=1,
                         domain=1))),
        (get('/moment'), response(200, '2024-03-03T00:00:00Z\n')),
        (put('2', d2), replied(lost)),
        (put('3', d2), replied('3,3,A1,,D2,0,new,0')),
        (get('/receipts'), table('receipts', '1,1,A1,,F1,0,new,0', lost, '3,3,A1,,D2,0,new,0')),
    )
    with RequestDesk(stage) as desk:
        check(desk, 'script first.sql', '')
        check(desk, 'migrate', 'migrated\n')
        for request, wanted in before:
            desk.check_served(Wire(request), wanted)
        check(desk, 'amend amended.csv', 'added 1\n')
        check(desk, 'as-of 2024-03-03T00:00:00Z', 'as of 2024-03-03T00:00:00Z\n')
        for request, wanted in after:
            desk.check_served(Wire(request), wanted)

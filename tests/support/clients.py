"""Clients that send requests to the desk of a harness over memory, and the responses that they must
get."""
import contextlib
import json
from collections.abc import Iterator
from dataclasses import dataclass

from tests.support.bundles import SAMPLE as CONTACT
from tests.support.events import check
from tests.support.events import compare_any
from tests.support.harness import Harness
from tests.support.messages import put
from tests.support.messages import response
from tests.support.reports import report
from tests.support.stage import Stage
from tests.support.steps import Copy

# More bytes than a request or a response has.
AMPLE = 10_000_000
# What comes of a request: its response goes out whole, a read fails, or else a write or the flush
# does.
SERVED, READ_FAULT, WRITE_FAULT = 'served', 'read fault', 'write fault'


def replied(row: str) -> bytes:
    """The response to an arrival, by its row in the report of receipts."""
    receipt, number, verdict, fault, name, resend, copy, orphans = row.split(',')
    told = {
        'copy': copy or None,
        'fault': fault or None,
        'id': name or None,
        'number': number,
        'orphans': int(orphans) if orphans else None,
        'receipt': int(receipt),
        'resend': int(resend) if resend else None,
        'verdict': verdict
    }
    return response({'A1': 200, 'A5': 202}.get(verdict, 422),
                    json.dumps(told, separators=(',', ':')), 'application/json')


def table(name: str, *rows: str) -> bytes:
    return response(200, report(name, rows), 'text/csv')


BAD_REQUEST, NOT_FOUND = response(400, 'bad request\n'), response(404, 'not found\n')
LENGTH_REQUIRED, TOO_LARGE = response(411, 'length required\n'), response(413, 'too large\n')
PUT_ONLY, GET_ONLY = (response(405, 'method not allowed\n', allow=it) for it in ('PUT', 'GET'))

# An arrival of a body that the manifest with-contact.csv lists; and one of a body that it doesn't,
# with one more byte after it.
SAMPLE = b'PUT /arrivals/n1 HTTP/1.1\r\nHost: desk\r\ncontent-LENGTH: 000228\r\n\r\n' + CONTACT
OTHER = put('n2', b'abcd', 3)
# Their receipts, where they come in this order, and the response to the sample.
RECEIPTS = ('1,n1,A1,,F1,0,new,0', '2,n2,A5,,,,,')
HELD = replied(RECEIPTS[0])


def list_sample(stage: Stage) -> None:
    Copy('listed.csv', 'with-contact.csv').do(stage)


@dataclass(frozen=True)
class Wire:
    """How a request comes, and how its response goes: a read and a write move at most `piece`
    bytes, the client is waited for so many milliseconds before each read, so many bytes are read
    before a read fails, so many are written before a write does, and nothing can be handed on where
    it is stuck."""
    request: bytes
    piece: int = AMPLE
    pause: int = 0
    readable: int = AMPLE
    writable: int = AMPLE
    is_stuck: bool = False

    def line(self) -> str:
        if self == Wire(self.request):
            return 'request request'
        end = 'stuck' if self.is_stuck else 'flowing'
        return f'request request {self.pause} {self.piece} {self.readable} {self.writable} {end}'


def shown(text: bytes) -> str:
    return text.decode(errors='backslashreplace')


class RequestDesk(Harness):
    """A desk to which requests are sent, each in the file `request`."""

    def serve(self, wire: Wire) -> str:
        """What comes of a request, and what is written of its response."""
        self.stage.write('request', wire.request)
        answer = self.ask(wire.line())
        came, _, digits = answer.partition('\nx')
        with contextlib.suppress(ValueError):
            return f'{came}\n{shown(bytes.fromhex(digits))}'
        return answer

    def check_served(self, wire: Wire, *responses: bytes, came: str = SERVED,
                     time: int = 0) -> bool:
        """Sends a request, and compares what comes of it, and after how many milliseconds. Its
        response must be one of these: gives whether it is the first one."""
        wanted = [f'{came} after {time} milliseconds\n{shown(it)}' for it in responses]
        return compare_any(f'{wire.line()}\n{wire.request!r:.400}', self.serve(wire),
                           *wanted) == wanted[0]

    def check_receipts(self, *receipts: str) -> None:
        check(self, 'receipts', report('receipts', receipts))


@contextlib.contextmanager
def new_desk(stage: Stage) -> Iterator[RequestDesk]:
    """A desk over a new store of the manifest in listed.csv."""
    with RequestDesk(stage) as desk:
        desk.check('create listed.csv', 'created\n')
        yield desk

"""How long the desk waits for slow clients, by a clock that moves only while one is waited for."""
from collections.abc import Iterable

from tests.support.clients import GET_ONLY
from tests.support.clients import LENGTH_REQUIRED
from tests.support.clients import NOT_FOUND
from tests.support.clients import READ_FAULT
from tests.support.clients import SERVED
from tests.support.clients import TOO_LARGE
from tests.support.clients import WRITE_FAULT
from tests.support.clients import Wire
from tests.support.clients import list_sample
from tests.support.clients import new_desk
from tests.support.clients import replied
from tests.support.messages import get
from tests.support.messages import put
from tests.support.messages import response
from tests.support.reports import status
from tests.support.stage import Stage

GET_STATUS, LONG_REQUEST = get('/status'), put('n1', 700_000 * b'x')
# The responses to them, where nothing else has come.
STATUS, PARKED = response(200, status(1, 0, 0, 0, 'none')), replied('1,n1,A5,,,,,')

# Clients: milliseconds before each part that one gives or takes, and the bytes of each part; what
# comes of it, and after how many milliseconds. Of a request of 24 bytes.
HEADS = (
    (0, 24, SERVED, 0),
    # The whole head comes in 9.6 seconds; in 12 seconds it doesn't come.
    (400, 1, SERVED, 9_600),
    (500, 1, READ_FAULT, 10_000),
    # The first bytes come, and then there is no time for more.
    (9_999, 1, READ_FAULT, 10_000),
    (3_600_000, 24, READ_FAULT, 10_000),
)
# What is refused by its head alone, and the response: nothing is read past the piece that ends the
# head.
REFUSALS = (
    (get('/none'), NOT_FOUND),
    (b'PUT /status HTTP/1.1\r\nContent-Length: 5\r\n\r\n', GET_ONLY),
    (b'PUT /arrivals/n1 HTTP/1.1\r\n\r\n', LENGTH_REQUIRED),
    (put('n1', b'', 16777217), TOO_LARGE),
    (put('a%20b', b'', 5), response(400, 'N1\n')),
)
# Of a body of 700,000 bytes.
BODIES = (
    # 8,192 bytes come with the head, the others in eleven seconds: more than ten, but the bytes
    # that came earned more.
    (1_000, 64_000, SERVED, 12_000),
    # Each second earns less than a second.
    (1_000, 6_000, READ_FAULT, 10_000),
    (1_000, 30_000, READ_FAULT, 16_000),
)
# Of a response of 179 bytes.
TAKERS = (
    (0, 500, SERVED, 0),
    (1_000, 20, SERVED, 9_000),
    (1_000, 10, WRITE_FAULT, 10_000),
    (3_600_000, 500, WRITE_FAULT, 10_000),
)


def check_requests(stage: Stage, request: bytes, clients: Iterable[tuple[int, int, str, int]],
                   wanted: bytes) -> None:
    """A request that comes in parts. There is no response where it doesn't come."""
    list_sample(stage)
    with new_desk(stage) as desk:
        for pause, at_once, came, time in clients:
            desk.check_served(Wire(request, at_once, pause), wanted if came == SERVED else b'',
                              came=came, time=time)


def test_refusals(stage: Stage) -> None:
    """A request that is refused by its head is answered once the head has come."""
    for request, refusal in REFUSALS:
        clients = [(400, len(request), SERVED, 400), (40, 1, SERVED, 40 * len(request))]
        check_requests(stage, request, clients, refusal)


CASES = {
    'A head is waited for as a whole': lambda stage: check_requests(stage, GET_STATUS, HEADS, STATUS
                                                                    ),
    'A body earns its time': lambda stage: check_requests(stage, LONG_REQUEST, BODIES, PARKED)
}


def test_responses(stage: Stage) -> None:
    """A response is waited for as a whole."""
    list_sample(stage)
    stage.write('request', GET_STATUS)
    with new_desk(stage) as desk:
        for pause, at_once, came, time in TAKERS:
            desk.check(f'taken request {pause} {at_once}', f'{came} after {time} milliseconds\n')

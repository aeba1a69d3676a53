"""The desk on a socket."""
import contextlib
import functools
import os
import resource
import socket
import subprocess
import time
from collections.abc import Callable
from collections.abc import Iterable
from collections.abc import Sequence

from tests.support.bundles import SAMPLE as CONTACT
from tests.support.clients import BAD_REQUEST
from tests.support.clients import NOT_FOUND
from tests.support.clients import PUT_ONLY
from tests.support.clients import RECEIPTS
from tests.support.clients import replied
from tests.support.clients import table
from tests.support.first_store import insertion
from tests.support.formats import KINDS
from tests.support.formats import record
from tests.support.limits import BYTES_A_SECOND
from tests.support.limits import FIRST_SECONDS
from tests.support.limits import MOST_PARKED
from tests.support.messages import get
from tests.support.messages import put
from tests.support.messages import response
from tests.support.outputs import check_narrow
from tests.support.outputs import run_narrow
from tests.support.reports import report
from tests.support.sockets import HOST
from tests.support.sockets import PORTS
from tests.support.sockets import breaks_off
from tests.support.sockets import call
from tests.support.sockets import free_port
from tests.support.sockets import is_taken
from tests.support.sockets import received
from tests.support.sockets import serve
from tests.support.sockets import serving
from tests.support.stage import SECONDS
from tests.support.stage import Failed
from tests.support.stage import Given
from tests.support.stage import Stage
from tests.support.stage import Wanted
from tests.support.stage import difference
from tests.support.steps import Copy
from tests.support.steps import Parked
from tests.support.steps import Statements

CONTACTS = 'contact,C1,contact,0,id,C1', 'contact,C1,contact,0,clID,R1'
# Requests, and their responses.
EXCHANGES = (
    (put('n1', CONTACT), replied(RECEIPTS[0])),
    (b'', BAD_REQUEST),
    (put('n2', b'abc', 4), BAD_REQUEST),
    (put('n2', b'abc'), replied(RECEIPTS[1])),
    (get('/receipts'), table('receipts', *RECEIPTS)),
    (get('/export/contact'), table('export', *CONTACTS)),
    (get('/export/zone'), NOT_FOUND),
    (get('/arrivals/n1'), PUT_ONLY),
    (get('/status', 33 * 'A: b\r\n'), BAD_REQUEST),
)


def responses_of(port: int, requests: Iterable[bytes]) -> list[bytes]:
    """The responses to requests. All requests are sent before a response is read."""
    with contextlib.ExitStack() as calls:
        clients = [calls.enter_context(call(port, it)) for it in requests]
        return list(map(received, clients))


def served(stage: Stage, count: int, ask: Callable[[int], list[bytes]], told: str = '',
           **streams: Given) -> list[bytes]:
    """Serves so many connections from a store, and gives the responses, which are asked for at a
    port. Compares what is told of them."""
    child, port = serve(stage, 'a.db', count, **streams)
    responses = ask(port)
    stage.compare(serving('a.db', port, count), Wanted(0, '', told), stage.end(child))
    return responses


def compare_responses(exchanges: Sequence[tuple[bytes, bytes]], responses: Iterable[bytes]) -> None:
    for (request, wanted), got in zip(exchanges, responses, strict=True):
        if found := difference(f'the response to {request[:60]!r}', wanted.decode(), got):
            raise Failed('\n'.join(found))


def check_responses(stage: Stage, exchanges: Sequence[tuple[bytes, bytes]]) -> None:
    requests = [request for request, _ in exchanges]
    compare_responses(exchanges,
                      served(stage, len(requests), lambda port: responses_of(port, requests)))


def set_up(stage: Stage) -> None:
    Copy('listed.csv', 'with-contact.csv').do(stage)
    stage.check('init --store a.db --manifest listed.csv', Wanted(0, 'listed 1\n'))


def test_connections(stage: Stage) -> None:
    """Connections are served one after the other."""
    set_up(stage)
    check_responses(stage, EXCHANGES)
    # What was answered over a socket is in the store.
    stage.check('report --store a.db receipts', Wanted(0, report('receipts', RECEIPTS)))


def test_unwanted_body(stage: Stage) -> None:
    """A body that is not wanted is let by."""
    set_up(stage)
    head = b'PUT /nowhere HTTP/1.1\r\nContent-Length: 8900\r\n\r\n'
    # More than is read at once, and less than a socket holds before anything is accepted.
    check_responses(stage, [(head.ljust(9_000, b'x'), NOT_FOUND)])


# Requests whose connections break: in the middle of the body, and before the response.
BROKEN = (put('n1', b'abc', 4), get('/status'))
# What is asked for around them, and the response: nothing has arrived.
AROUND = (get('/receipts'), table('receipts'))


def responses_around_broken(port: int) -> list[bytes]:
    """The responses to the first request and to the last one. The connections between these break
    while the first one is waited for."""
    with socket.create_connection((HOST, port), SECONDS) as first:
        for request in BROKEN:
            with socket.create_connection((HOST, port), SECONDS) as client:
                client.sendall(request)
                breaks_off(client)
        first.sendall(AROUND[0])
        first.shutdown(socket.SHUT_WR)
        return [received(first), *responses_of(port, AROUND[:1])]


def test_broken_connections(stage: Stage) -> None:
    """Connections that break are told, and the next ones are served.

    If standard error fails, too, nothing is told."""
    set_up(stage)
    with open('/dev/full', 'wb') as full:
        for told, streams in (('read fault\nwrite fault\n', {}), ('', {'err': full})):
            compare_responses((AROUND, AROUND),
                              served(stage, 4, responses_around_broken, told, **streams))


# A cell so long that no connection holds an export with it, and the response that has it.
CELL = 2_000_000 * 'x'
LONG = table('export', 'contact,C1,contact,0,id,C1', f'contact,C1,contact,0,clID,{CELL}')


def response_since(begun: float, port: int) -> tuple[list[bytes], float]:
    return responses_of(port, AROUND[:1]), time.monotonic() - begun


def check_time(seconds: float, moved: int) -> None:
    """Compares for how long the desk waited for a client that moved so many bytes. (Its own work
    comes on top.)"""
    granted = FIRST_SECONDS + moved // BYTES_A_SECOND
    if not granted - 1 <= seconds < granted + FIRST_SECONDS:
        raise Failed(
            f'a client that is granted {granted} seconds was waited for {seconds:.1f} seconds')


def check_silent(stage: Stage, said: bytes) -> None:
    """A client that came before sends this, and then nothing more."""
    def ask(port: int) -> list[bytes]:
        begun = time.monotonic()
        with socket.create_connection((HOST, port), SECONDS) as silent:
            silent.sendall(said)
            responses, seconds = response_since(begun, port)
        check_time(seconds, len(said))
        return responses

    set_up(stage)
    compare_responses((AROUND,), served(stage, 2, ask, 'read fault\n'))


CASES = {
    f'A client that sends nothing{more} is given up in time, and the next one is served':
    functools.partial(check_silent, said=said)
    for more, said in ((' more', AROUND[0][:8]), ('', b''))
}


def ask_for_long(client: socket.socket, port: int) -> None:
    """Asks for a long response. Neither side of the connection holds much of what isn't taken."""
    client.setsockopt(socket.SOL_SOCKET, socket.SO_RCVBUF, 1)
    client.setsockopt(socket.IPPROTO_TCP, socket.TCP_MAXSEG, 536)
    client.settimeout(SECONDS)
    client.connect((HOST, port))
    client.sendall(get('/export/contact'))


def responses_beside_idle(port: int) -> list[bytes]:
    """The response to a request, while a client that came before takes nothing of its own; and what
    there is of that in the end."""
    begun = time.monotonic()
    with socket.socket() as idle:
        ask_for_long(idle, port)
        responses, seconds = response_since(begun, port)
        taken = received(idle)
    check_time(seconds, len(taken))
    return [*responses, taken]


def test_client_that_takes_nothing(stage: Stage) -> None:
    """A client that takes nothing of a long response is given up in time, and the next one is
    served."""
    set_up(stage)
    put_long(stage)
    *responses, taken = served(stage, 2, responses_beside_idle, 'write fault\n')
    compare_responses((AROUND,), responses)
    if not taken or len(taken) == len(LONG) or not LONG.startswith(taken):
        raise Failed(
            f'{len(taken)} bytes that came are no beginning of the response: {taken[:400]!r}')
    # Whoever takes it gets all of it.
    check_responses(stage, [(get('/export/contact'), LONG)])


def put_long(stage: Stage) -> None:
    """An object with a cell that no connection holds."""
    long = record([('contact', [('id', 'C1'), ('clID', CELL)])])
    Statements('a.db', insertion('object', (KINDS.index('contact'), b'C1', long))).do(stage)


def responses_after_leaving(port: int) -> list[bytes]:
    """The response to a request, once another client has broken off in the middle of an export; and
    what that one had taken."""
    with socket.socket() as client:
        ask_for_long(client, port)
        taken = client.recv(100)
        breaks_off(client)
    return [*responses_of(port, AROUND[:1]), taken]


def test_client_that_leaves(stage: Stage) -> None:
    """A client that breaks off in a long export is told, and the next one is served."""
    set_up(stage)
    put_long(stage)
    *responses, taken = served(stage, 2, responses_after_leaving, 'write fault\n')
    compare_responses((AROUND,), responses)
    if not taken or not LONG.startswith(taken):
        raise Failed(f'{len(taken)} bytes that came are no beginning of the response: {taken!r}')


# The last receipt that there may be, and what is put to a store that has all but this one.
LAST = 1_000_000_000
NO_ROOM = response(503, 'S4\n')
AT_LAST = (
    (put('n2', b'abc'), replied(f'{LAST},n2,A5,,,,,')),
    (put('n3', b'abd'), NO_ROOM),
    (put('n1', CONTACT), NO_ROOM),
    (put('n2', b'abc'), replied(f'{LAST},n2,A5,,,,,')),
    (get('/receipts'), table('receipts', f'{LAST - 1},0001,A5,,,,,', f'{LAST},n2,A5,,,,,')),
)


def test_no_room_for_another_receipt(stage: Stage) -> None:
    """No room for another receipt."""
    set_up(stage)
    Parked('a.db', 1).do(stage)
    # (The next receipt goes by the last one alone.)
    Statements('a.db', f'UPDATE receipt SET receipt = {LAST - 1}').do(stage)
    check_responses(stage, AT_LAST)


def test_no_room_for_another_parked_body(stage: Stage) -> None:
    """No room for another parked body."""
    set_up(stage)
    Parked('a.db', MOST_PARKED).do(stage)
    check_responses(stage, [(put('n2', b'abc'), response(503, 'S5\n')),
                            (put('n1', CONTACT), replied('1025,n1,A1,,F1,0,new,0'))])


def test_taken_port(stage: Stage) -> None:
    """A port that is taken."""
    set_up(stage)
    with socket.create_server((HOST, 0)) as listener:
        port = listener.getsockname()[1]
        check_narrow(stage, serving('a.db', port, 1), 9, Wanted(3, '', f'E1 {HOST}:{port}\n'))
        # The store is opened first.
        check_narrow(stage, serving('absent.db', port, 1), 9, Wanted(3, '', 'S3\n'))
    # If `listening` can't be printed, no client is waited for.
    for _ in range(PORTS):
        line = serving('a.db', port := free_port(), 1)
        if not is_taken(port, got := run_narrow(stage, line, 9)):
            break
    stage.compare(line, Wanted(3, 'listening', 'E1 -\n'), got)


def open_files(child: subprocess.Popen[bytes]) -> set[int]:
    return {int(it) for it in os.listdir(f'/proc/{child.pid}/fd')}


def test_no_more_files(stage: Stage) -> None:
    """Once no more files may be open no connection can be accepted, and none is waited for."""
    set_up(stage)
    child, port = serve(stage, 'a.db', 3)
    before = open_files(child)
    with socket.create_connection((HOST, port), SECONDS) as client:
        # The number of the connection that the child accepts.
        for _ in range(100 * SECONDS):
            if new := open_files(child) - before:
                break
            time.sleep(0.01)
        else:
            raise Failed('no connection is accepted')
        most = min(new)
        resource.prlimit(child.pid, resource.RLIMIT_NOFILE, (most, most))
        client.sendall(AROUND[0])
        client.shutdown(socket.SHUT_WR)
        compare_responses((AROUND,), [received(client)])
    stage.compare(serving('a.db', port, 3), Wanted(3, '', f'E1 {HOST}:{port}\n'), stage.end(child))

"""Clients that hold their connection to `serve`: each on a desk of its own, with a good client
after it.

The desk grants a client 10 seconds, and one more for each 65,536 bytes that came or went, and reads
for 10 seconds what comes after the response. So the good client has to get its whole response
within that time, and a margin for the machine; the desk has to tell each client that it gave up,
and to end by itself with its store as it was."""
import concurrent.futures
import itertools
import socket
import threading
import time
from dataclasses import dataclass
from typing import Iterable

from tests.support.bundles import manifest
from tests.support.limits import BYTES_A_SECOND
from tests.support.limits import FIRST_SECONDS
from tests.support.messages import response
from tests.support.sockets import HOST
from tests.support.sockets import received
from tests.support.stores import copy
from trials.fuzzing.damage import table_of
from trials.trial import Trial

MARGIN = 5
READ_FAULT, WRITE_FAULT = b'read fault\n', b'write fault\n'
HEAD = b'GET /status HTTP/1.1\r\nHost: a\r\n'
PUT = b'PUT /arrivals/n9 HTTP/1.1\r\nContent-Length: 2000000\r\n\r\n'
SHORT, LONG = b'GET /gaps HTTP/1.1\r\n\r\n', b'GET /export/contact HTTP/1.1\r\n\r\n'


@dataclass
class Kind:
    """A kind of client: what it sends at once; what it sends then, a piece each so many seconds;
    how many bytes it reads with each piece; what the desk tells of it; how many bytes may earn it
    time; and whether it ends what it sends."""
    first: bytes = b''
    then: Iterable = ()
    every: float = 0.25
    reads: int = 0
    fault: bytes = READ_FAULT
    earns: int = 0
    ends: bool = False

    def most(self) -> float:
        """The seconds within which the next client is served."""
        return FIRST_SECONDS + self.earns / BYTES_A_SECOND + MARGIN


def kinds(longest: int) -> dict[str, Kind]:
    """The kinds of clients, by what they do. The longest response has so many bytes."""
    again = itertools.repeat
    return {
        'connects and sends nothing': Kind(),
        'sends half a head and stands still': Kind(HEAD),
        'sends its head byte by byte': Kind(HEAD, again(b'a')),
        'sends its head line by line': Kind(HEAD, again(b'A: b\r\n'), every=0.9),
        'sends a head and no body': Kind(PUT),
        'sends half a body and stands still': Kind(PUT + bytes(10**6), earns=10**6),
        'sends its body byte by byte': Kind(PUT, again(b'x')),
        'sends 2,000,000 bytes in 16 seconds': Kind(PUT, [bytes(31_250)] * 64, fault=b'',
                                                    earns=2 * 10**6, ends=True),
        'reads nothing of a long response': Kind(LONG, fault=WRITE_FAULT, earns=longest),
        'reads a long response byte by byte': Kind(LONG, reads=1, fault=WRITE_FAULT, earns=longest),
        'reads nothing of a short response': Kind(SHORT, fault=b''),
        'has its response and stands still': Kind(SHORT, reads=4096, fault=b''),
        'has its response and sends byte by byte': Kind(SHORT, again(b'x'), fault=b''),
        'is refused and sends its body byte by byte': Kind(b'PUT /nowhere HTTP/1.1\r\n\r\n',
                                                           again(b'x'), fault=b''),
        'breaks off in its head': Kind(HEAD, ends=True, fault=b''),
    }


def hold(kind: Kind, client: socket.socket, done: threading.Event) -> None:
    """Holds a connection until the desk gives it up, or the good client is done."""
    try:
        client.sendall(kind.first)
        for piece in kind.then or itertools.repeat(b''):
            if done.wait(kind.every) or kind.ends and not piece:
                break
            client.send(piece)
            if kind.reads:
                client.recv(kind.reads)
        if kind.ends:
            client.shutdown(socket.SHUT_WR)
            done.wait()
    except OSError:
        done.wait()


def connection(port: int, seconds: float) -> socket.socket:
    client = socket.socket()
    # (a small window, so that what the system keeps of a response for its client is little)
    client.setsockopt(socket.SOL_SOCKET, socket.SO_RCVBUF, 4096)
    client.settimeout(seconds)
    client.connect((HOST, port))
    return client


def asked(port: int, request: bytes, seconds: float) -> tuple[bytes, float]:
    """A good client's response, and how long it took."""
    begun = time.perf_counter()
    try:
        with socket.create_connection((HOST, port), seconds) as client:
            client.sendall(request)
            got = received(client)
    except OSError as fault:
        got = repr(fault).encode()
    return got, time.perf_counter() - begun


def over_one(trial: Trial, base: str, what: str, kind: Kind, expected: bytes) -> None:
    """Holds one connection, and asks on one that comes after it. Compares what comes, how long it
    takes, and how the desk ends."""
    server, port = trial.serve(copy(base, f'{base}-{abs(hash(what))}'), 2)
    done, most = threading.Event(), kind.most()
    with connection(port, 2 * most) as client:
        holder = threading.Thread(target=hold, args=(kind, client, done))
        holder.start()
        time.sleep(0.2)
        got, seconds = asked(port, SHORT, 2 * most)
        done.set()
        holder.join()
    print(f'{what:56} the next client after {seconds:5.1f} s of at most {most:5.1f}', flush=True)
    trial.expect(f'client ({what})', (expected, True, (0, b'', kind.fault)),
                 (got, seconds <= most, trial.end_of(server)))
    trial.counts['inputs'] += 1


def over_clients(trial: Trial) -> None:
    """A client of each kind on a desk of its own, all side by side, and a good one after it."""
    body = table_of(b''.join(b'%059d\n' % key for key in range(60_000)))
    store, folder, _ = trial.set_up('held', manifest([('L,FULL,2024-04-01T00:00:00Z,,', body)]),
                                    [('n1', body)])
    trial.run('take', '--store', store, folder)
    told = trial.texts(store)
    expected = response(200, told['/gaps'], 'text/csv')
    with concurrent.futures.ThreadPoolExecutor(20) as pool:
        for it in [pool.submit(over_one, trial, store, *kind, expected)
                   for kind in kinds(len(told['/export/contact'])).items()]:
            it.result()

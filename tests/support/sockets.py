"""Desks on sockets of this machine, and what comes over a connection to one."""
import socket
import struct
import subprocess

from tests.support.stage import SECONDS
from tests.support.stage import Failed
from tests.support.stage import Given
from tests.support.stage import Got
from tests.support.stage import Stage
from tests.support.stage import pieces_of

HOST = '127.0.0.1'
# How many ports are tried.
PORTS = 5


def free_port() -> int:
    """A port on which nothing listens."""
    with socket.create_server((HOST, 0)) as listener:
        return listener.getsockname()[1]


def serving(store: str, port: int, count: int, option: str = '') -> str:
    """The line of a run that serves so many connections, with one more option."""
    return f'serve --store {store} --port {port} --count {count} {option}'.strip()


def is_taken(port: int, got: Got) -> bool:
    """Whether a desk has ended because it couldn't listen on the port. (Where its standard error is
    no pipe, nothing is seen of that.)"""
    return got.status == 3 and not got.out and got.err in (b'', f'E1 {HOST}:{port}\n'.encode())


def serve(stage: Stage, store: str, count: int, option: str = '',
          **streams: Given) -> tuple[subprocess.Popen[bytes], int]:
    """A desk that serves so many connections: the run, which has printed that it listens, and its
    port. Cases are played side by side: where another one took the port before the desk listened on
    it, it is another port."""
    for _ in range(PORTS):
        port = free_port()
        child = stage.begin(serving(store, port, count, option).split(),
                            **streams)  # type: ignore[arg-type]
        if next(pieces_of(child.stdout), b'') == f'listening {HOST}:{port}\n'.encode():
            return child, port
        got = stage.end(child)
        if not is_taken(port, got):
            break
    raise Failed(f'{store} is not served: {got}')


def call(port: int, request: bytes) -> socket.socket:
    """Sends a request over a connection of its own, and ends what is sent."""
    client = socket.create_connection((HOST, port), SECONDS)
    client.sendall(request)
    client.shutdown(socket.SHUT_WR)
    return client


def received(client: socket.socket) -> bytes:
    """All that comes over a connection until its end."""
    return b''.join(iter(lambda: client.recv(65_536), b''))


def response_to(port: int, request: bytes) -> bytes:
    with call(port, request) as client:
        return received(client)


def breaks_off(client: socket.socket) -> None:
    """Has a connection break once it is closed."""
    client.setsockopt(socket.SOL_SOCKET, socket.SO_LINGER, struct.pack('ii', 1, 0))

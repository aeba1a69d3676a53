"""A desk on a socket, what it has to answer, and the requests that it gets."""
import random
import re
import socket
import time
from collections.abc import Sequence

from tests.support import model
from tests.support.bundles import manifest
from tests.support.clients import replied
from tests.support.messages import asked
from tests.support.messages import response
from tests.support.reports import report
from tests.support.sockets import HOST
from tests.support.sockets import breaks_off
from tests.support.sockets import received
from trials.fuzzing import requests
from trials.fuzzing.arrivals import Listed
from trials.fuzzing.arrivals import expected_take
from trials.fuzzing.arrivals import names
from trials.trial import Trial

# How long a connection may take.
PATIENCE = 60


class Desk:
    """A desk on a socket, which serves so many connections beside those of its rows, and what it
    has to answer."""

    def __init__(self, trial: Trial, batch: int, rng: random.Random, rows: list[Listed],
                 many: int) -> None:
        self.trial, self.name = trial, f'server {batch}'
        listed = manifest((row.header, row.body) for row in rows)
        self.model, self.faults = model.Desk(listed), 0
        self.bodies = [row.body for row in rows] + [b'', b'abc', rng.randbytes(5000)]
        self.numbers = names(rng, 6) + ['n1']
        self.store, *_ = trial.set_up(f'desk-{batch}', listed)
        twin, self.folder, _ = trial.set_up(f'twin-{batch}', listed,
                                            [(f'n{number}', row.body)
                                             for number, row in enumerate(rows)])
        trial.run('take', '--store', twin, self.folder)
        self.texts = trial.texts(twin)
        self.server, self.port = trial.serve(self.store, len(rows) + many)

    def answer(self, text: bytes) -> bytes:
        """The bytes that have to answer a request. An arrival is taken."""
        what, *more = asked(text)
        if what == 'PUT':
            return replied(self.model.row_text(self.model.arrive(*more)))
        if what == 'GET':
            return response(200, self.report(*more), 'text/plain' if more == ['/status']
                            else 'text/csv')
        return response(what, more[0], allow=more[1])

    def report(self, path: str) -> str | bytes:
        """A report: that of the twin, for which other receipts were given."""
        if path == '/receipts':
            return report('receipts', self.model.receipt_rows())
        if path == '/parked':
            return report('parked', self.model.parked_rows())
        if path != '/status':
            return self.texts[path]
        return re.sub('receipts [0-9]+', f'receipts {len(self.model.receipts)}',
                      self.texts[path].decode())

    def ask(self, rng: random.Random, what: str, text: bytes) -> None:
        """Sends a request in pieces, and compares what comes."""
        expected = self.answer(text)
        begun = time.perf_counter()
        try:
            got = sent(self.port, pieces(rng, text))
        except OSError as fault:
            got = repr(fault).encode()
        self.trial.counts['slowest'] = max(self.trial.counts['slowest'],
                                           time.perf_counter() - begun)
        self.trial.expect(f'request ({what}) to {self.name}', expected, got, request=text)

    def break_off(self, rng: random.Random) -> None:
        """Sends the front of a PUT, and breaks the connection: nothing arrives, and a read fault is
        told."""
        text = requests.put_request(rng, 'broken', rng.choice(self.bodies) + b'more')
        with socket.create_connection((HOST, self.port), PATIENCE) as client:
            client.sendall(text[:rng.randrange(1, len(text))])
            breaks_off(client)
        self.faults += 1

    def close(self) -> None:
        """The server has ended by itself, told each connection that broke, and left a whole
        store."""
        self.trial.expect(f'the end of {self.name}', (0, b'', b'read fault\n' * self.faults),
                          self.trial.end_of(self.server))
        self.trial.check_store(self.name, self.store)
        told = self.trial.run('report', '--store', self.store, 'receipts')
        self.trial.expect(f'receipts of {self.name}',
                          (0, report('receipts', self.model.receipt_rows()).encode(), b''), told)
        again = self.trial.run('take', '--store', self.store, self.folder)
        files = {f'n{number}': body for number, body in enumerate(self.bodies[:-3])}
        self.trial.expect(f'the folder of {self.name} taken again',
                          expected_take(files, self.model), again)
        export = self.trial.texts(self.store)['/export/domain']
        self.trial.expect(f'the domains of {self.name}', self.texts['/export/domain'], export)


def pieces(rng: random.Random, text: bytes) -> list[bytes]:
    """The same bytes, whole, in some pieces, or byte by byte."""
    many = rng.choice((0, 0, 1, 2, 5))
    cuts = sorted(rng.randrange(len(text) + 1) for _ in range(many))
    if len(text) < 200 and rng.random() < 0.2:
        cuts = list(range(len(text)))
    return [text[at:to] for at, to in zip([0, *cuts], [*cuts, len(text)])]


def sent(port: int, text: Sequence[bytes]) -> bytes:
    """Sends pieces by a connection of its own, ends it, and answers all that comes."""
    with socket.create_connection((HOST, port), PATIENCE) as client:
        client.setsockopt(socket.IPPROTO_TCP, socket.TCP_NODELAY, 1)
        for piece in text:
            client.sendall(piece)
            if len(text) > 1:
                time.sleep(0.0005)
        client.shutdown(socket.SHUT_WR)
        return received(client)


def over_requests(trial: Trial, batch: int, rng: random.Random, rows: list[Listed],
                  many: int) -> None:
    """A desk on a socket: the bundles first, then requests of all kinds, good ones among them."""
    desk = Desk(trial, batch, rng, rows, many)
    for number, row in enumerate(rows):
        desk.ask(rng, 'good', requests.put_request(rng, f'n{number}', row.body))
    for index in range(many):
        choice = rng.random()
        if choice < 0.03:
            desk.break_off(rng)
            continue
        what, change = ('good', requests.good) if choice < 0.4 else rng.choice(requests.REQUESTS)
        if index == many // 2:
            what, change = 'large', requests.large_request
        desk.ask(rng, what, change(rng, desk))
    desk.close()
    trial.counts['inputs'] += len(rows) + many

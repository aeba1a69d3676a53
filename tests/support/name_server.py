"""NSD on this machine, with one zone, and what it has to answer."""
import socket
import subprocess
import time
from collections.abc import Iterable
from typing import NamedTuple

from tests.support.checkers import path_of
from tests.support.dns import Message
from tests.support.dns import Record
from tests.support.dns import Server
from tests.support.zones import is_below
from tests.support.zones import parents_of

SECONDS = 20
CONFIGURATION = """server:
    ip-address: 127.0.0.1@{port}
    do-ip6: no
    server-count: 1
    username: ""
    chroot: ""
    zonesdir: "{room}"
    database: ""
    pidfile: "{room}/nsd.pid"
    zonelistfile: "{room}/zone.list"
    xfrdfile: "{room}/xfrd.state"
    xfrdir: "{room}"
    minimal-responses: no
    rrl-ratelimit: 0
remote-control:
    control-enable: no
zone:
    name: "{origin}"
    zonefile: "{zone}"
    provide-xfr: 127.0.0.1 NOKEY
"""


def free_port() -> int:
    with socket.create_server(('127.0.0.1', 0)) as listener:
        return listener.getsockname()[1]


class NameServer:
    """NSD with the zone of a file, in a folder of its own. It is there in a `with` statement."""

    def __init__(self, room: str, zone: str, origin: str) -> None:
        self.room, self.origin, self.port = room, origin, free_port()
        with open(f'{room}/nsd.conf', 'w', encoding='utf-8') as file:
            file.write(CONFIGURATION.format(room=room, zone=zone, origin=origin, port=self.port))

    def __enter__(self) -> 'NameServer':
        with open(f'{self.room}/nsd.log', 'wb') as log:
            words = [path_of('nsd') or 'nsd', '-d', '-c', f'{self.room}/nsd.conf']
            self.child = subprocess.Popen(words, stdin=subprocess.DEVNULL, stdout=log, stderr=log)
        return self

    def __exit__(self, *_: object) -> None:
        self.child.terminate()
        self.child.wait()

    def connected(self) -> Server:
        """A connection, once the zone is there. Without one it is refused."""
        latest = time.monotonic() + SECONDS
        while time.monotonic() < latest and self.child.poll() is None:
            try:
                server = Server(self.port)
                if server.ask(self.origin, 'SOA').answer:
                    return server
            except ConnectionError:
                pass
            time.sleep(0.1)
        raise ConnectionError('NSD does not serve the zone')


class Answer(NamedTuple):
    """What of an answer is compared. A referral has its servers, and their addresses; an answer
    with authority has the records that were asked for."""
    code: str
    is_authority: bool
    records: frozenset[Record]
    addresses: frozenset[Record]

    def __str__(self) -> str:
        records = sorted([*self.records, *self.addresses])
        said = ', '.join(' '.join(it) for it in records[:4]) + (' ..' if len(records) > 4 else '')
        return f'{self.code}{" with authority" if self.is_authority else ""}: {said or "nothing"}'


def answer_of(message: Message) -> Answer:
    if message.is_authority:
        return Answer(message.code, True, frozenset(message.answer), frozenset())
    servers = [it for it in message.authority if it.type == 'NS']
    return Answer(message.code, False, frozenset([*message.answer, *servers]),
                  frozenset(message.additional))


class Lookup:
    """What a server has to answer that has these records (RFC 1034 4.3.2)."""

    def __init__(self, origin: str, records: Iterable[Record]) -> None:
        self.origin = origin
        self.at: dict[str, list[Record]] = {}
        for it in records:
            self.at.setdefault(it.name, []).append(it)
        # The names that are there though they have no record, since one below them has.
        self.between = {it for name in self.at for it in parents_of(name) if is_below(it, origin)}

    def records(self, name: str, *types: str) -> frozenset[Record]:
        return frozenset(it for it in self.at.get(name, ()) if it.type in types)

    def cut(self, name: str) -> str | None:
        """The uppermost delegation at or above a name."""
        names = [it for it in (name, *parents_of(name)) if it.endswith(f'.{self.origin}')]
        return next((it for it in reversed(names) if self.records(it, 'NS')), None)

    def answer(self, name: str, kind: str) -> Answer:
        cut = self.cut(name)
        if cut and not (kind == 'DS' and name == cut):
            servers = self.records(cut, 'NS')
            glue = [self.records(it.data, 'A', 'AAAA') for it in servers]
            return Answer('NOERROR', False, servers, frozenset().union(*glue))
        is_there = name in self.at or name in self.between
        return Answer('NOERROR' if is_there else 'NXDOMAIN', True, self.records(name, kind),
                      frozenset())

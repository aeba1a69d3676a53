"""Questions to a DNS server over TCP, and its answers (RFC 1035 4). Names are texts in small
letters without a dot at their end; that of the root is empty."""
import ipaddress
import socket
import struct
from collections.abc import Iterator
from typing import NamedTuple

TYPES = {'A': 1, 'NS': 2, 'SOA': 6, 'TXT': 16, 'AAAA': 28, 'DS': 43, 'AXFR': 252}
NAMES = {number: name for name, number in TYPES.items()}
CODES = {0: 'NOERROR', 2: 'SERVFAIL', 3: 'NXDOMAIN', 5: 'REFUSED'}
IN, SECONDS = 1, 10
# A name has at most 127 labels; so many pointers may stand between them.
MOST_STEPS = 256


class Record(NamedTuple):
    name: str
    type: str
    data: str


class Message(NamedTuple):
    """An answer: its code, whether it has authority, and the records of each section."""
    code: str
    is_authority: bool
    answer: list[Record]
    authority: list[Record]
    additional: list[Record]


# ---- texts as bytes, and back


def name_bytes(name: str) -> bytes:
    labels: list[bytes] = [it.encode() for it in name.split('.')] if name else []
    if any(not 0 < len(it) < 64 for it in labels):
        raise ValueError(f'no name: {name}')
    return b''.join(bytes([len(it)]) + it for it in labels) + b'\0'


def name_at(message: bytes, at: int) -> tuple[str, int]:
    """A name, whose end may stand elsewhere in the message (4.1.4), and where it ends."""
    labels: list[str] = []
    end = None
    for _ in range(MOST_STEPS):
        length = message[at]
        if length == 0:
            return '.'.join(labels), end or at + 1
        if length >= 0xC0:
            end = end or at + 2
            at = struct.unpack_from('>H', message, at)[0] & 0x3FFF
        else:
            labels.append(message[at + 1:at + 1 + length].decode(errors='replace').lower())
            at += 1 + length
    raise ValueError('a name without an end')


def data_text(message: bytes, kind: str, at: int, length: int) -> str:
    """The data of a record as a zone has it; of types that are not known its digits."""
    data = message[at:at + length]
    if kind in ('A', 'AAAA'):
        return str(ipaddress.ip_address(data))
    if kind == 'NS':
        return name_at(message, at)[0]
    if kind == 'DS':
        tag, algorithm, digest_type = struct.unpack_from('>HBB', data)
        return f'{tag} {algorithm} {digest_type} {data[4:].hex().upper()}'
    return data.hex()


def records_at(message: bytes, at: int, count: int) -> tuple[list[Record], int]:
    found = []
    for _ in range(count):
        name, at = name_at(message, at)
        kind, _, _, length = struct.unpack_from('>HHIH', message, at)
        kind = NAMES.get(kind, f'TYPE{kind}')
        found.append(Record(name, kind, data_text(message, kind, at + 10, length)))
        at += 10 + length
    return found, at


def message_of(data: bytes) -> Message:
    _, flags, questions, *counts = struct.unpack_from('>HHHHHH', data)
    at = 12
    for _ in range(questions):
        at = name_at(data, at)[1] + 4
    sections = []
    for count in counts:
        records, at = records_at(data, at, count)
        sections.append(records)
    return Message(CODES.get(flags & 15, f'{flags & 15}'), bool(flags & 0x0400), *sections)


# ---- over TCP


class Server:
    """A connection to a server on this machine. It is there in a `with` statement."""

    def __init__(self, port: int) -> None:
        self.socket = socket.create_connection(('127.0.0.1', port), SECONDS)
        self.file = self.socket.makefile('rb')

    def __enter__(self) -> 'Server':
        return self

    def __exit__(self, *_: object) -> None:
        self.file.close()
        self.socket.close()

    def send(self, name: str, kind: str) -> None:
        question = name_bytes(name) + struct.pack('>HH', TYPES[kind], IN)
        message = struct.pack('>HHHHHH', 1, 0, 1, 0, 0, 0) + question
        self.socket.sendall(struct.pack('>H', len(message)) + message)

    def receive(self) -> Message:
        head = self.file.read(2)
        data = self.file.read(struct.unpack('>H', head)[0]) if len(head) == 2 else b''
        if len(data) < 12:
            raise ConnectionError('the server has closed the connection')
        return message_of(data)

    def ask(self, name: str, kind: str) -> Message:
        self.send(name, kind)
        return self.receive()

    def transfer(self, origin: str) -> Iterator[Record]:
        """The records of a zone, from its SOA to that SOA again (RFC 5936 2.2)."""
        self.send(origin, 'AXFR')
        ends = 0
        while ends < 2:
            message = self.receive()
            if message.code != 'NOERROR' or not message.answer:
                raise ConnectionError(f'no transfer: {message.code}')
            for it in message.answer:
                ends += it.type == 'SOA'
                yield it

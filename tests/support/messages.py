"""Requests and responses of the desk over HTTP: made, and read in plain Python by the words of
docs/DEFINITIONS.md."""
import re

from tests.support.formats import KINDS
from tests.support.formats import is_id
from tests.support.formats import is_utf8
from tests.support.limits import MOST_BYTES
from tests.support.limits import MOST_HEAD
from tests.support.limits import MOST_LINES

# What an input asks for, or the status, the text and the allowed method of its refusal.
Asked = tuple[str, str, bytes] | tuple[str, str] | tuple[int, str, str | None]
TOKEN = rb"[A-Za-z0-9!#$%&'*+\-.^_`|~]+"
HEAD = re.compile(rb'(?:\r?\n)*(' + TOKEN + rb') ([\x21-\x7e\x80-\xff]+) HTTP/1\.[01]\r?\n((?:' +
                  TOKEN + rb':[\t\x20-\x7e\x80-\xff]*\r?\n)*)\r?\n')
REASONS = {
    200: 'OK',
    202: 'Accepted',
    400: 'Bad Request',
    404: 'Not Found',
    405: 'Method Not Allowed',
    411: 'Length Required',
    413: 'Content Too Large',
    422: 'Unprocessable Content',
    503: 'Service Unavailable'
}
PATHS = ('/status', '/gaps', '/links', '/receipts', '/parked', *(f'/export/{kind}'
                                                                 for kind in KINDS))


def get(path: str, fields: str = '') -> bytes:
    return f'GET {path} HTTP/1.1\r\n{fields}\r\n'.encode()


def put(number: str, body: bytes, length: int | None = None) -> bytes:
    """An arrival, which may say another length than it has."""
    said = len(body) if length is None else length
    return f'PUT /arrivals/{number} HTTP/1.1\r\nContent-Length: {said}\r\n\r\n'.encode() + body


def response(status: int, text: str | bytes, type: str = 'text/plain',
             allow: str | None = None) -> bytes:
    body = text if isinstance(text, bytes) else text.encode()
    lines = [
        f'HTTP/1.1 {status} {REASONS[status]}', f'Content-Type: {type}',
        f'Content-Length: {len(body)}', 'Connection: close'
    ]
    lines += [f'Allow: {allow}'] if allow else []
    return ''.join(f'{line}\r\n' for line in [*lines, '']).encode() + body


def asked(text: bytes) -> Asked:
    """What an input asks for: (`PUT`, number, body), (`GET`, path), or the status, the text and the
    allowed method of its refusal."""
    head = HEAD.match(text)
    lines = [line.partition(b':') for line in head[3].splitlines()] if head else []
    if not head or head.end() > MOST_HEAD or len(lines) > MOST_LINES or not is_utf8(head[2]):
        return 400, 'bad request\n', None
    path = head[2].partition(b'?')[0].decode()
    arrival = re.fullmatch('/arrivals/([^/]+)', path, flags=re.S)
    if not arrival and path not in PATHS:
        return 404, 'not found\n', None
    method = 'PUT' if arrival else 'GET'
    if head[1] != method.encode():
        return 405, 'method not allowed\n', method
    return arrival_in(arrival[1], lines, text[head.end():]) if arrival else ('GET', path)


def arrival_in(number: str, lines: list[tuple[bytes, bytes, bytes]], rest: bytes) -> Asked:
    if not is_id(number):
        return 400, 'N1\n', None
    named = [(name.lower(), value.strip(b' \t')) for name, _, value in lines]
    lengths = [value for name, value in named if name == b'content-length']
    if not lengths or any(name == b'transfer-encoding' for name, _ in named):
        return 411, 'length required\n', None
    if len(lengths) > 1 or not re.fullmatch(b'[0-9]+', lengths[0]):
        return 400, 'bad request\n', None
    length = lengths[0].lstrip(b'0') or b'0'
    if len(length) > len(str(MOST_BYTES)) or int(length) > MOST_BYTES:
        return 413, 'too large\n', None
    if len(rest) < int(length):
        return 400, 'bad request\n', None
    return 'PUT', number, rest[:int(length)]

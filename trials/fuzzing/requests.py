"""Requests for `fuzz.py`, seeded: good ones, and ones that are damaged, cut, or ask what nobody
should. Each function answers the bytes of one. What has to come of them is what support/messages.py
reads in them. A desk here is what has `bodies` and `numbers` for arrivals."""
import random
from collections.abc import Iterable
from typing import Protocol

from tests.support.messages import PATHS
from trials.fuzzing.damage import damaged

LINES = [('Host', '127.0.0.1'), ('User-Agent', 'fuzz'), ('Accept', '*/*'),
         ('Expect', '100-continue'), ('Accept', 'text/csv'), ('X-Empty', ''),
         ('Connection', 'keep-alive'), ('X-Latin', '\u00e9\u00ff'), ('Content-Type', 'text/csv'),
         ('X-Long', 'x' * 1000)]
TARGETS = ('/', '*', '/status/', '//status', '/STATUS', '/st%61tus', '/status#x', '/export',
           '/export/', '/export/zone', '/export/domain/', '/export/DOMAIN',
           'http://127.0.0.1/status', '/arrivals', '/arrivals/n1', '/\u00c3\u00a9', '/\u00ff\u00fe',
           '/status\u00c3', '/sta tus', '/sta\ttus', '/status\x7f', '', '/../status',
           '/status?\u00e2\u0082\u00ac', '/status?' + 'a' * 7000, '/' + 'a' * 8000,
           '/arrivals/' + 'a' * 65, '/{kind}', '/nowhere')
METHODS = ('HEAD', 'get', 'PUT', 'POST', 'DELETE', 'OPTIONS', 'TRACE', 'G\u00c9T', '', 'GET\t',
           'A' * 8000)
VERSIONS = ('HTTP/2.0', 'HTTP/1.2', 'HTTP/1', 'HTTP/0.9', 'http/1.1', 'HTTP/1.1 ', ' HTTP/1.1',
            'ICAP/1.0', '')
NUMBERS = ('a' * 65, 'a%20b', '\u00c3\u00a9', 'n1/', '', 'a/b', 'n1?x', '.', 'a' * 64, 'a,b', '%')
ODD_LINES = (b'no colon', b': value', b' X: folded', b'X : y', b'X: a\0b', b'X: a\rb', b'X: \x7f',
             b'\xc3\xa9: y', b'X(: y', b'\tX: y', b'X: a\x0bb')
MORE = ([('Transfer-Encoding', 'chunked')], [('Transfer-Encoding', '')],
        [('Transfer-Encoding', 'identity'), ('Content-Length', '7')], [('Content-Length', '0')],
        [('Host', 'a'), ('Host', 'b')], [('Expect', '100-continue')] * 5)
FRONTS = (b'x', b'\n', b'\r\n', b'GET ', b'GET /gaps HTTP/1.1', b'GET /gaps HTTP/1.1\r\nX: ',
          b'GET /\xc3\xa9')


class Arrivals(Protocol):
    """The bodies that may arrive, and numbers for them."""
    bodies: list[bytes]
    numbers: list[str]


def head(rng: random.Random, method: str, target: str, lines: Iterable[tuple[str, str]] = (),
         version: str = 'HTTP/1.1', end: bytes = b'\r\n') -> bytes:
    """A request's head, its header names in any case."""
    spelled = [rng.choice((str, str.upper, str.lower, str.swapcase))(name)
               + rng.choice((':', ': ', ':\t ')) + value for name, value in lines]
    return b''.join(line.encode('latin-1') + end
                    for line in [f'{method} {target} {version}', *spelled, ''])


def other_lines(rng: random.Random) -> list[tuple[str, str]]:
    return rng.sample(LINES, rng.randint(0, 6))


def put_request(rng: random.Random, number: str, body: bytes, length: str | None = None,
                more: Iterable[tuple[str, str]] = ()) -> bytes:
    lines = other_lines(rng) + [('Content-Length', f'{len(body)}' if length is None else length),
                                *more]
    rng.shuffle(lines)
    return head(rng, 'PUT', f'/arrivals/{number}', lines) + body


def good(rng: random.Random, desk: Arrivals) -> bytes:
    """A PUT of some bundle, or a GET."""
    if rng.random() < 0.5:
        target, end = (rng.choice(PATHS) + rng.choice(('', '', '?a=b', '?')),
                       rng.choice((b'\r\n', b'\n')))
        return head(rng, 'GET', target, other_lines(rng), rng.choice(('HTTP/1.0', 'HTTP/1.1')), end)
    return put_request(rng, rng.choice(desk.numbers), rng.choice(desk.bodies))


def other_length(rng: random.Random, desk: Arrivals) -> bytes:
    body = rng.choice(desk.bodies)
    size = len(body)
    lengths = [f'{it}'
               for it in (0, size + 1, max(size - 1, 0), 2**24, 2**24 + 1, 2**32 + size, 2**64,
                          2**64 + size, '9' * 500, '0' * 300)]
    lengths += [f'000{size}', '', f'+{size}', f'-{size}', f'{size}, {size}', f'{size} {size}',
                f'{size:#x}', f'{size}.0', '\u00b2']
    return put_request(rng, 'n1', body, rng.choice(lengths))


def repeated_lines(rng: random.Random, desk: Arrivals) -> bytes:
    body = rng.choice(desk.bodies)
    return put_request(rng, 'n1', body, None,
                       rng.choice((*MORE, [('Content-Length', f'{len(body)}')])))


def long_head(rng: random.Random, _desk: Arrivals) -> bytes:
    front = head(rng, 'GET', '/gaps', [('X', '')])
    at = front.rindex(b'\r\n\r\n')
    length = rng.choice((8190, 8191, 8192, 8193, 8194, 20_000))
    return front[:at] + b'x' * (length - len(front)) + front[at:]


def without_end(rng: random.Random, _desk: Arrivals) -> bytes:
    text = rng.choice(FRONTS)
    return text + text[-1:] * rng.choice((0, 1, 8192, 9000, 100_000))


def other_target(rng: random.Random, _desk: Arrivals) -> bytes:
    return head(rng, 'GET', rng.choice(TARGETS), other_lines(rng)[:2])


def damaged_request(rng: random.Random, desk: Arrivals) -> bytes:
    front = rng.choice((good, good, repeated_lines, other_length))(rng, desk)
    at = front.find(b'\n\r\n') + 3
    changed = damaged(rng, front[:at] if rng.random() < 0.8 else front)
    return changed + (front[at:] if rng.random() < 0.8 else b'')


def cut_request(rng: random.Random, desk: Arrivals) -> bytes:
    front = good(rng, desk)
    return front[:rng.randrange(len(front))]


def large_request(rng: random.Random, _desk: Arrivals) -> bytes:
    return put_request(rng, 'n1', bytes(2**24 + rng.randrange(2)))


# What is sent beside good requests, of which some are sent more often. What follows a request is
# none: it gets no answer, and no arrival is taken.
REQUESTS = [(it.__name__, it) for it in (other_length, other_length, repeated_lines)] + [
    ('without_length',
     lambda rng, desk: head(rng, 'PUT', '/arrivals/n1', other_lines(rng))
     + rng.choice(desk.bodies)),
    ('many_lines',
     lambda rng, _: head(rng, 'GET', '/gaps', [('X', 'y')] * rng.choice((31, 32, 33, 34, 200)))),
    *((it.__name__, it) for it in (long_head, without_end, other_target, other_target)),
    ('other_number',
     lambda rng, desk: put_request(rng, rng.choice(NUMBERS), rng.choice(desk.bodies))),
    ('other_method',
     lambda rng, _: head(rng, rng.choice(METHODS),
                         rng.choice((*PATHS, *TARGETS[:5], '/arrivals/n1')))),
    ('other_line', lambda rng, _: b'GET /gaps HTTP/1.1\r\nHost: a\r\n' + rng.choice(ODD_LINES)
     + b'\r\n\r\n'),
    ('other_version', lambda rng, _: head(rng, 'GET', '/gaps', (), rng.choice(VERSIONS))),
    ('pipelined',
     lambda rng, desk: rng.choice((good, other_length, other_target))(rng, desk)
     + put_request(rng, 'second', b'second')),
    ('random_bytes', lambda rng, _: rng.randbytes(rng.choice((1, 10, 1000, 1_000_000)))),
    *[('damaged_request', damaged_request)] * 4, *[('cut_request', cut_request)] * 2,
]

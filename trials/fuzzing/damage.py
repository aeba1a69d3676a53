"""Damage to the bytes of any input, seeded: bits flipped, bytes overwritten, put in, cut out, put
in twice; and bundles of any sections."""
import json
from collections.abc import Sequence
from random import Random

from tests.support.bundles import FIRST_LINE
from tests.support.bundles import Table
from tests.support.bundles import compact
from tests.support.bundles import deposit
from tests.support.formats import sections


def flipped(random: Random, text: bytes) -> bytes:
    out = bytearray(text)
    for _ in range(random.choice((1, 1, 1, 2, 8))):
        out[random.randrange(len(out))] ^= 1 << random.randrange(8)
    return bytes(out)


def damaged_once(random: Random, text: bytes) -> bytes:
    """Bytes that are overwritten, put in, cut out or put in twice, or bits that are flipped."""
    kind = random.randrange(6)
    if kind < 2:
        return flipped(random, text)
    if kind == 3:
        at = random.randrange(len(text) + 1)
        piece = random.choice((random.randbytes(random.randint(1, 9)), b'\n', b'\r\n', b',', b'"',
                               b'""', b'\0', b'\xef\xbb\xbf', b' ', b'end\n'))
        return text[:at] + piece + text[at:]
    at = random.randrange(len(text))
    if kind == 2:
        size = random.randint(1, 16)
        return text[:at] + random.randbytes(size) + text[at + size:]
    if kind == 4:
        return text[:at] + text[at + random.choice((1, 1, random.randint(1, 200))):]
    to = random.randrange(len(text) + 1)
    return text[:to] + text[at:at + random.choice((1, random.randint(1, 400)))] + text[to:]


def damaged(random: Random, text: bytes) -> bytes:
    for _ in range(random.choice((1, 1, 2, 4))):
        text = damaged_once(random, text) if text else text
    return text


def opened(body: bytes) -> tuple[dict, list[tuple[str, bytes]]]:
    """The envelope of an undamaged bundle, and its other sections."""
    (_, envelope), *files = sections(body)
    return json.loads(envelope), files


def frame(parts: Sequence[tuple[str, bytes]], length: str | None = None,
          of: int | None = None) -> bytes:
    """A bundle of sections. Of one of them another length is told."""
    out = FIRST_LINE
    for index, (name, text) in enumerate(parts):
        told = length if index == of else str(len(text))
        out += name.encode() + b' ' + told.encode() + b'\n' + text + b'\n'
    return out + b'end\n'


def opened_sections(envelope: dict, files: Sequence[tuple[str, bytes]]) -> list[tuple[str, bytes]]:
    return [('envelope.json', compact(envelope)), *files]


def table_of(text: bytes, fields: int = 1) -> bytes:
    """A bundle with one table of contacts with these bytes."""
    contacts = Table('contact', 'contact', 'parent', [f'f{number}' for number in range(fields)],
                     text)
    return deposit('L,FULL,2024-04-01T00:00:00Z,,', [contacts])

"""Bundles that were damaged, seeded: in their bytes, in the frame of their sections, in the JSON of
their envelope, or in the CSV of their files. Each function answers the damaged bytes. What has to
come of them is what support/formats.py reads in them; the row that lists a bundle is always that of
the undamaged deposit."""
import json
from random import Random

from tests.support.bundles import FIRST_LINE
from tests.support.bundles import compact
from tests.support.bundles import sealed
from trials.fuzzing.damage import damaged
from trials.fuzzing.damage import frame
from trials.fuzzing.damage import opened
from trials.fuzzing.damage import opened_sections

MARK = '@value@'


def nested(depth: int, front: str = '[', back: str = ']') -> str:
    return front * depth + '0' + back * depth


# Texts in place of a value of the envelope: numbers, words of its own and others, watermarks, and
# what is no JSON.
NUMBERS = ('0', '-0', '00', '1', '-1', '1.', '.5', '+1', '0x1', '1.0', '0e0', '-1.5e3', '1e308',
           '1e400', '-1e-400', '999999', '1000000', 'NaN', '-Infinity',
           *(f'{2**bits + more}' for bits in (63, 64, 128) for more in (-1, 0)), '9' * 300,
           '9' * 400)
WORDS = ('', 'a b', 'a/b', 'a-b', 'another', 'a' * 64, 'a' * 65, 'FULL', 'INCR', 'DIFF', 'full',
         'parent', 'child', 'Parent', 'domain', 'zone', 'id', 'name', 'none.csv', 'envelope.json',
         'é\0', '\U0001f600')
MOMENTS = ('2199-01-01T00:00:00.5Z', '2199-01-01', '1969-12-31T23:59:59Z', '2262-01-01T00:00:00Z',
           '2023-02-29T00:00:00Z', '2024-02-29T24:00:00Z', '2024-02-29T00:00:60Z',
           '2024-02-29T00:00:00+00:00', '2024-02-29T00:00:00.0000000001Z')
OTHERS = ('null', 'true', '[]', '{}', '[[]]', '{"":[]}', '"\\ud800"', '"\\x41"', '"\n"', '/**/', '',
          *map(nested, (124, 125, 126, 127, 1000)), nested(126, '{"a":', '}'),
          nested(128, '{"a":', '}'), '[' * 100_000)
VALUES = (NUMBERS, OTHERS, *[[json.dumps(it) for it in texts] for texts in (WORDS, MOMENTS)])
# What may be done to the text of an envelope.
TEXTS = (lambda it: b'', lambda it: it * 2, lambda it: b'\xef\xbb\xbf' + it,
         lambda it: it[:-1] + b',}', lambda it: b' \t\r\n' + it + b'\n', lambda it: it + b'\0',
         lambda it: it.replace(b'"', b"'"), lambda it: it.decode().encode('utf-16'),
         lambda it: b'{"id":0,' + it[1:], lambda it: it[:-1] + b',"id":0}',
         lambda it: it[:-1] + b',"x":"\xff"}', lambda it: it[:-1] + b',"x":"\xed\xa0\x80"}',
         lambda it: it[:-1] + b',"\\udc00":0}')
NAMES = ('', 'a' * 32, 'a' * 33, 'a/b', 'C', 'é', 'a\tb', 'a\0', 'envelope.json', 'x')
FRONTS = (b'', b'escrow-bundle 2\n', b'escrow-bundle 1\r\n', b'\xef\xbb\xbf' + FIRST_LINE,
          b'Escrow-bundle 1\n', FIRST_LINE + b'end\n')
# What may stand in a file, and how its lines may end.
PIECES = (b'"', b'""', b',', b',' * 5000, b'\n', b'\r', b'\0', b'\xff', b'\xc0\xaf',
          b'\xed\xa0\x80', b'\xf4\x90\x80\x80', b'\xe2\x82', b'\xef\xbb\xbf', b'x' * 100_000,
          b'\x01\x1b[2J', '\u202e\x7f'.encode(), b"'; DROP TABLE object; --")
ENDS = (b'\r\n', b'\r', b'\n\n', b'\n\r\n\r')


# ---- the envelope

def place_in(random: Random, value: dict | list) -> tuple[dict | list, str | int]:
    """A container in an envelope, and a place in it."""
    while True:
        places = list(value) if isinstance(value, dict) else range(len(value))
        place = random.choice(places)
        if not isinstance(value[place], (dict, list)) or not value[place] or random.random() < 0.3:
            return value, place
        value = value[place]


def other_value(random: Random, body: bytes) -> bytes:
    """Another value, one more, one twice, or one less."""
    envelope, files = opened(body)
    within, place = place_in(random, envelope)
    change, token = random.randrange(4), random.choice(random.choice(VALUES))
    if change == 0:
        del within[place]
    elif isinstance(within, list) and change < 3:
        within.insert(place, within[place] if change == 1 else MARK)
    else:
        within[random.choice((place, 'x', 'counts', 'resend', 'deletes'))
               if isinstance(within, dict) else place] = MARK
    return sealed(compact(envelope).replace(json.dumps(MARK).encode(),
                                            token.encode('utf-8', 'surrogatepass')), files)


def other_text(random: Random, body: bytes) -> bytes:
    envelope, files = opened(body)
    text = random.choice((*TEXTS, lambda it: damaged(random, it),
                          lambda it: it[:random.randrange(len(it))]))(compact(envelope))
    return sealed(text, files)


# ---- the frame

def other_sections(random: Random, body: bytes) -> bytes:
    """A section less, twice, at another place, under another name, or one that is not declared; or
    as many as there may be, and one."""
    sections = opened_sections(*opened(body))
    at, to = (random.randrange(len(sections)) for _ in range(2))
    name, content = sections[at]
    match random.randrange(6):
        case 0:
            del sections[at]
        case 1:
            sections.insert(to, sections[at])
        case 2:
            sections.insert(to, sections.pop(at))
        case 3:
            sections[at] = random.choice((*NAMES, name.upper())), content
        case 4:
            sections.insert(to, ('x', random.choice((b'', b'a,b\n', random.randbytes(20)))))
        case 5:
            sections += [(f'x{number}', b'')
                         for number in range(random.choice((64, 65)) - len(sections))]
    return frame(sections)


def other_length(random: Random, body: bytes) -> bytes:
    sections = opened_sections(*opened(body))
    of = random.randrange(len(sections))
    size = len(sections[of][1])
    lengths = [f'0{size}', '', f'+{size}', f' {size}', f'{size} ', '-1', f'{size:#x}', f'{size}.0',
               '\u0663', 'NaN', '1' + '0' * 1000]
    lengths += [f'{it}'
                for it in (size + 1, size - 1, 2**24, 2**24 + 1, 2**32 + size, 2**64 + size)]
    return frame(sections, random.choice(lengths), of)


def other_ends(random: Random, body: bytes) -> bytes:
    front = random.choice((*FRONTS, FIRST_LINE))
    back = random.choice((b'', b'\n', b'\0', b'end\n', body, random.randbytes(9)))
    return front + body[len(FIRST_LINE):] + back if random.random() < 0.9 else front


# ---- the files

def other_rows(random: Random, body: bytes) -> bytes:
    """A piece in a line of a file, or in its place; a line twice or less; other ends of lines; a
    long key; or too many rows."""
    envelope, files = opened(body)
    at = random.choice([at for at, (_, text) in enumerate(files) if text] or [0])
    name, text = files[at]
    lines = text.splitlines(keepends=True) or [b'\n']
    of, piece = random.randrange(len(lines)), random.choice(PIECES)
    where = random.randrange(len(lines[of]))
    line = random.choice((lines[of][:where] + piece + lines[of][where:], piece, piece + b'\n', b'',
                          lines[of] * 2, b'a\n',
                          b'k' * random.choice((255, 256, 70_000))
                          + lines[of][lines[of].find(b','):]))
    text = b''.join([*lines[:of], line, *lines[of + 1:]])
    if random.random() < 0.2:
        text = (random.choice((b'', b'\n\r', b'\xef\xbb\xbf'))
                + text.replace(b'\n', random.choice(ENDS)))
    files[at] = name, text + lines[of] * (100_000 if random.random() < 0.01 else 0)
    return sealed(envelope, files)


CHANGES = [('unchanged', lambda _, body: body)] + [(it.__name__, it) for it in (
    damaged, other_value, other_value, other_value, other_text, other_sections, other_length,
    other_ends, other_rows, other_rows)]

"""Manifests that were damaged, seeded, and what `init` has to say of each: what support/formats.py
reads in it."""
import os
from random import Random

from tests.support import bundles
from tests.support import formats
from tests.support.limits import MOST_LISTED
from tests.support.limits import MOST_MANIFEST
from tests.support.stores import copy
from trials.fuzzing.damage import damaged
from trials.trial import Trial

HEADING = bundles.HEADING.encode()
# What may stand in a column, beside what stands in another row or column.
CELLS = ('', ' ', 'a b', 'a/b', 'a' * 64, 'a' * 65, '\udcff', 'FULL', 'INCR', 'DIFF', 'full',
         'FULL ', '2024-03-03', '2024-02-30T00:00:00Z', '1969-12-31T23:59:59.999999999Z',
         '2025-01-01T00:00:00Z', '\udc80', '-1', '0', '000', '5', '1000000', '0x1', ' 1', '\u0661',
         f'{2**64}', 'xy', '0' * 63, '0' * 65, 'f' * 64, 'g' * 64)
HEADINGS = (b'', b'\n\n' + HEADING, b'"' + HEADING, b'\xef\xbb\xbf' + HEADING, HEADING.upper(),
            HEADING.replace(b',', b', '), HEADING[7:],
            b'"id","type","watermark","prevId","resend","sha256"\r\n\r\n',
            b'type,id,watermark,prevId,resend,sha256\n')


def good_rows(random: Random, many: int) -> list[list[str]]:
    """So many rows that are right: Fulls and Differentials, each at its own second."""
    rows: list[list[str]] = []
    for number in range(many):
        kind = 'FULL' if not rows else random.choice(('FULL', 'DIFF', 'INCR'))
        prev = random.choice(rows)[0] if rows and (kind == 'DIFF' or random.random() < 0.2) else ''
        moment = f'2024-03-{1 + number // 3600:02d}T00:{number // 60 % 60:02d}:{number % 60:02d}Z'
        rows.append([f'R{number}', kind, moment, prev, random.choice(('', '0', '7', '000001')),
                     f'{random.getrandbits(256):064x}'])
    return rows


def written(rows: list[list[str]], heading: bytes = HEADING) -> bytes:
    return heading + b''.join(','.join(row).encode(errors='surrogateescape') + b'\n'
                              for row in rows)


def other_cells(random: Random, rows: list[list[str]]) -> bytes:
    """Another cell, or one of another row: a repeated digest, id, place, or a base that is not
    earlier."""
    for _ in range(random.choice((1, 1, 2))):
        row, column, other = random.choice(rows), random.randrange(6), random.choice(rows)
        row[column] = random.choice((random.choice(CELLS), other[column], other[column].upper(),
                                     other[0]))
    return written(rows)


def one_more(random: Random, rows: list[list[str]]) -> bytes:
    """A row more, of which some cells are those of another one."""
    other = random.choice(rows)
    new = ['other', 'FULL', '2025-01-01T00:00:00Z', other[0], '5', 'f' * 64]
    return written([*rows, [random.choice(pair) for pair in zip(new, other)]])


def other_columns(random: Random, rows: list[list[str]]) -> bytes:
    at = random.randrange(len(rows))
    rows[at] = random.choice((rows[at][:5], [*rows[at], ''], ['a'], rows[at] * 2))
    return written(rows)


def too_much(random: Random, _rows: list[list[str]]) -> bytes:
    return random.choice((lambda: HEADING * 4098, lambda: written(good_rows(random, 4097)),
                          lambda: written(good_rows(random, MOST_LISTED)),
                          lambda: HEADING + b'\n' * MOST_MANIFEST,
                          lambda: b',' * MOST_MANIFEST, lambda: b'\n' * MOST_MANIFEST,
                          lambda: b'"' * (MOST_MANIFEST + 1)))()


CHANGES = [
    ('as_it_is', lambda _, rows: written(rows)),
    *[('damaged_bytes', lambda random, rows: damaged(random, written(rows)))] * 5,
    *[('other_cells', other_cells)] * 4, *[('one_more', one_more)] * 2,
    ('other_columns', other_columns),
    ('other_heading',
     lambda random, rows: written(rows if random.random() < 0.9 else [], random.choice(HEADINGS))),
]


def over_manifest(trial: Trial, rng: Random, number: int) -> None:
    what, change = ('too_much', too_much) if rng.random() < 0.02 else rng.choice(CHANGES)
    text = change(rng, good_rows(rng, rng.randint(1, 12)))
    try:
        expected = 0, f'listed {len(formats.manifest(text))}\n'.encode(), b''
    except formats.Refused as refused:
        expected = 1, b'', f'M{refused.code} row {refused.where}\n'.encode()
    store, _, got = trial.set_up(f'made-{number}', text)
    what = f'manifest ({what}): restore init --store s --manifest manifest.csv'
    trial.expect(what, (expected, expected[0] == 0), (got, os.path.exists(store)),
                 **{'manifest.csv': text})
    if os.path.exists(store):
        trial.check_store(f'manifest {number}', store)
    trial.counts['inputs'] += 1
    trial.counts['accepted manifests'] += expected[0] == 0
    copy(None, store)
    os.remove(store + '.csv')

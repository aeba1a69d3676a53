"""What `pack check` and `pack manifest` tell of bundles that name different TLDs."""
import json
from collections.abc import Iterable

from tests.support.bundles import HEADING
from tests.support.bundles import bundle_of
from tests.support.bundles import row_of
from tests.support.stage import Stage
from tests.support.stage import Wanted
from tests.support.stage import case
from tests.support.stage import text_of

# What the envelopes of bundles have as `tld`, as a JSON text or nothing, and for each one that is
# told: its number from 1, its TLD as it is printed, and the number and the TLD of the other.
RELEASES = (
    ('none', ('', '', ''), ()),
    ('one', ('"com"', '"com"', '"com"'), ()),
    ('one, in letters of either case', ('"com"', '"COM"', '"Com"'), ()),
    ('one, and none', ('', '"com"', 'null', '"com"', ''), ()),
    ('no texts, and an empty one', ('"com"', '1', '["net"]', '{}', '""', 'true'), ()),
    ('another', ('"com"', '"com"', '"net"', '"com"'), ((3, 'net', 1, 'com'),)),
    ('none first', ('', '""', '1', '"com"', '"net"'), ((5, 'net', 4, 'com'),)),
    ('others than the first one', ('"net"', '"com"', '"NET"', '"org"'),
     ((2, 'com', 1, 'net'), (4, 'org', 1, 'net'))),
    ('a part of the first one', ('"co"', '"com"', '"o"'), ((2, 'com', 1, 'co'), (3, 'o', 1, 'co'))),
    ('letters outside of ASCII', ('"xn--4ca"', '"\\u00e4"', '"\\u00c4"'),
     ((2, 'ä', 1, 'xn--4ca'), (3, 'Ä', 1, 'xn--4ca'))),
    ('letters outside of ASCII have a case', ('"\\u00e4"', '"\\u00c4"'), ((2, 'Ä', 1, 'ä'),)),
    ('more than one line', ('"a\\nb"', '"\\u001bc"'), ((2, r'\u{1b}c', 1, r'a\nb'),)),
)
# Members that are no `tld`.
OTHERS = '"TLD":"net","tlds":["net"],"notes":["net"],"x":{"tld":"net"}'


def envelope_of(number: int, tld: str | None, day: int | None = None) -> bytes:
    """The envelope of a Full of its own, or at a day that another one may have."""
    return (f'{{"id":"F{number}","type":"FULL","watermark":"2024-03-{day or number:02}T00:00:00Z",'
            f'{OTHERS}' + (f',"tld":{tld}}}' if tld else '}')).encode()


def row(number: int, body: bytes) -> str:
    return row_of(f'F{number},FULL,2024-03-{number:02}T00:00:00Z,,', body)


def told(path: str, lines: Iterable[tuple[int, str, int, str]]) -> str:
    """The lines of standard error. `path` is what stands before the number of a bundle."""
    return text_of(f'other tld {path}{at}: {tld}, that of {path}{other} is {others}'
                   for at, tld, other, others in lines)


def test_bundles_of_other_tlds(stage: Stage) -> None:
    """A bundle of another TLD than that of the first one is told, and nothing else changes."""
    for name, tlds, lines in RELEASES:
        files = {f'n{at}': bundle_of(envelope_of(at, tld)) for at, tld in enumerate(tlds, 1)}
        rows = [row(at, body) for at, body in enumerate(files.values(), 1)]
        folder = name.replace(' ', '-')
        for file, body in files.items():
            stage.write(f'{folder}/{file}', body)
        stage.write('manifest.csv', (HEADING + ''.join(rows)).encode())
        held = text_of(f'n{at}: A1, listed as F{at} FULL 2024-03-{at:02}T00:00:00Z resend 0'
                       for at in range(1, len(tlds) + 1))
        with case(name):
            stage.check('check', Wanted(0, held, told('n', lines)),
                        ['check', '--manifest', 'manifest.csv', folder], 'pack')
            stage.check('manifest', Wanted(0, HEADING + ''.join(rows), told(f'{folder}/n', lines)),
                        ['manifest', *(f'{folder}/{it}' for it in files)], 'pack')


def test_files_that_are_no_deposit_of_another_tld(stage: Stage) -> None:
    """A file that no row lists, a bundle that is no deposit and one that is no bundle."""
    com = bundle_of(envelope_of(1, '"com"'))
    stage.write('files/a', b'{"tld":"net"}')
    stage.write('files/b', com)
    stage.write('files/c', bundle_of(envelope_of(2, '"net"')))
    stage.write('files/d', bundle_of(json.dumps({'id': 1, 'tld': 'org'}).encode()))
    stage.write('files/e', bundle_of(b'{"tld":"org"'))
    stage.write('manifest.csv', (HEADING + row(1, com)).encode())
    spot = 'section 1 envelope.json'
    out = ('a: A5, not listed, U1: the first line is not "escrow-bundle 1"',
           'b: A1, listed as F1 FULL 2024-03-01T00:00:00Z resend 0',
           'c: A5, not listed, says F2 FULL 2024-03-02T00:00:00Z resend 0',
           f'd: A5, not listed, U6: {spot}, id: missing, or not of its form',
           f'e: A5, not listed, U5: {spot}, line 1 column 12: no JSON')
    err = ('other tld c: net, that of b is com', 'other tld d: org, that of b is com')
    stage.check('check --manifest manifest.csv files', Wanted(1, text_of(out), text_of(err)),
                program='pack')


def test_bundles_of_other_tlds_that_no_manifest_lists(stage: Stage) -> None:
    """Two bundles of one place are told for their TLDs, too."""
    for at, tld in enumerate(('com', 'net'), 1):
        stage.write(f'n{at}', bundle_of(envelope_of(at, f'"{tld}"', 3)))
    err = 'other tld n2: net, that of n1 is com\nM10 n2 row 2 against n1\n'
    stage.check('manifest n1 n2', Wanted(1, '', err), program='pack')

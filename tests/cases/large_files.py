"""An agent's CSV files of any size: `pack describe` looks at their first lines, and where they are
too large for one bundle, `pack bundle` names the way."""
import os

from tests.support.bundles import compact
from tests.support.formats import MOST_BYTES
from tests.support.stage import Stage
from tests.support.stage import Wanted
from tests.support.stage import case
from tests.support.stage import text_of

# What is told of files that one bundle doesn't take.
WAY = 'larger than one bundle: unpack_rde --described makes a series of such files'
# The bytes of a longer file in which its heading has to end.
FRONT = 65_536
HEADING = b'id,clID\n'
ROW = b'C1,R1\n'
UNTOLD = text_of(f'unknown {it}' for it in ('id', 'type', 'watermark'))
UNKNOWN = f'{UNTOLD}unknown file "contact.csv": its first row is no heading with a known key\n'
TABLE = {
    'name': 'contact', 'kind': 'contact', 'role': 'parent', 'key': 'id', 'file': 'contact.csv',
    'heading': True, 'fields': ['id', 'clID'], 'from': ['contact.csv']
}
DESCRIBED = ('{"id":"ID","type":"FULL","watermark":"1970-01-01T00:00:00Z",\n"contents":['
             + compact(TABLE).decode() + '],\n"deletes":[]}\n')
NONE_DESCRIBED = DESCRIBED.replace(compact(TABLE).decode(), '')
# Files, and whether the heading is found. A shorter file may end with its heading.
FILES = (
    ('no line end', b'x' * (FRONT + 1), False),
    ('one line, as long as what is read', HEADING[:-1].rjust(FRONT, b'\n'), True),
    ('one line, longer', HEADING[:-1].rjust(FRONT + 1, b'\n'), False),
    ('the heading ends as what is read does', HEADING.rjust(FRONT, b'\n') + ROW, True),
    ('it ends a byte later', HEADING.rjust(FRONT + 1, b'\n') + ROW, False),
    ('other line ends', HEADING.replace(b'\n', b'\r') + ROW.replace(b'\n', b'\r') * FRONT, True),
    ('both line ends, cut apart', HEADING[:-1].rjust(FRONT - 1, b'\n') + b'\r\n' + ROW, True),
    ('a mark', b'\xef\xbb\xbf' + HEADING + ROW * FRONT, True),
    ('a quote that never ends', b'id,"clID\n' + ROW * FRONT, False),
    ('a quote in the last row that is read', HEADING + b'"' + ROW * FRONT, True),
    ('bytes that are no UTF-8 later', HEADING + b'\xff\n' * FRONT, True),
)


def check_described(stage: Stage, name: str, content: bytes, is_known: bool) -> None:
    stage.write('files/contact.csv', content)
    wanted = Wanted(0, DESCRIBED, UNTOLD) if is_known else Wanted(0, NONE_DESCRIBED, UNKNOWN)
    with case(name):
        stage.check('describe files', wanted, program='pack')


def test_headings_of_long_files(stage: Stage) -> None:
    """The heading of a file is looked for in its first 65,536 bytes."""
    for it in FILES:
        check_described(stage, *it)


def test_files_that_no_bundle_takes(stage: Stage) -> None:
    """A file of 100 MB is described. In a bundle it is too large, and so are many rows."""
    large = HEADING + ROW * 16_700_000
    check_described(stage, 'a file of 100 MB', large, True)
    stage.write('envelope.json', DESCRIBED.encode())
    half = HEADING + b'C1,' + b'x' * (MOST_BYTES // 2) + b'\n'
    two = DESCRIBED.replace('["contact.csv"]', '["contact.csv","more.csv"]')
    for name, description, files, refusal in (
            ('100 MB', DESCRIBED, [large], 'E2 files/contact.csv'),
            ('two files', two, [half, half], 'U4 out'),
            ('100,001 rows', DESCRIBED, [HEADING + ROW * 100_001], 'U11 out'),
            ('two files of 100,001 rows', two, [HEADING + ROW * 50_001, HEADING + ROW * 50_000],
             'U11 out')):
        stage.write('envelope.json', description.encode())
        for file, content in zip(('contact.csv', 'more.csv'), files):
            stage.write(f'files/{file}', content)
        with case(name):
            stage.check('bundle --envelope envelope.json files out',
                        Wanted(1, '', f'{refusal}\n{WAY}\n'), program='pack')
    stage.write('files/contact.csv', HEADING + ROW * 50_001)
    with case('as many as a bundle has'):
        stage.write('files/more.csv', HEADING + ROW * 49_999)
        stage.check('bundle --envelope envelope.json files out', Wanted(), program='pack')
    os.remove(stage.at('out'))


def test_files_that_no_bundle_takes_are_told_why(stage: Stage) -> None:
    """With `-v` the reason comes before the way."""
    stage.write('envelope.json', DESCRIBED.encode())
    stage.write('files/contact.csv', HEADING.ljust(MOST_BYTES + 1, b'x'))
    err = ('E2 files/contact.csv',
           'why: bundle files/contact.csv: it has over 16,777,216 bytes', WAY)
    stage.check('bundle --envelope envelope.json files out -v', Wanted(1, '', text_of(err)),
                program='pack')

"""Bundles that `pack` makes of an agent's files and of their description, and what it refuses."""
import json
import os
from collections.abc import Iterable
from collections.abc import Mapping
from collections.abc import Sequence

from tests.cases.findings import PARENT_KEYS
from tests.cases.large_files import WAY
from tests.support.bundles import ENVELOPE
from tests.support.bundles import FILES
from tests.support.bundles import FIRST_LINE
from tests.support.bundles import Header
from tests.support.bundles import bundle_of
from tests.support.bundles import compact
from tests.support.bundles import deposit
from tests.support.bundles import envelope_of
from tests.support.bundles import section
from tests.support.files import read
from tests.support.limits import MOST_BYTES
from tests.support.limits import MOST_LISTED
from tests.support.stage import Stage
from tests.support.stage import Wanted
from tests.support.stage import case
from tests.support.stage import compare

LINE = 'bundle --envelope envelope.json files out'
# A row behind two byte order marks.
MARKED = b'\xef\xbb\xbf\xef\xbb\xbfC1,R1\n'
# Whether files have headings, the files 0.csv and 1.csv of one table with the fields `id` and
# `clID`, and what follows the envelope in their bundle, or the refusal.
GIVEN = (
    (False, (b'C1,R1\n',), b'c.csv 6\nC1,R1\n\nend\n'),
    (True, (b'id,clID\nC1,R1\n',), b'c.csv 6\nC1,R1\n\nend\n'),
    (False, (), b'c.csv 0\n\nend\n'),
    (False, (b'', b'\r\n'), b'c.csv 0\n\nend\n'),
    (True, (b'id,clID',), b'c.csv 0\n\nend\n'),
    (True, (b'id,clID\r\nC1,"R,1"', b'"id",clID\n"C""2",\n'),
     b'c.csv 17\nC1,"R,1"\n"C""2",\n\nend\n'),
    (False, (b'\xef\xbb\xbfC1,R1\n',), b'c.csv 6\nC1,R1\n\nend\n'),
    (False, (MARKED,), 'H2 files/0.csv'),
    (True, (b'id,clID\n', b'id,clId\n'), 'H1 files/1.csv'),
    (True, (b'',), 'H1 files/0.csv'),
    (True, (b'id,clID\nC1,R1\nC2\n',), 'U9 files/0.csv row 2'),
    (False, (b'C1,R1\n', b'C2,R1,\n'), 'U9 files/1.csv row 1'),
    # A field that is no UTF-8, in the first row and in a later one, in a row with another number of
    # fields, and in a heading.
    (False, (b'C1,\xff\n',), 'U9 files/0.csv row 1'),
    (True, (b'id,clID\nC1,R1\n', b'id,clID\nC2,R1\n\n\xc4,R1\nC4\n'), 'U9 files/1.csv row 2'),
    (False, (b'C1,R1\nC2,\xff,\n',), 'U9 files/0.csv row 2'),
    (True, (b'id,cl\xcfD\nC1,R1\n',), 'H1 files/0.csv'),
    (False, (b',R1\n',), 'U10 out'),
)
HEADER = b'{"id":"F1","type":"FULL","watermark":"2024-03-03T00:00:00Z"}'
# One more table of the sample, from its declaration's front to its section's name.
MORE = (b'},{"name":"more","kind":"contact","role":"child","key":"id","fields":["id","clID"],'
        b'"file":"c.csv"')
# Descriptions, files, and what follows the description in their bundle, or the refusal.
DESCRIBED = (
    # The description of the sample as it is.
    (ENVELOPE, {
        'c.csv': b'C1,R1\n'
    }, b'c.csv 6\nC1,R1\n\nend\n'),
    # No tables.
    (HEADER, {}, b'end\n'),
    (b'{', {}, 'U5 envelope.json'),
    (b'{"id":"F1","type":"FULL"}', {}, 'U6 envelope.json'),
    # A section whose name has a capital, and one that occurs twice.
    (ENVELOPE.replace(b'c.csv', b'C.csv'), {
        'C.csv': b'C1,R1\n'
    }, 'U2 out'),
    (ENVELOPE.replace(b'}]}', MORE + b',"from":["d.csv"]}]}'), {
        'c.csv': b'C1,R1\n',
        'd.csv': b'C1,R1\n'
    }, 'U3 out'),
    # Sections whose names have all forms, and whose rows look like lines of a bundle.
    (envelope_of(FILES), {
        'a': b'end\n',
        'b.csv': b'c.csv 1\r\nx',
        'c-d': b'"\n"\n',
        'e_f': b'"\n\n"\n',
        '0': b'\0\n',
        '1.2': b'\xc3\xa9\n',
        'z' * 32: b'"C1",R1\r\n\n',
        'end': b'escrow-bundle 1',
        'g': b'0123456789\n'
    }, b'a 4\nend\n\nb.csv 10\nc.csv 1\nx\n\nc-d 4\n"\n"\n\ne_f 5\n"\n\n"\n\n0 2\n\0\n\n1.2 3\n'
     b'\xc3\xa9\n\n'
     b'zzzzzzzzzzzzzzzzzzzzzzzzzzzzzzzz 6\nC1,R1\n\nend 16\nescrow-bundle 1\n\ng 11\n0123456789\n'
     b'\nend\n'),
)
# What is said of the bundles n1, n2 and so on, and what each says of itself: its id, type, day and
# prevId, and its resend. Rows are in the order of days, on one day in that of DIFF and FULL, and at
# one place in that of resends.
UNLISTED = (
    # Without a prevId. It is the first row, and M7 is less than M10.
    ('M7 n2 row 1', (('F1', 'FULL', 3, '', 0), ('D2', 'DIFF', 2, '', 0))),
    ('M7 n1 row 1', (('D1', 'DIFF', 3, '', 0), ('D1', 'DIFF', 3, '', 0))),
    # One place and resend. At one place and resend the rows are in the order of the words.
    ('M10 n3 row 3 against n1', (('F5', 'FULL', 5, '', 0), ('F3', 'FULL', 3, '', 0), ('X5', 'FULL',
                                                                                      5, '', 0))),
    ('M10 n3 row 3 against n1', (('F1', 'FULL', 3, '', 1), ('F1', 'FULL', 3, '', 0), ('F1', 'FULL',
                                                                                      3, '', 1))),
    ('M10 n4 row 4 against n2', (('F1', 'FULL', 4, '', 1), ('F1', 'FULL', 4, '', 2),
                                 ('F1', 'FULL', 3, '', 2), ('F1', 'FULL', 4, '', 2))),
    # One id in two places.
    ('M11 n1 row 2 against n2', (('F1', 'FULL', 4, '', 0), ('F1', 'FULL', 3, '', 0))),
    ('M11 n1 row 3 against n3', (('F1', 'FULL', 5, '', 0), ('F2', 'FULL', 4, '', 0), ('F1', 'FULL',
                                                                                      3, '', 0))),
    ('M11 n1 row 3 against n2', (('F1', 'FULL', 3, '', 1), ('F1', 'INCR', 3, '', 0), ('F1', 'INCR',
                                                                                      3, '', 1))),
    # A base that isn't earlier: a later one, one of the same day, and the Differential itself.
    ('M12 n1 row 1 against n2', (('D2', 'DIFF', 3, 'F3', 0), ('F3', 'FULL', 4, '', 0))),
    ('M12 n2 row 1 against n1', (('F1', 'FULL', 3, '', 0), ('D2', 'DIFF', 3, 'F1', 0))),
    ('M12 n3 row 2 against n1', (('F4', 'FULL', 4, '', 1), ('F1', 'FULL', 2, '', 0), ('D3', 'DIFF',
                                                                                      3, 'F4', 0))),
    ('M12 n1 row 1', (('D1', 'DIFF', 3, 'D1', 0),)),
)
# How many rows a manifest has at most. Names of the files of a table, of which one is a path, or is
# there twice. All of them lead to a file but the empty one and the folders.
OUTSIDE = (('',), ('.',), ('..',), ('../envelope.json',), ('./c.csv',), ('/c.csv',),
           ('a/c.csv',), ('a/../c.csv',), ('c.csv', 'a/c.csv'), ('c.csv', 'c.csv'),
           ('c.csv', 'd.csv', 'c.csv'))
# Names of files that look like these.
INSIDE = ('...', '..c.csv', '.c', 'c.', '~', '\\c.csv')
# Names of files, and how they are printed: on one line. Control characters are escaped as Rust
# writes them, and so are the backslashes of a name that has one.
NAMES = (
    ('a\nU1 n1', r'a\nU1 n1'),
    ('a\r\tb', r'a\r\tb'),
    ('a\\b\x1b[2J', r'a\\b\u{1b}[2J'),
    ('a\x7f\x85', r'a\u{7f}\u{85}'),
    ('a\\b \xe9', 'a\\b \xe9'),
)
# Each table that is known: what the names of its files begin with, its kind, and its own name,
# which is another one for a child table.
TABLES = (
    ('registrar', 'registrar', 'registrar'),
    ('contact', 'contact', 'contact'),
    ('contactPostal', 'contact', 'contactPostal'),
    ('contactStatuses', 'contact', 'contactStatuses'),
    ('contactTransfer', 'contact', 'contactTransfer'),
    ('contactDisclose', 'contact', 'contactDisclose'),
    ('host', 'host', 'host'),
    ('hostAddresses', 'host', 'hostAddresses'),
    ('hostStatuses', 'host', 'hostStatuses'),
    ('domain', 'domain', 'domain'),
    ('domainContacts', 'domain', 'domainContacts'),
    ('domainNameServers', 'domain', 'domainNs'),
    ('domainNameServersAddresses', 'domain', 'domainHostAttr'),
    ('domainStatuses', 'domain', 'domainStatuses'),
    ('domainTransfer', 'domain', 'domainTransfer'),
    ('dnssec', 'domain', 'secDNS'),
    ('idnLanguage', 'idn', 'idn'),
    ('NNDN', 'nndn', 'nndn'),
)
# Those of deletes, each a parent table.
DELETES = tuple((f'{stem}-delete', kind, name) for stem, kind, name in TABLES if name == kind)
# A heading that has the key of each kind.
FIELDS = ['id', 'name', 'aName']
# A file of somewhat more than half as many bytes.
HALF = (b'C1,' + b'x' * 99_996 + b'\n') * 84


def description_of(has_heading: bool, names: Iterable[str]) -> bytes:
    """The description of the sample, whose rows are in these files."""
    return ENVELOPE.replace(
        b'"file":"c.csv"',
        f'"file":"c.csv","from":{json.dumps([*names])},"heading":{json.dumps(has_heading)}'.encode(
        ))


def check_bundle(stage: Stage, name: str, description: bytes, files: Mapping[str, bytes],
                 wanted: bytes | str) -> None:
    """Compares what follows the description in its bundle, or the refusal. Where it is refused
    nothing is written."""
    stage.write('envelope.json', description)
    for file, content in files.items():
        stage.write(f'files/{file}', content)
    with case(name):
        is_refused = isinstance(wanted, str)
        stage.check(LINE, Wanted(1, '', f'{wanted}\n') if is_refused else Wanted(), program='pack')
        left = sorted(set(os.listdir(stage.at('.'))) - {'envelope.json', 'files'})
        compare('what is written', '' if is_refused else 'out', ' '.join(left))
        if not is_refused:
            body = FIRST_LINE + section('envelope.json', description) + wanted
            compare('bundle', body.decode(),
                    read(stage.at('out')).decode(errors='backslashreplace'))
            os.remove(stage.at('out'))


def test_bundles_of_files(stage: Stage) -> None:
    """The bundles of files."""
    for has_heading, given, wanted in GIVEN:
        files = {f'{at}.csv': content for at, content in enumerate(given)}
        check_bundle(stage, f'{given}, with headings: {has_heading}',
                     description_of(has_heading, files), files, wanted)


def test_bundles_of_descriptions(stage: Stage) -> None:
    """The bundles of descriptions."""
    for description, files, wanted in DESCRIBED:
        check_bundle(stage, f'{description}', description, files, wanted)


def test_names_of_files_in_the_folder(stage: Stage) -> None:
    """The names of a table's files: those of files in DIR, each there once.

    Where the description has a fault as an envelope, too, it is refused for that."""
    files = {name: b'C1,R1\n' for name in ('c.csv', 'd.csv', 'a/c.csv', *INSIDE)}
    for names in OUTSIDE:
        check_bundle(stage, f'the files {names}', description_of(False, names), files,
                     'U7 envelope.json')
    for name in INSIDE:
        check_bundle(stage, f'the file {name!r}', description_of(False, [name]), files,
                     b'c.csv 6\nC1,R1\n\nend\n')
    # Without `from`, by `file`; in two tables, of which the second has the sample's file by either
    # member.
    two = ENVELOPE.replace(b'}]}', MORE + b'}]}')
    for description in (ENVELOPE.replace(b'c.csv', b'a/c.csv'), two,
                        two.replace(b'}]}', b',"from":["c.csv"]}]}'),
                        two.replace(b'},{', b',"from":["c.csv"]},{').replace(
                            b'}]}', b',"from":["d.csv","c.csv"]}]}')):
        check_bundle(stage, f'{description}', description, files, 'U7 envelope.json')
    nameless = description_of(False, ['../envelope.json']).replace(b'"id":"F1"', b'"id":1')
    check_bundle(stage, 'an envelope without an id', nameless, files, 'U6 envelope.json')


def test_bundles_that_would_be_too_long(stage: Stage) -> None:
    """A description, or the rows of two files, for which a bundle has no place."""
    os.mkdir(stage.at('files'))
    files = {'0.csv': HALF, '1.csv': HALF}
    check_bundle(stage, 'a description of as many bytes as a bundle has', HEADER.ljust(MOST_BYTES),
                 {}, f'U4 out\n{WAY}')
    check_bundle(stage, 'a longer description', HEADER.ljust(MOST_BYTES + 1), {},
                 'E2 envelope.json')
    check_bundle(stage, 'two files', description_of(False, files), files,
                 f'U4 out\n{WAY}')
    check_bundle(stage, 'one of them', description_of(False, ['1.csv']), files,
                 section('c.csv', HALF) + b'end\n')


def test_names_on_one_line(stage: Stage) -> None:
    """The names of files that are refused, each on one line."""
    for name, told in NAMES:
        check_bundle(stage, f'{name!r}, with no heading', description_of(True, [name]),
                     {name: b'C1,R1\n'}, f'H1 files/{told}')
        check_bundle(stage, f'{name!r}, with marks', description_of(False, [name]), {name: MARKED},
                     f'H2 files/{told}')
        check_bundle(stage, f'{name!r}, with a short row', description_of(False, [name]),
                     {name: b'C1\n'}, f'U9 files/{told} row 1')
        with case(f'{name!r}, as a bundle, and as one that is listed twice'):
            stage.check('manifest', Wanted(1, '', f'U1 files/{told}\n'),
                        ['manifest', f'files/{name}'], 'pack')
            stage.write(f'files/{name}', bundle_of(HEADER))
            wanted = Wanted(1, '', f'M10 files/{told} row 2 against files/{told}\n')
            stage.check('manifest', wanted, ['manifest', *[f'files/{name}'] * 2], 'pack')


def test_bundles_that_no_manifest_lists(stage: Stage) -> None:
    """The bundles whose rows contradict each other, and more than a manifest has rows."""
    for told, deposits in UNLISTED:
        names = [f'n{at}' for at in range(1, len(deposits) + 1)]
        for file, (name, kind, day, prev, resend) in zip(names, deposits):
            stage.write(file,
                        deposit(Header(name, kind, f'2024-03-{day:02}T00:00:00Z', prev, resend)))
        with case(f'{deposits}'):
            stage.check(f'manifest {" ".join(names)}', Wanted(1, '', f'{told}\n'), program='pack')
    with case('one bundle too many'):
        stage.check('manifest n1 n1 ..', Wanted(1, '', 'M1 row 0\n'),
                    ['manifest', *['n1'] * (MOST_LISTED + 1)], program='pack')


def files_of(*stems: Iterable[str]) -> list[str]:
    """The names of two files of each table, with a dash and with a dot after what they begin with:
    in byte order."""
    return [f'{stem}{end}' for stem in stems for end in ('-1.csv', '.csv')]


def proposed(tables: Iterable[tuple[Sequence[str], str, str]], front: str = '') -> str:
    """What is proposed for these tables; `front` is what the names of their sections begin with."""
    return ',\n'.join(
        compact({
            'name': name,
            'kind': kind,
            'role': 'parent' if name == kind else 'child',
            'key': PARENT_KEYS[kind],
            'file': f'{front}{name.lower()}.csv',
            'heading': True,
            'fields': FIELDS,
            'from': files_of(stem)
        }).decode() for stem, kind, name in tables)


def test_descriptions_of_all_tables(stage: Stage) -> None:
    """The description of files of all tables that are known, and of none whose names are close to
    those of deletes."""
    # Names that begin with that of a table of deletes, with no dash or dot after it.
    others = sorted(f'{stem}{end}' for stem, _, _ in DELETES for end in ('', 'd.csv', 's-1.csv'))
    for name in others + files_of(*(stem for stem, _, _ in TABLES + DELETES)):
        stage.write(f'files/{name}', ','.join(FIELDS).encode())
    front = '{"id":"ID","type":"FULL","watermark":"1970-01-01T00:00:00Z",\n'
    wanted = (f'{front}"contents":[{proposed(TABLES)}],\n'
              f'"deletes":[{proposed(DELETES, "deleted-")}]}}\n')
    unknown = ''.join(f'unknown file "{name}": no table is known by its name\n' for name in others)
    stage.check('describe files',
                Wanted(0, wanted, f'unknown id\nunknown type\nunknown watermark\n{unknown}'),
                program='pack')


def test_paths_that_are_not_plain_files(stage: Stage) -> None:
    """A pipe, a link to it and a folder. Nobody writes the pipe, and it isn't waited for."""
    os.makedirs(stage.at('files/folder'))
    os.mkfifo(stage.at('files/pipe'))
    os.symlink('pipe', stage.at('files/link'))
    for name in ('pipe', 'link', 'folder'):
        stage.write('envelope.json', description_of(False, [name]))
        for line in (f'manifest files/{name}', f'bundle --envelope files/{name} files out', LINE):
            stage.check(line, Wanted(3, '', f'E1 files/{name}\n'), program='pack')
    stage.check('describe files/pipe', Wanted(3, '', 'E1 files/pipe\n'), program='pack')

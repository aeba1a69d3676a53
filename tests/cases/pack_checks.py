"""What `pack check` says of a folder's files, by a plain model of its lines
(tests/support/formats.py has where a body is no deposit), and by what `restore take` says of the
same folder."""
import contextlib
import hashlib
import json
import os
import random
import re
import shutil
from collections.abc import Iterable
from collections.abc import Iterator
from collections.abc import Mapping
from collections.abc import Sequence

from tests.cases import bundles
from tests.cases import deposits
from tests.cases import envelopes
from tests.support import formats
from tests.support.bodies import BODIES
from tests.support.bodies import bytes_of
from tests.support.bodies import line_of
from tests.support.bundles import ENVELOPE
from tests.support.bundles import FIRST_LINE
from tests.support.bundles import FRONT
from tests.support.bundles import HEADING
from tests.support.bundles import SAMPLE
from tests.support.bundles import Table
from tests.support.bundles import bundle_of
from tests.support.bundles import row_of
from tests.support.bundles import sealed
from tests.support.bundles import section
from tests.support.formats import Place
from tests.support.formats import Refused
from tests.support.formats import found_in
from tests.support.formats import moment_text
from tests.support.limits import MOST_BYTES
from tests.support.outputs import run_held_up
from tests.support.reports import report
from tests.support.stage import Got
from tests.support.stage import Stage
from tests.support.stage import Wanted
from tests.support.stage import case
from tests.support.stage import compare_all
from tests.support.stage import text_of
from tests.support.stores import copy

LINE = 'check --manifest manifest.csv files'
NAMES = ('F1', 'D2', 'D2Resent', 'D3', 'I4', 'F5', 'D6')
# The worked bodies as `check` names them.
SAID = {
    it: '{0.id} {0.type} {0.watermark} resend {0.resend}'.format(BODIES[it].listed)
    for it in NAMES
}
# A Differential, rows that differ from what it says, and how that is told.
D6 = bundle_of(
    b'{"id":"D6","type":"DIFF","prevId":"F5","resend":2,"watermark":"2024-03-11T00:00:00Z"}')
DIFFERING = (
    ('D7,DIFF,2024-03-11T00:00:00Z,F5,2', 'D7 DIFF 2024-03-11T00:00:00Z resend 2',
     'id is D6, listed D7'),
    ('D6,INCR,2024-03-11T00:00:00Z,F5,2', 'D6 INCR 2024-03-11T00:00:00Z resend 2',
     'type is DIFF, listed INCR'),
    ('D6,DIFF,2024-03-11T00:00:00.50Z,F5,2', 'D6 DIFF 2024-03-11T00:00:00.5Z resend 2',
     'watermark is 2024-03-11T00:00:00Z, listed 2024-03-11T00:00:00.5Z'),
    ('D6,DIFF,2024-03-11T00:00:00Z,F5,', 'D6 DIFF 2024-03-11T00:00:00Z resend 0',
     'resend is 2, listed 0'),
    ('D6,DIFF,2024-03-11T00:00:00Z,F4,2', 'D6 DIFF 2024-03-11T00:00:00Z resend 2',
     'prevId is F5, listed F4'),
    # Of a row that is no Differential's the prevId isn't compared.
    ('D5,FULL,2024-03-10T00:00:00Z,F4,1', 'D5 FULL 2024-03-10T00:00:00Z resend 1',
     'id is D6, listed D5; type is DIFF, listed FULL; watermark is 2024-03-11T00:00:00Z, listed '
     '2024-03-10T00:00:00Z; resend is 2, listed 1'
     ),
)
# A Differential without a prevId, which differs from each row that lists it.
NO_PREV = bundle_of(b'{"id":"D6","type":"DIFF","watermark":"2024-03-11T00:00:00Z"}')
# Texts that are no JSON, and where each is wrong.
NO_JSON = (
    (b'{"id":x}', 'line 1 column 7'),
    (b'{\n"id":"F1"\n"type":"FULL"}', 'line 3 column 1'),
    (b'{"id":"F1"} {}', 'line 1 column 13'),
)


def rows_in(file: str, number: int) -> tuple[str, bytes]:
    """A file of so many rows that are alike."""
    return file, b'C,R\n' * number


def tables_of(*files: str) -> dict:
    """The envelope of a Full that has these files, of a parent table and of child tables."""
    tables = [Table(f't{at}', 'contact', 'child' if at else 'parent', ('id', 'clID')).declared(file)
              for at, file in enumerate(files)]
    return {'id': 'F1', 'type': 'FULL', 'watermark': '2024-03-03T00:00:00Z', 'contents': tables}


# Bodies whose frame, envelope, tables or rows are wrong, of each refusal: those of other cases, and
# some more.
MORE = (
    FIRST_LINE,
    FIRST_LINE + b'envelope.json\n',
    FIRST_LINE + b'envelope.json 2',
    FIRST_LINE + b'envelope.json 2\n{}',
    FIRST_LINE + b'envelope.json 2\n{}\n',
    FIRST_LINE + b'envelope.json 1\n{}\nend\n',
    FIRST_LINE + section('envelope.json', b'{}') + b'\xff 0\n\nend\n',
    FIRST_LINE + section('envelope.json', b'{}') + b' 0\n\nend\n',
    FRONT + b'c.csv 12\nC1,R1\nC2,\xff\n\nend\n',
    FRONT + b'c.csv 11\nC1,R1\n\n,R1\n\nend\n',
    FRONT + b'c.csv 13\n\xef\xbb\xbf"C\n1",R1\n\nend\n',
    FRONT + section('c.csv', b'x' * 256 + b',R1\n') + b'end\n',
    FRONT + section('c.csv', b'C,R\n' * 100_001) + b'end\n',
    # A key of 255 bytes before the wrong one, two files of 100,001 rows, a file of three tables.
    FRONT + section('c.csv', b'x' * 255 + b',R1\n,R1\n') + b'end\n',
    FRONT + section('c.csv', b'x' * 255 + b',R1\n' + b'x' * 256 + b',R1\n') + b'end\n',
    sealed(tables_of('c.csv', 'd.csv'), (rows_in('c.csv', 50_001), rows_in('d.csv', 50_000))),
    sealed(tables_of('c.csv', 'd.csv', 'e'),
           (rows_in('e', 33_334), rows_in('d.csv', 33_333), rows_in('c.csv', 33_334))),
    sealed(tables_of('c.csv', 'c.csv', 'c.csv'), (('c.csv', b'C1,R1\n'),)),
    bundle_of(ENVELOPE.replace(b'c.csv', b'd.csv'), section('c.csv', b'C1,R1\n')),
    bundle_of(ENVELOPE.replace(b'"c.csv"', b'"a/\\u00e9 b"'), section('c.csv', b'C1,R1\n')),
)
# Manifests that are refused, and the refusal.
NO_MANIFESTS = (
    (b'', 'M3 row 0'),
    (HEADING.encode() + b'F1,FULL\n', 'M2 row 1'),
    (HEADING.encode() + (line_of('F1') + line_of('F1')).encode(), 'M10 row 2'),
    (b'\n' * 4_194_305, 'M1 row 0'),
)


def bodies_refused() -> Iterator[bytes]:
    """Bodies that are no deposit, of the cases for each refusal."""
    yield from (it.body() for it, _ in deposits.REFUSED)
    yield from (body for body, _ in deposits.UNREADABLE)
    yield from (FRONT + it for it in sum(bundles.BACKS.values(), []))
    yield from (FIRST_LINE + it for it in sum(bundles.REST.values(), []))
    yield from (bundles.EMPTY + it for it in bundles.AFTER_MOST.values())
    yield from (envelopes.body_of(it) for it in sum(envelopes.REFUSED.values(), []))
    yield from map(bundle_of,
                   [*sum(envelopes.NO_HEADERS.values(), []), *(text for text, _ in NO_JSON)])
    yield from MORE


# ---- the model


def values_of(name: str, place: Place, prev: str | None, resend: int) -> dict[str, str]:
    """What a header says, each value by its name, as a text."""
    return {
        'id': name,
        'type': place[1],
        'watermark': moment_text(place[0]),
        'resend': f'{resend}',
        'prevId': prev or '(none)'
    }


def said(values: Mapping[str, str]) -> str:
    return '{id} {type} {watermark} resend {resend}'.format(**values)


def found(body: bytes, listed: Mapping[str, str] | None, is_again: bool) -> str:
    """What is found of a body, by what its row says, or None."""
    where, read = f'listed as {said(listed)}' if listed else 'not listed', found_in(body)
    if isinstance(read, Refused):
        return f'A3 U{read.code}, {where}: {read.where}' if listed else (f'A5, {where}, '
                                                                         f'U{read.code}: '
                                                                         f'{read.where}')
    told = values_of(read.name, read.place, read.prev, read.resend)
    if not listed:
        return f'A5, {where}, says {said(told)}'
    compared = [it for it in listed if it != 'prevId' or listed['type'] == 'DIFF']
    others = [
        f'{it} is {told[it]}, listed {listed[it]}' for it in compared if told[it] != listed[it]
    ]
    if others:
        return f'A4, {where}: {"; ".join(others)}'
    return f'A1 again, {where}' if is_again else f'A1, {where}'


def lines_of(manifest: bytes, files: Mapping[str, bytes]) -> list[str]:
    """The lines for files, the bytes of each by its name, and for the rows without a file."""
    rows = {digest: values_of(*header) for *header, digest in formats.manifest(manifest)}
    seen, lines = set(), []
    for name in sorted(files, key=str.encode):
        digest = hashlib.sha256(files[name]).hexdigest()
        lines.append(f'{name}: {found(files[name], rows.get(digest), digest in seen)}')
        seen.add(digest)
    return [*lines, *(f'no file: {said(it)}' for digest, it in rows.items() if digest not in seen)]


def set_up(stage: Stage, rows: Sequence[str], files: Mapping[str, bytes]) -> None:
    stage.write('manifest.csv', (HEADING + ''.join(rows)).encode())
    shutil.rmtree(stage.at('files'), ignore_errors=True)
    os.mkdir(stage.at('files'))
    for name, body in files.items():
        stage.write(f'files/{name}', body)


def check_lines(stage: Stage, rows: Sequence[str], files: Mapping[str, bytes],
                wanted: Iterable[str], status: int = 1) -> None:
    set_up(stage, rows, files)
    stage.check(LINE, Wanted(status, text_of(wanted)), program='pack')


def check_folder(stage: Stage, rows: Sequence[str], files: Mapping[str, bytes]) -> list[str]:
    """Compares what is said of a folder with the model, and gives its lines. (The model doesn't
    know where a text is no JSON.)"""
    set_up(stage, rows, files)
    wanted = lines_of((HEADING + ''.join(rows)).encode(), files)
    got = stage.end(stage.begin(LINE.split(), 'pack'))
    is_right = all(': A1' in it or it.startswith('no file: ') for it in wanted)
    unplaced = re.sub(', line [0-9]+ column [0-9]+: no JSON', ': no JSON',
                      got.out.decode()).encode()
    stage.compare(LINE, Wanted(0 if is_right else 1, text_of(wanted)),
                  Got(got.status, unplaced, got.err), 'pack')
    return wanted


def check_taken(stage: Stage, lines: Iterable[str]) -> None:
    """Compares the lines with what a new store says of the folder that is taken."""
    wanted = [
        f'{it[1]} {it[2]}' for line in lines
        if (it := re.match('(.*?): (A[1-5](?: again)?(?: U[0-9]+)?)', line))
    ]
    copy(None, stage.at('a.db'))
    stage.end(stage.begin('init --store a.db --manifest manifest.csv'.split()))
    got = stage.end(stage.begin('take --store a.db files'.split()))
    came = []
    for line in got.out.decode().splitlines()[1:]:
        _, number, verdict, fault, _, _, told, _ = line.split(',')
        came.append(' '.join(
            filter(None, (number, verdict, 'again' if told == 'again' else '', fault))))
    compare_all('what is taken', wanted, came)


def test_worked_releases(stage: Stage) -> None:
    """The worked release, whole, without some of its files, and with some of them twice."""
    rows = [line_of(it) for it in NAMES]
    files = {f'n{at}': bytes_of(it) for at, it in enumerate(NAMES)}
    lines = [f'n{at}: A1, listed as {SAID[it]}' for at, it in enumerate(NAMES)]
    some = {it: files[it] for it in files if it not in ('n1', 'n4')}
    for name, given, wanted in (('all files', files, lines), ('without two of them', some, [
            *(it for it in lines if it[:2] in some), f'no file: {SAID["D2"]}',
            f'no file: {SAID["I4"]}'
    ]), ('one of them twice', files | {'N0': files['n3']}, [
            f'N0: A1, listed as {SAID["D3"]}', *lines[:3], f'n3: A1 again, listed as {SAID["D3"]}',
            *lines[4:]
    ]), ('an empty folder', {}, [f'no file: {SAID[it]}' for it in NAMES])):
        with case(name):
            check_lines(stage, rows, given, wanted, 0)
            compare_all('model', wanted, lines_of((HEADING + ''.join(rows)).encode(), given))


def test_a_folder_one_level_too_high(stage: Stage) -> None:
    """The folder above that of the deposits: its files would be parked, and all deposits are
    missing."""
    rows = [line_of(it) for it in NAMES]
    stage.write('release/manifest.csv', (HEADING + ''.join(rows)).encode())
    stage.write('release/make.py', b'import os\n')
    for at, name in enumerate(NAMES):
        stage.write(f'release/deposits/n{at}', bytes_of(name))
    wanted = [
        *(f'{it}: A5, not listed, U1: the first line is not "escrow-bundle 1"'
          for it in ('make.py', 'manifest.csv')), *(f'no file: {SAID[it]}' for it in NAMES)
    ]
    stage.check('check --manifest release/manifest.csv release', Wanted(1, text_of(wanted)),
                program='pack')
    wanted = [f'n{at}: A1, listed as {SAID[it]}' for at, it in enumerate(NAMES)]
    stage.check('check --manifest release/manifest.csv release/deposits',
                Wanted(0, text_of(wanted)), program='pack')


def test_deposits_that_differ_from_their_rows(stage: Stage) -> None:
    """Each value in which a deposit differs from its row."""
    for row, listed, told in DIFFERING:
        with case(row):
            check_lines(stage, [row_of(row, D6)], {'n1': D6},
                        [f'n1: A4, listed as {listed}: {told}'])
    with case('without a prevId'):
        check_lines(stage, [row_of('D6,DIFF,2024-03-11T00:00:00Z,F5,', NO_PREV)], {'n1': NO_PREV},
                    [f'n1: A4, listed as {SAID["D6"]}: prevId is (none), listed F5'])
    with case('not listed'):
        check_lines(stage, [line_of('F5')], {'n1': D6}, [
            'n1: A5, not listed, says D6 DIFF 2024-03-11T00:00:00Z resend 2',
            f'no file: {SAID["F5"]}'
        ])


def listed_apart(bodies: Iterable[bytes]) -> list[str]:
    """Rows that list each body, as Fulls at watermarks of their own."""
    return [
        row_of(f'B{at},FULL,2024-03-03T00:00:00.{at:09}Z,,', body) for at, body in enumerate(bodies)
    ]


def test_where_bodies_are_no_deposit(stage: Stage) -> None:
    """Where bodies are wrong, each refusal, listed and not listed."""
    bodies = list(dict.fromkeys(bodies_refused()))
    compare_all('refusals', range(1, 12), sorted({found_in(it).code for it in bodies}))
    files = {f'n{at:03}': body for at, body in enumerate(bodies)}
    check_taken(stage, check_folder(stage, listed_apart(bodies), files))
    check_folder(stage, [line_of('F1')], files)
    for text, place in NO_JSON:
        with case(f'{text}'):
            body = bundle_of(text)
            check_lines(stage, listed_apart([body]), {'n1': body}, [
                'n1: A3 U5, listed as B0 FULL 2024-03-03T00:00:00Z resend 0: section 1 '
                f'envelope.json, {place}: no JSON'
            ])


def test_files_that_are_not_looked_at(stage: Stage) -> None:
    """Names that are no numbers, files that are too long, links, pipes and folders."""
    rows = [line_of('F1')]
    set_up(
        stage, rows,
        {'n1': bytes_of('F1'), 'a b': bytes_of('F1'), 'x' * 65: bytes_of('F1'), 'new\nline': b''})
    with open(stage.at('files/long'), 'wb') as file:
        file.truncate(MOST_BYTES + 1)
    with open(os.fsencode(stage.at('files/')) + b'\xff', 'wb'):
        pass
    os.symlink('n1', stage.at('files/link'))
    os.mkfifo(stage.at('files/pipe'))
    os.mkdir(stage.at('files/folder'))
    told = ['N1 (a name that is no UTF-8)', 'N1 a b', 'E2 long', 'N1 new\\nline', f'N1 {"x" * 65}']
    out = f'n1: A1, listed as {SAID["F1"]}\n'
    stage.check(LINE, Wanted(1, out, text_of(told)), program='pack')
    # `restore take` tells the same.
    stage.check('init --store a.db --manifest manifest.csv', Wanted(0, 'listed 1\n'))
    stage.check('take --store a.db files',
                Wanted(1, report('receipts', ['1,n1,A1,,F1,0,new,0']), text_of(told)))


def test_manifests_and_folders_that_are_refused(stage: Stage) -> None:
    """A manifest or a folder that is refused."""
    for text, fault in NO_MANIFESTS:
        set_up(stage, [], {'n1': SAMPLE})
        stage.write('manifest.csv', text)
        stage.check(LINE, Wanted(1, '', f'{fault}\n'), program='pack')
    set_up(stage, [line_of('F1')], {'n1': SAMPLE})
    for words, path in (('check --manifest absent.csv files',
                         'absent.csv'), ('check --manifest files files', 'files'),
                        ('check --manifest manifest.csv absent',
                         'absent'), ('check --manifest manifest.csv manifest.csv', 'manifest.csv')):
        stage.check(words, Wanted(3, '', f'E1 {path}\n'), program='pack')
    stage.check('check --manifest manifest.csv', Wanted(2, err=None), program='pack')


def test_a_file_that_can_not_be_read(stage: Stage) -> None:
    """A file that is gone once the folder is listed stops the check."""
    set_up(stage, [line_of(it) for it in ('F1', 'F5', 'I4')],
           {'n1': bytes_of('F1'), 'n2': bytes_of('F5'), 'n3': bytes_of('I4')})
    lines = [f'n1: A1, listed as {SAID["F1"]}\n', f'n2: A1, listed as {SAID["F5"]}\n']
    # The third file is removed once the line of the first one is written. There is no room for that
    # of the second one until then.
    got = run_held_up(stage, LINE, len(lines[0]), lambda: os.remove(stage.at('files/n3')), 'pack')
    stage.compare(LINE, Wanted(3, ''.join(lines), 'E1 files/n3\n'), got, 'pack')


def damaged(chance: random.Random, body: bytes) -> bytes:
    """A body with some of its bytes lost, doubled, or others."""
    at = chance.randrange(len(body))
    end = min(len(body), at + chance.choice((1, 1, 2, 8)))
    return body[:at] + chance.choice(
        (b'', b'\n', b',', b'"', b'0', b'\xff', b'x', body[at:end] * 2)) + body[end:]


def changed(chance: random.Random, body: bytes) -> bytes:
    """A body with another value of a member, or without it."""
    (_, text), *files = formats.sections(body)
    value = json.loads(text)
    holder = chance.choice([value, *value.get('contents', []), *value.get('deletes', [])])
    name = chance.choice(list(holder))
    if chance.random() < 0.2:
        del holder[name]
    else:
        holder[name] = chance.choice((None, '', 'x', 'F1', 'DIFF', 1, -1, [], {}, ['id', 'id'],
                                      'c.csv', 'id', 'child', 'contact', '2024-03-04T00:00:00Z'))
    return sealed(json.dumps(value).encode(), files)


def rewritten(chance: random.Random, body: bytes) -> bytes:
    (_, text), *files = formats.sections(body)
    if not files:
        return body
    at = chance.randrange(len(files))
    name, content = files[at]
    row = chance.choice((b'', b',\n', b'a,b,c,d\n', b'\xff\n', b'x' * 256 + b',\n', b'"\n',
                         b'"a\nb",c\n', b'\xef\xbb\xbfa\n', b'\r\na\r\n'))
    files[at] = name, chance.choice((row + content, content + row, row))
    return sealed(text, files)


def some_body(chance: random.Random) -> bytes:
    body = bytes_of(chance.choice(NAMES))
    for change in chance.sample((damaged, changed, rewritten), chance.choice((0, 1, 1, 1, 2))):
        with contextlib.suppress(Refused, IndexError, ValueError):
            body = change(chance, body)
    return body


def some_row(chance: random.Random, at: int, body: bytes) -> str:
    """A row that lists a body at a watermark of its own, or one of the worked rows where the body
    is that."""
    kind = chance.choice(('FULL', 'INCR', 'DIFF'))
    return row_of(
        f'B{at},{kind},2024-04-01T00:00:00.{at:09}Z,{"X1" if kind == "DIFF" else ""},'
        f'{chance.choice(("", "1"))}',
        body)


def some_folder(chance: random.Random) -> tuple[list[str], dict[str, bytes]]:
    """Rows and files: some files are listed, by their own rows or others; some are not; some are
    there twice; some rows have none."""
    worked = chance.sample(NAMES, chance.randint(1, len(NAMES)))
    bodies = list(dict.fromkeys(some_body(chance) for _ in range(40)))
    known = {bytes_of(it): line_of(it) for it in worked}
    rows = [
        known.get(body) or some_row(chance, at, body) for at, body in enumerate(bodies)
        if body in known or chance.random() < 0.7
    ]
    rows += [row for body, row in known.items() if body not in bodies and chance.random() < 0.8]
    chance.shuffle(rows)
    bodies = chance.sample(bodies, len(bodies) - 5) + chance.choices(bodies, k=5)
    return rows, {f'{chance.choice("anN-_.9")}{at}': body for at, body in enumerate(bodies)}


def test_random_folders(stage: Stage) -> None:
    """Folders at random, by the model and by what `restore take` says of them."""
    for seed in range(12):
        with case(f'seed {seed}'):
            rows, files = some_folder(random.Random(seed))
            check_taken(stage, check_folder(stage, rows, files))

"""What a bundle, an object's record and a manifest are, read in plain Python by the words of
docs/DEFINITIONS.md, and where a body is no deposit, by those of docs/PACK.md.

Nothing of the program is used: tests and trials expect of the program what this says. Each part is
the definition's words and is slow."""
import csv
import functools
import io
import json
import math
import re
import struct
from collections.abc import Mapping
from collections.abc import Sequence
from datetime import datetime
from datetime import timedelta
from typing import Literal
from typing import NoReturn
from typing import TypedDict
from typing import cast

from tests.support.limits import MOST_BYTES
from tests.support.limits import MOST_COUNT
from tests.support.limits import MOST_FIELDS
from tests.support.limits import MOST_ID
from tests.support.limits import MOST_KEY
from tests.support.limits import MOST_LISTED
from tests.support.limits import MOST_MANIFEST
from tests.support.limits import MOST_RESEND
from tests.support.limits import MOST_ROWS
from tests.support.limits import MOST_SECTION
from tests.support.limits import MOST_SECTIONS
from tests.support.limits import MOST_TABLE

KINDS = ('registrar', 'contact', 'host', 'domain', 'idn', 'nndn')
TYPES = ('DIFF', 'INCR', 'FULL')
csv.field_size_limit(MOST_BYTES)
FIRST_LINE = b'escrow-bundle 1\n'
EPOCH, SECONDS = datetime(1970, 1, 1), '%Y-%m-%dT%H:%M:%S'
HEADING = b'id type watermark prevId resend sha256'.split()
# How the place of a fault in the envelope begins, and what is said of a member there.
ENVELOPE, FORM = 'section 1 envelope.json', 'missing, or not of its form'


# Of a place the moment in nanoseconds and the type; of an object the kind and the key; the rows of
# an object, each its table and its cells; and the row of a manifest: id, place, prevId, resend,
# digest.
Place = tuple[int, str]
Named = tuple[str, bytes]
Rows = list[tuple[str, list[tuple[str, str]]]]
Listed = tuple[str, Place, str | None, int, str]
# Where an envelope has tables.
Member = Literal['contents', 'deletes']


class Declared(TypedDict):
    """A table, as an envelope declares it."""
    name: str
    kind: str
    role: str
    key: str
    fields: list[str]
    file: str


class Envelope(TypedDict, total=False):
    """What an envelope has, if its deposit reads."""
    id: str
    type: str
    watermark: str
    prevId: str
    resend: 'Number'
    tld: str
    notes: list[str]
    counts: dict[str, 'Number']
    contents: list[Declared]
    deletes: list[Declared]


class Refused(Exception):
    """A refusal: its number, and where it is: in a body in words, in a manifest by the row."""

    def __init__(self, code: int, where: str | int) -> None:
        super().__init__(code, where)
        self.code, self.where = code, where


def need(holds: object, code: int, where: str | int) -> None:
    if not holds:
        raise Refused(code, where)


# ---- words


def is_id(text: str) -> bool:
    return re.fullmatch(f'[A-Za-z0-9._-]{{1,{MOST_ID}}}', text) is not None


def is_utf8(text: bytes) -> bool:
    try:
        return text.decode() is not None
    except UnicodeDecodeError:
        return False


def moment(text: str) -> int | None:
    """The nanoseconds of a watermark, or None."""
    found = re.fullmatch(
        r'([0-9]{4}-[0-9]{2}-[0-9]{2}T[0-9]{2}:[0-9]{2}:[0-9]{2})(?:\.([0-9]{1,9}))?Z', text)
    try:
        at = datetime.strptime(found[1], SECONDS) if found else None
    except ValueError:
        return None
    if at is None or not 1970 <= at.year <= 2261:
        return None
    return (at - EPOCH) // timedelta(seconds=1) * 10**9 + int((found[2] or '').ljust(9, '0'))


def moment_text(nanoseconds: int) -> str:
    seconds, fraction = divmod(nanoseconds, 10**9)
    point = f'.{fraction:09}'.rstrip('0') if fraction else ''
    return f'{EPOCH + timedelta(seconds=seconds):{SECONDS}}{point}Z'


def place_text(place: Place) -> str:
    return f'{moment_text(place[0])} {place[1]}'


def in_order(place: Place) -> tuple[int, int]:
    """By what places are in order."""
    return place[0], TYPES.index(place[1])


def records(text: bytes) -> list[list[bytes]]:
    """The records of a CSV text: commas, double quotes, no trimming, no empty lines."""
    lines = io.StringIO(text.removeprefix(b'\xef\xbb\xbf').decode('latin-1'), newline='')
    return [[field.encode('latin-1') for field in row] for row in csv.reader(lines) if row]


# ---- the sections of a bundle


def sections(body: bytes) -> list[tuple[str, bytes]]:
    """The sections of a bundle, the name and the bytes of each. U1 to U4."""
    need(len(body) <= MOST_BYTES, 4, f'more than {MOST_BYTES:,} bytes')
    need(body.startswith(FIRST_LINE), 1, 'the first line is not "escrow-bundle 1"')
    found: list[tuple[str, bytes]] = []
    at = len(FIRST_LINE)
    while not body.startswith(b'end\n', at):
        name, content = section(body, at, [name for name, _ in found])
        found.append((name, content))
        at += len(f'{name} {len(content)}\n') + len(content) + 1
    need(found, 1, 'no section before the line "end"')
    need(at + len(b'end\n') == len(body), 1, 'more after the line "end"')
    return found


def section(body: bytes, at: int, before: list[str]) -> tuple[str, bytes]:
    """The section that begins here, after those of these names."""
    number = len(before) + 1
    line = re.compile(rb'([^\n ]*) (0|[1-9][0-9]*)\n').match(body, at)
    need(line, 1, f'section {number}: no line with a name and a length')
    name = line[1].decode(errors='replace')
    need(re.fullmatch(f'[a-z0-9._-]{{1,{MOST_SECTION}}}', name), 2,
         f'section {number}: a name that is not 1 to {MOST_SECTION} of a-z 0-9 . _ -')
    here = f'section {number} {name}'
    need(name not in before, 3, f'{here}: the name of an earlier section')
    need(number <= MOST_SECTIONS, 4, f'{here}: more than {MOST_SECTIONS} sections')
    need(
        len(line[2]) <= 8 and int(line[2]) <= MOST_BYTES, 4,
        f'{here}: more than {MOST_BYTES:,} bytes')
    need(before or name == 'envelope.json', 1, f'{here}: not envelope.json')
    end = line.end() + int(line[2])
    need(end <= len(body), 1, f'{here}: fewer bytes than its line says')
    need(body[end:end + 1] == b'\n', 1, f'{here}: no line end after its bytes')
    return name, body[line.end():end]


# ---- the envelope


class Number:
    """A JSON number by its text, which fits a float."""

    def __init__(self, text: str) -> None:
        if not math.isfinite(float(text)):
            raise ValueError(text)
        self.text = text

    def whole(self) -> int | None:
        """Its value if it is digits alone, up to 18446744073709551615."""
        is_whole = re.fullmatch('[0-9]{1,20}', self.text) and int(self.text) <= MOST_COUNT
        return int(self.text) if is_whole else None


def is_whole(value: object, most: int = MOST_COUNT) -> bool:
    return isinstance(value, Number) and value.whole() is not None and value.whole() <= most


def check_texts(value: object) -> None:
    """A text with half a surrogate pair is no text. (A value has no such text where one can write
    it.)"""
    json.dumps(value, ensure_ascii=False, default=lambda number: number.text).encode()


def members(pairs: list[tuple[str, object]]) -> dict[str, object]:
    check_texts(pairs)
    return dict(pairs)


def no_constant(text: str) -> NoReturn:
    raise ValueError(text)


def json_of(text: bytes) -> Envelope:
    """The value of a JSON text. U5 where it is none, nests deeper than 127 or has a number that no
    float is near. (Where in the text it is wrong isn't known here.)"""
    try:
        said = text.decode()
        deep = deepest = 0
        for bracket in re.findall(r'[][{}]', re.sub(r'"(?:[^"\\]|\\.)*"', '', said, flags=re.S)):
            deep += 1 if bracket in '[{' else -1
            deepest = max(deep, deepest)
        if deepest > 127:
            raise ValueError('too deep')
        value = json.loads(said, parse_int=Number, parse_float=Number, parse_constant=no_constant,
                           object_pairs_hook=members)
        check_texts(value)
        return value
    except ValueError:
        raise Refused(5, f'{ENVELOPE}: no JSON') from None


def envelope_in(body: bytes) -> Envelope:
    return json_of(dict(sections(body))['envelope.json'])


def counts_in(envelope: Envelope) -> dict[str, int]:
    return {kind: it.whole() for kind, it in envelope.get('counts', {}).items() if kind in KINDS}


def header_of(value: Envelope) -> tuple[str, Place, str | None, int]:
    """The header of an envelope: id, watermark and type, prevId, resend. U6, for the first of these
    members that is wrong."""
    told = value if isinstance(value, dict) else Envelope()
    name, watermark = told.get('id', ''), told.get('watermark', '')
    prev, resend = told.get('prevId'), told.get('resend')
    counts = told.get('counts', {})
    right = {
        'id': isinstance(name, str) and is_id(name),
        'type': told.get('type') in TYPES,
        'watermark': isinstance(watermark, str) and moment(watermark) is not None,
        'prevId': prev in (None, '') or isinstance(prev, str) and is_id(prev),
        'resend': resend is None or is_whole(resend, MOST_RESEND),
        'counts': isinstance(counts, dict)
        and all(is_whole(counts[it]) for it in KINDS if it in counts),
        'contents': isinstance(told.get('contents', []), list),
        'deletes': isinstance(told.get('deletes', []), list),
    }
    for member, is_right in right.items():
        need(is_right, 6, f'{ENVELOPE}, {member}: {FORM}')
    return name, (moment(watermark), told['type']), prev or None, resend.whole() if resend else 0


def tables_of(value: Envelope, member: Member, roles: tuple[str, ...]) -> list[Declared]:
    """The tables of what is, or of what was deleted, whose roles are these. U7, for the first table
    and the first member that is wrong."""
    before: list[Declared] = []
    for number, table in enumerate(value.get(member, []), 1):
        here = f'{ENVELOPE}, {member} table {number}'
        told: Mapping[str, object] = {**table} if isinstance(table, dict) else {}
        texts = {
            name: text
            for name in ('name', 'kind', 'role', 'key', 'file')
            if isinstance(text := told.get(name), str)
        }
        listed = told.get('fields')
        fields = listed if isinstance(listed, list) else []
        are_fields = all(isinstance(it, str) and is_id(it) for it in fields)
        right = {
            'name': re.fullmatch(f'[A-Za-z0-9_]{{1,{MOST_TABLE}}}', texts.get('name', '')),
            'kind': texts.get('kind') in KINDS,
            'role': texts.get('role') in roles,
            'fields': are_fields and 1 <= len(fields) <= MOST_FIELDS
            and len(set(fields)) == len(fields),
            'key': are_fields and texts.get('key') in fields,
            'file': 'file' in texts,
        }
        for it, is_right in right.items():
            need(is_right, 7, f'{here}, {it}: {FORM}')
        need(table['name'] not in [it['name'] for it in before], 7,
             f'{here}, name: that of an earlier table')
        parents = [it['kind'] for it in before if it['role'] == 'parent' and member == 'contents']
        need(table['role'] == 'child' or table['kind'] not in parents, 7,
             f'{here}, kind: that of an earlier parent table')
        before.append(table)
    return before


# ---- the deposit


class Deposit:
    """What a bundle is that reads: its header, how many objects it says there are, its tables of
    what is and of what was deleted, and the records of each file."""

    def __init__(self, header: tuple[str, Place, str | None, int], counts: dict[str, int],
                 contents: list[Declared], deletes: list[Declared],
                 files: dict[str, list[list[bytes]]]) -> None:
        self.name, self.place, self.prev, self.resend = header
        self.counts, self.contents, self.deletes, self.files = counts, contents, deletes, files

    def rows(self, tables: list[Declared]) -> list[tuple[Declared, list[bytes]]]:
        """The rows of tables, each with its table."""
        return [(table, row) for table in tables for row in self.files[table['file']]]

    @functools.cached_property
    def orphans(self) -> int:
        """How many child rows have no parent row."""
        rows = self.rows(self.contents)
        parents = {key(table, row) for table, row in rows if table['role'] == 'parent'}
        return sum(
            key(table, row) not in parents for table, row in rows if table['role'] == 'child')

    @functools.cached_property
    def says(self) -> dict[Named, bytes | None]:
        """Of each key that it mentions the record of the object, or None for one that there is no
        more."""
        said = {} if self.place[1] == 'FULL' else {key(*it): None for it in self.rows(self.deletes)}
        objects: dict[Named, tuple[bytes, list[tuple[bytes, bytes]]]] = {}
        children: dict[Named, list[tuple[bytes, list[tuple[bytes, bytes]]]]] = {}
        for table, row in self.rows(self.contents):
            made = table['name'].encode(), [(field.encode(), cell)
                                            for field, cell in zip(table['fields'], row)]
            if table['role'] == 'parent':
                objects[key(table, row)] = made
            else:
                children.setdefault(key(table, row), []).append(made)
        # Child rows by table name, and in a table as in its file (the sort keeps their order).
        return said | {
            it: record([made, *sorted(children.get(it, []), key=lambda row: row[0])])
            for it, made in objects.items()
        }


def key(table: Declared, row: list[bytes]) -> Named:
    text = row[table['fields'].index(table['key'])]
    return table['kind'], text.lower() if table['kind'] in ('domain', 'host') else text


def deposit(body: bytes) -> Deposit:
    """The deposit that a bundle is. U1 to U11."""
    (_, text), *others = sections(body)
    value = json_of(text)
    header = header_of(value)
    contents, deletes = tables_of(value, 'contents',
                                  ('parent', 'child')), tables_of(value, 'deletes', ('parent',))
    # The files of tables are sections, and each section is the file of one table. U8.
    names, named = [name for name, _ in others], [table['file'] for table in [*contents, *deletes]]
    for member, tables in (('contents', contents), ('deletes', deletes)):
        for number, table in enumerate(tables, 1):
            need(table['file'] in names, 8,
                 f'{ENVELOPE}, {member} table {number}, file: no section "{table["file"]}"')
    for number, name in enumerate(names, 2):
        need(name in named, 8, f'section {number} {name}: the file of no table')
        need(named.count(name) == 1, 8, f'section {number} {name}: the file of two tables')
    files = {name: records(content) for name, content in others}
    check_rows({table['file']: table for table in [*contents, *deletes]}, files)
    return Deposit(header, counts_in(value), contents, deletes, files)


def check_rows(tables: dict[str, Declared], files: dict[str, list[list[bytes]]]) -> None:
    """The rows of files, each the file of a table. U9 to U11."""
    rows = [(f'section {number} {name}, row {row}', tables[name], fields)
            for number, (name, its) in enumerate(files.items(), 2)
            for row, fields in enumerate(its, 1)]
    for here, table, fields in rows:
        declared = len(table['fields'])
        need(
            len(fields) == declared, 9,
            f'{here}: the number of fields is {len(fields)}, declared {declared}')
        for name, field in zip(table['fields'], fields):
            need(is_utf8(field), 9, f'{here}, column {name}: no UTF-8')
    for here, table, fields in rows:
        _, text = key(table, fields)
        need(text, 10, f'{here}, column {table["key"]}: an empty key')
        need(len(text) <= MOST_KEY, 10,
             f'{here}, column {table["key"]}: a key of more than {MOST_KEY} bytes')
    if len(rows) > MOST_ROWS:
        raise Refused(11, f'{rows[MOST_ROWS][0]}: more than {MOST_ROWS:,} rows')


@functools.lru_cache(32)
def found_in(body: bytes) -> 'Deposit | Refused':
    """The deposit that a body is, or its refusal."""
    try:
        return deposit(body)
    except Refused as refused:
        return refused


def held_in(body: bytes) -> Deposit:
    """The deposit that a body is, of which it is known that it is one."""
    return cast(Deposit, found_in(body))


def verdict(body: bytes, row: Listed) -> tuple[str, str]:
    """What a body is that this row lists: the verdict, and the fault or an empty text."""
    found = found_in(body)
    if isinstance(found, Refused):
        return 'A3', f'U{found.code}'
    is_other = (found.name, found.place, found.resend) != (
        row[0], row[1], row[3]) or found.place[1] == 'DIFF' and found.prev != row[2]
    return 'A4' if is_other else 'A1', ''


# ---- the record of an object


def number_bytes(value: int) -> bytes:
    return struct.pack('>I', value)


def text_bytes(value: str | bytes) -> bytes:
    value = value.encode() if isinstance(value, str) else value
    return number_bytes(len(value)) + value


def record(rows: Sequence[tuple[str | bytes, Sequence[tuple[str | bytes, str | bytes]]]]) -> bytes:
    """The bytes of an object: rows of a table's name with its cells, the parent first."""
    made = [number_bytes(len(rows))]
    for table, cells in rows:
        made += [text_bytes(table), number_bytes(len(cells))]
        made += [text_bytes(field) + text_bytes(value) for field, value in cells]
    return b''.join(made)


def read_record(bytes_: bytes) -> Rows:
    """The rows of an object, of each its table and its cells, as texts."""
    file = io.BytesIO(bytes_)

    def number() -> int:
        return struct.unpack('>I', file.read(4))[0]

    def text() -> str:
        return file.read(number()).decode()

    return [(text(), [(text(), text()) for _ in range(number())]) for _ in range(number())]


# ---- manifests


def row_of(record: list[bytes]) -> Listed:
    """A manifest's row by its record: id, place, prevId, resend, digest, with None for what is not
    of its form."""
    name, kind, watermark, prev, resend, digest = (field.decode() if is_utf8(field) else '\ufffd'
                                                   for field in record)
    listed = int(resend or 0) if re.fullmatch(f'[0-9]{{0,{len(str(MOST_RESEND))}}}',
                                              resend) else None
    return name, (moment(watermark), kind), prev or None, listed, digest.lower()


FORMS = (
    (4, lambda name, place, prev, resend, digest: not is_id(name) or prev is not None and not is_id(
        prev)),
    (5, lambda name, place, prev, resend, digest: place[1] not in TYPES),
    (6, lambda name, place, prev, resend, digest: place[0] is None),
    (7, lambda name, place, prev, resend, digest: place[1] == 'DIFF' and prev is None),
    (8, lambda name, place, prev, resend, digest: resend is None),
    (9, lambda name, place, prev, resend, digest: not re.fullmatch('[0-9a-f]{64}', digest)),
)


def manifest(text: bytes) -> list[Listed]:
    """The rows of a manifest. M1 to M13."""
    found = records(text)
    need(len(text) <= MOST_MANIFEST and len(found) <= 1 + MOST_LISTED, 1, 0)
    for index, record in enumerate(found):
        need(len(record) == 6, 2, index)
    need(found and found[0] == HEADING, 3, 0)
    rows = [row_of(record) for record in found[1:]]
    for code, has_fault in FORMS:
        for index, row in enumerate(rows, 1):
            need(not has_fault(*row), code, index)
    if fault := fault_among(rows):
        raise Refused(*fault)
    return rows


def fault_among(rows: list[Listed]) -> tuple[int, int] | None:
    """The least fault of rows of the right forms against each other, M10 to M13, and its row; or
    None."""
    places: dict[str, Place] = {}
    revisions: set[tuple[Place, int]] = set()
    digests: set[str] = set()
    faults: list[tuple[int, int]] = []
    for index, (name, place, prev, resend, digest) in enumerate(rows, 1):
        faults += [(10, index)] if (place, resend) in revisions else []
        faults += [(11, index)] if places.setdefault(name, place) != place else []
        faults += [(13, index)] if digest in digests else []
        revisions.add((place, resend))
        digests.add(digest)
    for index, (_, place, prev, _, _) in enumerate(rows, 1):
        if place[1] == 'DIFF' and any(other[0] == prev and other[1][0] >= place[0]
                                      for other in rows):
            faults.append((12, index))
    return min(faults, default=None)

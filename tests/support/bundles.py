"""Deposits: the bundle of each, put together of its tables, or of an envelope and sections; the
manifests that list them; and the worked bundle of one contact."""
import hashlib
import json
from collections.abc import Iterable
from collections.abc import Sequence
from typing import NamedTuple

# The first lines of a bundle and of a manifest.
FIRST_LINE, HEADING = b'escrow-bundle 1\n', 'id,type,watermark,prevId,resend,sha256\n'
# The worked bundle of one contact: its envelope, and its second section and its end.
ENVELOPE = (
    b'{"id":"F1","type":"FULL","watermark":"2024-03-03T00:00:00Z","contents":[{"name":"contact",'
    b'"kind":"contact","role":"parent","key":"id","fields":["id","clID"],"file":"c.csv"}]}')
BACK = b'c.csv 6\nC1,R1\n\nend\n'
FRONT = FIRST_LINE + b'envelope.json 174\n' + ENVELOPE + b'\n'
SAMPLE = FRONT + BACK

CHILD = ('contact', 'child', ('id',))
# The table that each section is the file of: its kind, its role and its fields, of which the first
# is the key. A kind has one parent table, and of child rows without a parent row their number alone
# is seen: so each section is the file of a parent table here or below.
FILES = {
    'a': ('registrar', 'parent', ('id',)),
    'b.csv': ('contact', 'parent', ('id',)),
    'c-d': CHILD,
    'e_f': CHILD,
    '0': ('host', 'parent', ('name',)),
    '1.2': ('domain', 'parent', ('name',)),
    'z' * 32: ('idn', 'parent', ('id', 'clID')),
    'end': ('nndn', 'parent', ('aName',)),
    'g': CHILD,
}


def section(name: str, content: bytes) -> bytes:
    return f'{name} {len(content)}\n'.encode() + content + b'\n'


def bundle_of(envelope: bytes, files: bytes = b'') -> bytes:
    return FIRST_LINE + section('envelope.json', envelope) + files + b'end\n'


def compact(envelope: object) -> bytes:
    return json.dumps(envelope, separators=(',', ':')).encode()


def sealed(envelope: object, files: Iterable[tuple[str, bytes]]) -> bytes:
    """The bundle of an envelope, a value or its text, and of files: the name and the content of
    each."""
    text = envelope if isinstance(envelope, bytes) else compact(envelope)
    return bundle_of(text, b''.join(section(*it) for it in files))


class Header(NamedTuple):
    """What a deposit says of itself, and as a text what the row of a manifest says of it."""
    id: str
    type: str
    watermark: str
    prev: str = ''
    resend: int = 0

    def __str__(self) -> str:
        return ','.join(map(str, self))


class Table(NamedTuple):
    """A table's declaration, and the text of its rows. Its key is the first field, if no other one
    is named."""
    name: str
    kind: str
    role: str
    fields: tuple
    rows: bytes = b''
    key: str | None = None

    def declared(self, file: str) -> dict[str, object]:
        return {
            'name': self.name,
            'kind': self.kind,
            'role': self.role,
            'key': self.key or self.fields[0],
            'fields': list(self.fields),
            'file': file
        }


def deposit(header: object, contents: Sequence[Table] = (), deletes: Sequence[Table] = (),
            counts: dict[str, int] | None = None, **besides: object) -> bytes:
    """The bundle of a deposit with these tables, which says how many objects of some kinds there
    are, and has these members besides. The header may be its text."""
    name, kind, watermark, prev, resend = str(header).split(',')
    told = {
        'id': name,
        'type': kind,
        'watermark': watermark,
        'prevId': prev,
        'resend': int(resend or 0),
        'counts': counts or {},
        **besides
    }
    files = []
    for member, tables in (('deletes', deletes), ('contents', contents)):
        named = [(f'{member[0]}{at}', it) for at, it in enumerate(tables)]
        told[member] = [it.declared(file) for file, it in named]
        files += [(file, it.rows) for file, it in named]
    return sealed(told, files)


def envelope_of(files: dict[str, tuple[str, str, tuple[str, ...]]]) -> bytes:
    """The envelope of a Full whose tables are t0, t1 .., each with its file."""
    tables = [
        Table(f't{at}', *declared).declared(file)
        for at, (file, declared) in enumerate(files.items())
    ]
    return compact(
        {'id': 'F1', 'type': 'FULL', 'watermark': '2024-03-03T00:00:00Z', 'contents': tables})


def row_of(header: object, body: bytes) -> str:
    return f'{header},{hashlib.sha256(body).hexdigest()}\n'


def manifest(deposits: Iterable[tuple[object, bytes]]) -> bytes:
    return (HEADING + ''.join(row_of(*it) for it in deposits)).encode()

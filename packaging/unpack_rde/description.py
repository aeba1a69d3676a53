"""The description of a folder's CSV files, as `pack describe` proposes it: the envelope of their
bundle, of which each table may name its files (`from`), and say that these have headings."""
import json
import re
from collections.abc import Iterator
from typing import NamedTuple

from faults import Refusal
from limits import ID
from limits import MOST_BYTES
from limits import MOST_COUNT
from limits import MOST_FIELDS
from limits import MOST_RESEND
from limits import SECTION
from limits import TABLE
from names import KINDS
from names import Table
from progress import opened_plain
from reading import in_utc
from series import TYPES
from series import DepositType
from series import Header
from writing import DESCRIPTION

# The members that are not kept as they are: the header, the tables, and what the last bundle alone
# says, or each in its own way.
OWN = ('id', 'type', 'watermark', 'prevId', 'resend', 'contents', 'deletes', 'counts', 'notes',
       'series')
# What a heading may have for the desk's name of a field, and the table that has the field, if it is
# one.
IN_HEADINGS = {
    'fClID': ('clID', None), 'fRegistrant': ('registrant', None),
    'fIdnTableId': ('idnTableId', None), 'fCrDate': ('crDate', None), 'fExDate': ('exDate', None),
    'fStatus': ('status', None), 'fId': ('contactId', 'domainContacts'),
    'fHostName': ('hostName', 'domainNs')
}
FORM = 'missing, or not of its form'


class Source(NamedTuple):
    """A table that is declared, and the names of the files that have its rows."""
    table: Table
    is_of_deletes: bool
    fields: list[str]
    files: list[str]
    has_heading: bool

    def is_heading(self, row: list[str]) -> bool:
        """Whether a row names the fields, each by its name or by that of RFC 9022."""
        return len(row) == len(self.fields) and all(
            name == field or IN_HEADINGS.get(name) in ((field, None), (field, self.table.name))
            for name, field in zip(row, self.fields))


class Description(NamedTuple):
    """What a description says. The sources are in the order of kinds, the parent table of a kind
    before its child tables, and deletes before contents."""
    header: Header
    counts: dict[str, int]
    notes: list[str]
    sources: list[Source]


def read_description(path: str) -> Description:
    """The description in a file. It is refused for the first member that has another form."""
    value = json_in(path)
    if not isinstance(value, dict):
        raise Refusal(path, 'it is no JSON object')
    counts = value.get('counts', {})
    for member, is_right in (('counts', are_counts(counts)),
                             ('contents', isinstance(value.get('contents', []), list)),
                             ('deletes', isinstance(value.get('deletes', []), list))):
        if not is_right:
            raise Refusal(path, f'{member}: {FORM}')
    deletes, contents = (sources_in(path, value, it) for it in ('deletes', 'contents'))
    check_files(path, [*deletes, *contents])
    notes = value.get('notes', [])
    return Description(header_in(path, value), counts, notes if are_texts(notes) else [],
                       [*in_order(deletes), *in_order(contents)])


def json_in(path: str) -> object:
    """The value of a file, which can be written again."""
    with opened_plain(path) as file:
        data = file.read(MOST_BYTES + 1)
    if len(data) > MOST_BYTES:
        raise Refusal(path, f'it has more than {MOST_BYTES} bytes')
    try:
        value = json.loads(data.decode())
        json.dumps(value, ensure_ascii=False, allow_nan=False).encode()
    except (ValueError, RecursionError):
        raise Refusal(path, 'it is no JSON') from None
    return value


def is_number(value: object, most: int) -> bool:
    return type(value) is int and 0 <= value <= most


def are_counts(value: object) -> bool:
    return isinstance(value, dict) and all(
        is_number(value[it], MOST_COUNT) for it in KINDS if it in value)


def is_text(value: object, form: re.Pattern) -> bool:
    return isinstance(value, str) and form.fullmatch(value) is not None


def is_id(value: object) -> bool:
    return is_text(value, ID)


def are_texts(value: object) -> bool:
    return isinstance(value, list) and all(isinstance(it, str) for it in value)


def header_in(path: str, value: dict) -> Header:
    """The header of the deposit, with what else is said of it."""
    prev, resend = value.get('prevId'), value.get('resend')
    for member, is_right in (('id', is_id(value.get('id'))), ('type', value.get('type') in TYPES),
                             ('watermark', isinstance(value.get('watermark'), str)),
                             ('prevId', prev in (None, '') or is_id(prev)),
                             ('resend', resend is None or is_number(resend, MOST_RESEND))):
        if not is_right:
            raise Refusal(path, f'{member}: {FORM}')
    if value['type'] == DepositType.DIFFERENTIAL and not prev:
        raise Refusal(path, 'prevId: missing, and it is a Differential')
    try:
        watermark = in_utc(value['watermark'])
    except ValueError as error:
        raise Refusal(path, f'watermark {value["watermark"]}: {error}') from None
    optional = {'prevId': prev, 'resend': resend}
    return {
        'id': value['id'], 'type': value['type'], 'watermark': watermark,
        **{name: it for name, it in optional.items() if it},
        **{name: it for name, it in value.items() if name not in OWN}
    }


def sources_in(path: str, value: dict, member: str) -> list[Source]:
    """The tables of contents or of deletes, of which no two have one name, and no two of contents
    are parent tables of one kind."""
    found: dict[str, Source] = {}
    parents = set()
    for number, table in enumerate(value.get(member, []), 1):
        here = f'{member} table {number}'
        source = source_of(path, here, table, member == 'deletes')
        if source.table.name in found:
            raise Refusal(path, f'{here}, name: that of an earlier table')
        if member == 'contents' and source.table.is_parent:
            if source.table.kind in parents:
                raise Refusal(path, f'{here}, kind: that of an earlier parent table')
            parents.add(source.table.kind)
        found[source.table.name] = source
    return list(found.values())


def source_of(path: str, here: str, value: object, is_of_deletes: bool) -> Source:
    told = value if isinstance(value, dict) else {}
    for member, is_right in forms(told, is_of_deletes):
        if not is_right:
            raise Refusal(path, f'{here}, {member}: {FORM}')
    table = Table(told['name'], told['kind'], told['role'] == 'parent', told['key'],
                  section=told['file'])
    files = told.get('from', [told['file']])
    return Source(table, is_of_deletes, told['fields'], files, told.get('heading', False))


def forms(told: dict, is_of_deletes: bool) -> Iterator[tuple[str, bool]]:
    """Each member of a table, and whether it has its form."""
    fields = told.get('fields')
    are_fields = isinstance(fields, list) and 1 <= len(fields) <= MOST_FIELDS and all(
        map(is_id, fields)) and len(set(fields)) == len(fields)
    yield 'name', is_text(told.get('name'), TABLE)
    yield 'kind', told.get('kind') in KINDS
    yield 'role', told.get('role') in (('parent',) if is_of_deletes else ('parent', 'child'))
    yield 'fields', are_fields
    yield 'key', are_fields and told.get('key') in fields
    yield 'file', is_text(told.get('file'), SECTION) and told['file'] != DESCRIPTION
    yield 'from', are_texts(told.get('from', []))
    yield 'heading', isinstance(told.get('heading', False), bool)


def check_files(path: str, sources: list[Source]) -> None:
    """No two tables have one section, and no file is named twice."""
    sections = [it.table.section for it in sources]
    for what, names in (('section', sections), ('file', [name for it in sources
                                                         for name in it.files])):
        twice = next((it for at, it in enumerate(names) if it in names[:at]), None)
        if twice is not None:
            raise Refusal(path, f'the {what} {twice} is named twice')


def in_order(sources: list[Source]) -> list[Source]:
    return sorted(sources, key=lambda it: (KINDS.index(it.table.kind), not it.table.is_parent))

"""Envelopes: what they say, and each fault of each member, seen by the deposits of their
bundles."""
import re
from collections.abc import Sequence
from dataclasses import dataclass

from tests.support.bodies import bytes_of
from tests.support.bodies import line_of
from tests.support.bundles import ENVELOPE
from tests.support.bundles import SAMPLE
from tests.support.bundles import bundle_of
from tests.support.bundles import row_of
from tests.support.bundles import section
from tests.support.stage import Stage
from tests.support.stage import case
from tests.support.stage import compare
from tests.support.verdicts import C1
from tests.support.verdicts import F1
from tests.support.verdicts import check_faults
from tests.support.verdicts import check_held
from tests.support.verdicts import desk_over
from tests.support.verdicts import reply_to

# A Differential without tables, on the worked body F5.
COUNTED = (b'{"id":"D6","type":"DIFF","prevId":"F5","resend":2,"watermark":"2024-03-11T00:00:00Z",'
           b'"counts":{"domain":3,"host":0,"registrar":1}}')
# How the latest chain ends with F5 alone, and with both: the watermark, and how many objects there
# are.
F5_ALONE = '2024-03-10T00:00:00Z\n'
BOTH = '2024-03-11T00:00:00Z\nregistrar 1\nhost 0\ndomain 3\n'
# The row of the Differential, and rows that differ from it in one value: what it is answered, and
# how the chain ends then.
ROWS = (
    ('D6,DIFF,2024-03-11T00:00:00Z,F5,2', 'A1,,D6,2,new,0', BOTH),
    ('D7,DIFF,2024-03-11T00:00:00Z,F5,2', 'A4,,D7,2,,', F5_ALONE),
    ('D6,INCR,2024-03-11T00:00:00Z,F5,2', 'A4,,D6,2,,', F5_ALONE),
    ('D6,DIFF,2024-03-11T00:00:00.000000001Z,F5,2', 'A4,,D6,2,,', F5_ALONE),
    ('D6,DIFF,2024-03-11T00:00:00Z,F4,2', 'A4,,D6,2,,', F5_ALONE),
    ('D6,DIFF,2024-03-11T00:00:00Z,F5,1', 'A4,,D6,1,,', F5_ALONE),
)


def table(**other: str | None) -> str:
    """The declaration of a table, with other values for some of its members. None is a member that
    isn't there."""
    members = {
        'name': '"h"',
        'kind': '"host"',
        'role': '"parent"',
        'key': '"a"',
        'fields': '["a"]',
        'file': '"f"'
    } | other
    return '{%s}' % ','.join(f'"{name}":{value}'
                             for name, value in members.items() if value is not None)


def contents(*tables: str) -> str:
    return f',"contents":[{",".join(tables)}]'


def deletes(*tables: str) -> str:
    return f',"deletes":[{",".join(tables)}]'


@dataclass(frozen=True)
class Read:
    """Members that follow a correct header (of a name that occurs twice the last counts), and what
    is read: the objects, the resend, and how many objects it says there are. The file f has the row
    f, and g the row g."""
    members: str
    objects: tuple = ()
    resend: int = 0
    counts: tuple = ()


READ = (
    Read(''),
    Read(',"tld":1'),
    Read(',"prevId":null'),
    Read(',"prevId":""'),
    Read(',"prevId":"F1"'),
    Read(',"resend":null'),
    Read(',"resend":999999', resend=999_999),
    Read(',"counts":{}'),
    Read(',"counts":{"domains":-1}'),
    Read(contents()),
    Read(',"counts":{"domain":18446744073709551615}', counts=('domain 18446744073709551615',)),
    Read(contents(table(), table(name='"i"', kind='"domain"', file='"g"')),
         ('host f: h a=f', 'domain g: i a=g')),
    Read(contents(table()) + deletes(table(file='"g"')), ('host f: h a=f',)),
    Read(deletes(table(), table(name='"i"', file='"g"'))),
)
# Members, by the fault.
REFUSED = {
    'U5': [',"resend":01'],
    'U6': [
        ',"id":null', ',"id":7', ',"id":""', ',"id":"a b"', ',"type":null', ',"type":"full"',
        ',"type":[]', ',"watermark":null', ',"watermark":1709424000', ',"watermark":"2024-03-03"',
        ',"prevId":"a b"', ',"prevId":1', ',"resend":1000000', ',"resend":1.0', ',"resend":1e0',
        ',"resend":-0', ',"resend":"1"', ',"counts":null', ',"counts":[]',
        ',"counts":{"domain":18446744073709551616}', ',"counts":{"domain":null}',
        ',"counts":{"domain":1,"domain":-1}', ',"contents":null', ',"contents":{}',
        ',"deletes":null',
        contents('1') + ',"deletes":1'
    ],
    'U7': [
        contents('1'),
        contents('{}'), *(contents(table(**it)) for it in ({
            'name': None
        }, {
            'name': '"a.b"'
        }, {
            'kind': '"hosts"'
        }, {
            'role': 'null'
        }, {
            'key': '"b"'
        }, {
            'fields': '[]'
        }, {
            'fields': '["a","a"]'
        }, {
            'fields': '["a","b c"]'
        }, {
            'fields': '["a",1]'
        }, {
            'file': None
        })),
        contents(table(), table(role='"child"', file='"g"')),
        contents(table(), table(name='"i"', file='"g"')),
        deletes(table(role='"child"', file='"g"')),
        deletes(table(), table(kind='"idn"', file='"g"'))
    ],
}
# Texts without a correct header, by the fault.
NO_HEADERS = {
    'U5': [b'', b'{} {}', b'"\xff"', b'\xef\xbb\xbf{}'],
    'U6': [
        b'[]', b'{"type":"FULL","watermark":"2024-03-03T00:00:00Z"}',
        b'{"id":"F1","watermark":"2024-03-03T00:00:00Z"}', b'{"id":"F1","type":"FULL"}'
    ],
}


def body_of(members: str, row: str = None) -> bytes:
    """The bundle of an envelope with these members after a correct header. Each file that they name
    has one row: its name, or this."""
    files = dict.fromkeys(re.findall('"file":"([a-z])"', members))
    sections = b''.join(section(it, f'{row or it}\n'.encode()) for it in files)
    return bundle_of(
        f'{{"id":"F1","type":"FULL","watermark":"2024-03-03T00:00:00Z"{members}}}'.encode(),
        sections)


def body_of_fields(names: Sequence[str]) -> bytes:
    """The bundle of a table with these fields, and of one row."""
    fields = ','.join(f'"{it}"' for it in names)
    return body_of(contents(table(fields=f'[{fields}]')), ','.join(f'in {it}' for it in names))


def test_what_envelopes_say(stage: Stage) -> None:
    """What the envelopes of a Full and of a Differential say."""
    compare('bytes of the envelopes', '174 130', f'{len(ENVELOPE)} {len(COUNTED)}')
    check_held(stage, 'the Full', SAMPLE, [C1])
    body = bundle_of(COUNTED)
    for row, reply, end in ROWS:
        with case(f'listed as {row}'), desk_over(stage, [line_of('F5'), row_of(row, body)]) as desk:
            compare('reply to F5', 'A1,,F5,0,new,0', reply_to(stage, desk, 1, bytes_of('F5')))
            compare('reply to the Differential', reply, reply_to(stage, desk, 2, body))
            compare('end', end, desk.ask('end'))


def test_members_that_are_read(stage: Stage) -> None:
    """Members that an envelope may have."""
    for it in READ:
        said = F1.removesuffix('0') + str(it.resend)
        check_held(stage, f'an envelope with {it.members!r}', body_of(it.members), it.objects, said,
                   counts=it.counts)


def test_members_that_are_refused(stage: Stage) -> None:
    """Members of other forms, and texts that are no envelope, are refused."""
    check_faults(stage, [(f'an envelope with {it}', body_of(it), fault)
                         for fault, members in REFUSED.items()
                         for it in members] + [(f'the envelope {it}', bundle_of(it), fault)
                                               for fault, texts in NO_HEADERS.items()
                                               for it in texts])


def test_the_fields_of_a_table(stage: Stage) -> None:
    """As many fields as a table may have, and one more."""
    names = ['a', *(f'b{at}' for at in range(64))]
    check_held(stage, '64 fields', body_of_fields(names[:64]),
               [f'host in a: h {" ".join(f"{it}=in {it}" for it in names[:64])}'])
    check_faults(stage, [('65 fields', body_of_fields(names), 'U7')])

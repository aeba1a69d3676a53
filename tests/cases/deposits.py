"""Deposits: what bundles hold, what is refused, what deletes take away, and how long keys and how
many rows there may be."""
from dataclasses import dataclass

from tests.support.bundles import FIRST_LINE
from tests.support.bundles import bundle_of
from tests.support.bundles import row_of
from tests.support.bundles import section
from tests.support.stage import Stage
from tests.support.stage import case
from tests.support.stage import compare
from tests.support.stage import text_of
from tests.support.verdicts import C1
from tests.support.verdicts import DOMAIN_A
from tests.support.verdicts import DOMAIN_B
from tests.support.verdicts import F1
from tests.support.verdicts import check_faults
from tests.support.verdicts import check_held
from tests.support.verdicts import desk_over
from tests.support.verdicts import reply_to

DECLARED = {
    'contact': '{"name":"contact","kind":"contact","role":"parent","key":"id","fields":["id",'
    '"clID"],"file":"c.csv"}',
    'domain': '{"name":"domain","kind":"domain","role":"parent","key":"name","fields":["name",'
    '"clID","registrant"],"file":"d.csv"}',
    'deleted': '{"name":"domain","kind":"domain","role":"parent","key":"name","fields":["name"],'
    '"file":"gone.csv"}',
    'domainNs': '{"name":"domainNs","kind":"domain","role":"child","key":"domainName",'
    '"fields":["domainName","hostName"],"file":"ns.csv"}',
    'domainStatus': '{"name":"domainStatus","kind":"domain","role":"child","key":"name",'
    '"fields":["status","name"],"file":"st.csv"}',
    'contactStatus': '{"name":"contactStatus","kind":"contact","role":"child","key":"id",'
    '"fields":["id","status"],"file":"cs.csv"}',
}
FULL = '"id":"F1","type":"FULL","watermark":"2024-03-03T00:00:00Z"'
DIFF = '"id":"D2","type":"DIFF","prevId":"F1","watermark":"2024-03-04T00:00:00Z"'
D2 = 'D2,DIFF,2024-03-04T00:00:00Z,F1,0'


@dataclass(frozen=True)
class Tables:
    """The tables that the contents and the deletes of a deposit declare, and the sections of their
    files."""
    contents: str
    deletes: str
    files: bytes

    def body(self, header: str = FULL) -> bytes:
        declared = [
            ','.join(DECLARED[it] for it in names.split())
            for names in (self.contents, self.deletes)
        ]
        return bundle_of('{{{},"contents":[{}],"deletes":[{}]}}'.format(header, *declared).encode(),
                         self.files)


WITH_NS1 = f'{DOMAIN_A}; domainNs domainName=a.example hostName=ns1.x'
# The last row of a lowered key counts.
LOWERED = Tables(
    'domain', 'deleted',
    b'd.csv 48\nA.example,R1,C1\na.example,R2,C1\nB.example,R1,C1\n\ngone.csv 10\nA.EXAMPLE\n\n')
OF_LOWERED = ('domain a.example: domain name=a.example clID=R2 registrant=C1',
              'domain b.example: domain name=B.example clID=R1 registrant=C1')
# Deletes, an object with a child row, and no orphan.
BOTH = Tables(
    'domain domainNs', 'deleted',
    b'd.csv 16\na.example,R1,C1\n\nns.csv 16\na.example,ns1.x\n\ngone.csv 10\nb.example\n\n')
# Fulls, with the objects, and how many child rows have no parent row.
HELD = (
    (LOWERED, OF_LOWERED, 0),
    # Child rows are in the order of the names of their tables.
    (Tables(
        'domainStatus contactStatus contact domainNs domain', '',
        b'st.csv 43\nok,a.example\nlocked,A.example\nok,c.example\n\ncs.csv 23\na.example,ok\nC1,'
        b'linked\n\n'
        b'c.csv 15\nC1,R1\nc1,"R,1"\n\nns.csv 34\na.example,ns2.x\r\n\r\na.example,ns1.x\nd.csv '
        b'18\n\xef\xbb\xbfa.example,R1,C1\n'
    ),
     (f'{C1}; contactStatus id=C1 status=linked', 'contact c1: contact id=c1 clID=R,1',
      f'{DOMAIN_A}; domainNs domainName=a.example hostName=ns2.x; domainNs domainName=a.example '
      'hostName=ns1.x; '
      'domainStatus status=ok name=a.example; domainStatus status=locked name=A.example'), 2),
    (Tables('contact domainNs', '',
            b'c.csv 6\nC1,R1\n\nns.csv 24\na.example,ns1.a.example\n\n'), (C1,), 1),
    # Three contact rows have no parent row, in other letters or of another id; nor do two of the
    # name servers, and a domain's status whose key is a contact's id.
    (Tables(
        'contact contactStatus domain domainNs domainStatus', '',
        b'c.csv 6\nC1,R1\n\ncs.csv 28\nC1,ok\nc1,ok\nC2,ok\nC2,linked\n\nd.csv 16\na.example,R1,'
        b'C1\n\n'
        b'ns.csv 48\nA.EXAMPLE,ns1.x\nb.example,ns1.x\nB.example,ns2.x\n\nst.csv 19\nok,C1\nok,'
        b'a.example\n\n'
    ),
     (f'{C1}; contactStatus id=C1 status=ok',
      f'{DOMAIN_A}; domainNs domainName=A.EXAMPLE hostName=ns1.x; domainStatus status=ok '
      'name=a.example'
      ), 6),
    (BOTH, (WITH_NS1,), 0),
)
# Fulls, and the fault.
REFUSED = (
    (Tables('contact', '', b'c.csv 4\n,R1\n\n'), 'U10'),
    (Tables('contact', '', b'c.csv 4\n,R1\n\nx 0\n\n'), 'U8'),
    (Tables('contact', '', b''), 'U8'),
    (Tables('contact', 'contact', b'c.csv 6\nC1,R1\n\n'), 'U8'),
    (Tables('contact', '', b'c.csv 7\n"C1,R1\n\n'), 'U9'),
    (Tables('contact domain', '', b'c.csv 4\n,R1\n\nd.csv 13\na.example,R1\n\n'), 'U9'),
    (Tables('contact domain', '', b'c.csv 6\nC1,R1\n\nd.csv 15\na.example,\xff,C1\n\n'), 'U9'),
    (Tables('', 'deleted', b'gone.csv 12\na.example\n\xff\n\n'), 'U9'),
    # A broken row is refused first, wherever a key is wrong; and so is a wrong key of a child row
    # or a delete.
    (Tables('contactStatus contact', '', b'cs.csv 3\nC1\n\nc.csv 4\n,R1\n\n'), 'U9'),
    (Tables('contact', 'deleted', b'c.csv 4\n,R1\n\ngone.csv 12\na.example,x\n\n'), 'U9'),
    (Tables('domainNs domain', '', b'ns.csv 7\n,ns1.x\n\nd.csv 16\na.example,R1,C1\n\n'), 'U10'),
    (Tables('', 'deleted', b'gone.csv 3\n""\n\n'), 'U10'),
)
# Bodies whose frame or envelope is faulty, and the fault.
UNREADABLE = (
    (b'', 'U1'),
    (FIRST_LINE + b'Envelope.json 2\n{}\nend\n', 'U2'),
    (FIRST_LINE + b'envelope.json 1\n{\nX 0\n\nend\n', 'U2'),
    (FIRST_LINE + b'envelope.json 2\n{}\nenvelope.json 2\n{}\nend\n', 'U3'),
    (FIRST_LINE + b'envelope.json 16777217\n', 'U4'),
    (FIRST_LINE + b'envelope.json 1\n{\nend\n', 'U5'),
    (FIRST_LINE + b'envelope.json 2\n{}\nend\n', 'U6'),
    (FIRST_LINE +
     b'envelope.json 89\n{"id":"F1","type":"FULL","watermark":"2024-03-03T00:00:00Z",'
     b'"contents":[{}],"deletes":[]}\nend\n',
     'U7'),
)

# A Full of the domains a.example and b.example; Differentials on it, and the objects then. What a
# Full deletes takes nothing away.
BASE = Tables('domain', '', section('d.csv', b'a.example,R1,C1\nb.example,R1,C1\n'))
DELETES = (
    (Tables('', 'deleted', section('gone.csv', b'A.EXAMPLE\n')), (DOMAIN_B,)),
    (Tables('', 'deleted', section('gone.csv', b'B.example\na.example\n')), ()),
    (LOWERED, OF_LOWERED),
    (BOTH, (WITH_NS1,)),
)

# Contacts: how many letters come before the number of each, how many there are, and the faults:
# alone, and where a domain is deleted too.
SIZES = ((254, 1, None, None), (255, 1, 'U10', 'U10'), (0, 100_000, None, 'U11'), (0, 100_001,
                                                                                   'U11', 'U11'))


def test_deposits_that_are_held(stage: Stage) -> None:
    """The objects and the orphans of Fulls."""
    for tables, objects, orphans in HELD:
        check_held(stage, f'{tables}', tables.body(), objects, orphans=orphans)


def test_deposits_that_are_refused(stage: Stage) -> None:
    """Tables, envelopes and frames with faults."""
    check_faults(stage, [(f'{it}', it.body(), fault)
                         for it, fault in REFUSED] + [(f'{body}', body, fault)
                                                      for body, fault in UNREADABLE])


def test_deletes_of_differentials(stage: Stage) -> None:
    """What a Differential deletes is no longer there, unless it is in its contents."""
    full = BASE.body()
    for tables, objects in DELETES:
        diff = tables.body(DIFF)
        with case(f'{tables}'), desk_over(stage, [row_of(F1, full), row_of(D2, diff)]) as desk:
            compare('reply to the Full', 'A1,,F1,0,new,0', reply_to(stage, desk, 1, full))
            compare('objects of the Full', text_of([DOMAIN_A, DOMAIN_B]), desk.ask('tables'))
            compare('reply', 'A1,,D2,0,new,0', reply_to(stage, desk, 2, diff))
            compare('objects', text_of(objects), desk.ask('tables'))


def test_envelopes_alone(stage: Stage) -> None:
    """Of the deposit at the end of the chain the envelope alone is read.

    The file of a store may have another body than the one that came. It is refused for its frame or
    its envelope, and not for its rows."""
    ends = [(tables.body(), '2024-03-03T00:00:00Z\n')
            for tables, *_ in HELD + REFUSED] + [(body, 'S1\n') for body, _ in UNREADABLE]
    full = BASE.body(FULL.replace('03-03', '03-10'))
    with desk_over(stage, [row_of(F1.replace('03-03', '03-10'), full)]) as desk:
        compare('reply to the Full', 'A1,,F1,0,new,0', reply_to(stage, desk, 1, full))
        compare('end of the Full', '2024-03-10T00:00:00Z\n', desk.ask('end'))
        for body, end in ends:
            stage.write('end.sql', f"UPDATE held SET body = X'{body.hex()}';\n".encode())
            for line, wanted in (('close', ''), ('script end.sql', ''), ('open', 'opened\n')):
                desk.check(line, wanted)
            compare(f'end with {body}', end, desk.ask('end'))


def test_keys_and_rows_have_limits(stage: Stage) -> None:
    """As long a key and as many rows as a deposit may have, and more."""
    for letters, count, *faults in SIZES:
        keys = ['x' * letters + str(at) for at in range(count)]
        files = section('c.csv', ''.join(f'{it},R1\n' for it in keys).encode())
        name = f'{count} contacts of {letters} letters and a number'
        for tables, fault in zip(
            (Tables('contact', '', files),
             Tables('contact', 'deleted', files + b'gone.csv 10\na.example\n\n')), faults):
            if fault:
                check_faults(stage, [(name, tables.body(), fault)])
            else:
                check_held(stage, name, tables.body(),
                           [f'contact {it}: contact id={it} clID=R1' for it in sorted(keys)])

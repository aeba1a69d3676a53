"""The worked bodies, and the manifests that list them.

`bytes_of(name)` gives the bytes of a body, and `manifest_text(names, more)` a manifest that lists
bodies, and then further rows."""
import functools
from collections.abc import Iterable
from dataclasses import dataclass
from dataclasses import field

from tests.support.bundles import HEADING
from tests.support.bundles import SAMPLE
from tests.support.bundles import Header
from tests.support.bundles import Table
from tests.support.bundles import deposit
from tests.support.bundles import row_of

# The kind, the role and the fields of each table. The first field is the key.
SHAPES = {
    'registrar': ('registrar', 'parent', ('id',)),
    'contact': ('contact', 'parent', ('id', 'clID')),
    'host': ('host', 'parent', ('name', 'clID')),
    'domain': ('domain', 'parent', ('name', 'clID', 'registrant')),
    'domainNs': ('domain', 'child', ('domainName', 'hostName')),
}
# What a manifest says of the deposits.
F1 = Header('F1', 'FULL', '2024-03-03T00:00:00Z')
D2 = Header('D2', 'DIFF', '2024-03-04T00:00:00Z', 'F1')
F5 = Header('F5', 'FULL', '2024-03-10T00:00:00Z')


@dataclass(frozen=True)
class Body:
    """What a manifest says of a body, and its bytes, or the rows of its tables and the objects of
    each kind that it says the registry has."""
    listed: Header
    contents: dict = field(default_factory=dict)
    deletes: dict = field(default_factory=dict)
    counts: dict = field(default_factory=dict)
    raw: bytes | None = None

    def bytes(self) -> bytes:
        if self.raw is not None:
            return self.raw
        contents = [Table(it, *SHAPES[it], rows.encode()) for it, rows in self.contents.items()]
        # (A delete table has keys alone.)
        deletes = [
            Table(it, *SHAPES[it][:2], SHAPES[it][2][:1], rows.encode())
            for it, rows in self.deletes.items()
        ]
        return deposit(self.listed, contents, deletes, self.counts)


def numbered(count: int, more: str = '') -> str:
    """Rows whose order isn't that of their keys by bytes."""
    return ''.join(f'n{at}.example,R1{more}\n' for at in range(count))


FIRST = {'registrar': 'R1\n', 'contact': 'C1,R1\n', 'domain': 'a.example,R1,C1\n'}
BODIES = {
    'F1': Body(F1, FIRST),
    'D2': Body(D2, {'domain': 'b.example,R1,C1\n'}),
    'D2Resent': Body(D2._replace(resend=1), {'domain': 'b.example,R1,C1\nc.example,R1,C1\n'}),
    'D3': Body(Header('D3', 'DIFF', '2024-03-05T00:00:00Z', 'D2'),
               deletes={'domain': 'a.example\n'}),
    # D3 at resend 1, with a previous id that is not listed.
    'D3Unlisted': Body(Header('D3', 'DIFF', '2024-03-05T00:00:00Z', 'X9', 1),
                       deletes={'domain': 'a.example\n'}),
    'I4': Body(Header('I4', 'INCR', '2024-03-06T00:00:00Z', 'D3'), {'domain': 'd.example,R1,C1\n'}),
    'F5': Body(
        F5, {
            'registrar': 'R1\n',
            'contact': 'C1,R1\n',
            'host': 'ns1.e.example,R1\n',
            'domain': 'e.example,R1,C1\n',
            'domainNs': 'e.example,ns1.e.example\n'
        }),
    'D6': Body(Header('D6', 'DIFF', '2024-03-11T00:00:00Z', 'F5'), {'domain': 'f.example,R1,C9\n'},
               {'host': 'ns1.e.example\n'}, counts={
                   'registrar': 1,
                   'contact': 1,
                   'host': 0,
                   'domain': 3
               }),
    # Incrementals on other Fulls, of which one is of the same moment, a Full before I4, and an
    # Incremental after F5 that says D3.
    'I0': Body(Header('I0', 'INCR', '2024-03-02T00:00:00Z', 'F1')),
    'I2': Body(Header('I2', 'INCR', '2024-03-04T00:00:00Z', 'F2')),
    'F4': Body(Header('F4', 'FULL', '2024-03-05T00:00:00Z')),
    'I7': Body(Header('I7', 'INCR', '2024-03-12T00:00:00Z', 'D3')),
    # A deposit for each kind of blocker: no earlier Full, one that isn't held, and a base that
    # isn't listed.
    'EarlyI0': Body(Header('I0', 'INCR', '2024-02-28T00:00:00Z')),
    'EarlyF1': Body(Header('F1', 'FULL', '2024-03-01T00:00:00Z')),
    'EarlyD2': Body(Header('D2', 'DIFF', '2024-03-02T00:00:00Z', 'F1')),
    'EarlyD3': Body(Header('D3', 'DIFF', '2024-03-03T00:00:00Z', 'X9')),
    # D2 that deletes the domain a.example, in other letters, and has it with clID R2.
    'Both': Body(D2, {'domain': 'a.example,R2,C1\n'}, {'domain': 'A.EXAMPLE\n'}),
    # A Full at the watermark of D2.
    'F2': Body(Header('F2', 'FULL', '2024-03-04T00:00:00Z'),
               FIRST | {'domain': 'z.example,R1,C1\n'}),
    # F1 with a name server of a domain that it doesn't have.
    'Orphan': Body(F1, {
        'contact': 'C1,R1\n',
        'domainNs': 'a.example,ns1.a.example\n'
    }),
    # F1 that says resend 1, where the manifest says 0.
    'Unequal': Body(F1, raw=Body(F1._replace(resend=1), FIRST).bytes()),
    'Empty': Body(Header('E0', 'FULL', '2024-03-01T00:00:00Z'), raw=b''),
    # The bundle of one contact without its last byte.
    'Cut': Body(F1, raw=SAMPLE[:-1]),
    # A bundle whose envelope would be too long.
    'Long': Body(F5, raw=b'escrow-bundle 1\nenvelope.json 16777217\n'),
    # Three bytes.
    'Abc': Body(F5, raw=b'abc'),
    # A Full of a contact, 256 hosts and 600 domains.
    'Many': Body(Header('M1', 'FULL', '2024-03-03T00:00:00Z'), {
        'contact': 'C1,R1\n',
        'host': numbered(256),
        'domain': numbered(600, ',C1')
    }),
    # A Full of a contact and 60,000 hosts.
    'Hosts': Body(Header('M2', 'FULL', '2024-03-03T00:00:00Z'), {
        'contact': 'C1,R1\n',
        'host': numbered(60_000)
    }),
    # A Differential on `Hosts` of 60,000 domains.
    'Domains': Body(Header('M3', 'DIFF', '2024-03-04T00:00:00Z', 'M2'),
                    {'domain': numbered(60_000, ',C1')}),
}


@functools.cache
def bytes_of(name: str) -> bytes:
    return BODIES[name].bytes()


def line_of(name: str) -> str:
    return row_of(BODIES[name].listed, bytes_of(name))


def manifest_text(names: Iterable[str], more: str = '') -> str:
    return HEADING + ''.join(map(line_of, names)) + more

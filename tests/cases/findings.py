"""Small registries: what is found in each, and what is exported of it, beside those of
transcripts/rules.txt and exporting.txt.

A registry is a text of its objects. The first line of an object is its kind and key and the cells
of its row, of the table that has its kind's name; the indented ones are its child rows, each its
table and its cells. It comes as a Full that has just these objects. Then the objects themselves are
put into the store, by their records: no deposit has a row without its key, a field twice in a row,
or rows of a table apart from each other."""
from collections.abc import Sequence
from dataclasses import dataclass
from dataclasses import field

from tests.support.bundles import Header
from tests.support.bundles import Table
from tests.support.bundles import deposit
from tests.support.bundles import manifest
from tests.support.clients import Wire
from tests.support.clients import new_desk
from tests.support.clients import table
from tests.support.events import check
from tests.support.first_store import insertion
from tests.support.formats import KINDS
from tests.support.formats import record
from tests.support.messages import get
from tests.support.registries import csv_text
from tests.support.stage import Stage
from tests.support.stage import case

# The fields that are the keys of parent rows, and of child rows.
PARENT_KEYS = {
    'registrar': 'id',
    'contact': 'id',
    'host': 'name',
    'domain': 'name',
    'idn': 'id',
    'nndn': 'aName'
}
CHILD_KEYS = {'host': 'hostName', 'domain': 'domainName'}


@dataclass(frozen=True)
class Registry:
    """A registry, what is found in it, its watermark, and the numbers of objects that it
    declares."""
    name: str
    objects: str
    found: tuple
    watermark: str = '2024-03-11T00:00:00Z'
    counts: dict = field(default_factory=dict)


# Registrar R1 and its contact C1.
FRONT = 'registrar R1: id=R1\ncontact C1: id=C1|clID=R1\n'
FOUND = (
    Registry('no objects', '', (), '1970-01-01T00:00:00Z'),
    # The order is that of kinds, and not of their names.
    Registry('more objects are declared', FRONT,
             ('V2,registrar,,count,10,1', 'V2,contact,,count,9,1'),
             counts={'registrar': 10, 'contact': 9}),
    # One name server is given twice.
    Registry(
        'links of two domains, and a number that differs', f'''{FRONT}
domain e.example: name=e.example|clID=R1|registrant=C1
  domainNs: domainName=e.example|hostName=NS1.e.example
  domainNs: hostName=ns1.e.example|hostName=ns2.e.example
domain f.example: name=f.example|clID=R2|registrant=C9
''', ('V1,domain,e.example,hostName,ns1.e.example,host', 'V1,domain,f.example,clID,R2,registrar',
      'V1,domain,f.example,registrant,C9,contact', 'V2,domain,,count,3,2'),
        counts={'registrar': 1, 'contact': 1, 'host': 0, 'domain': 3}),
    # Child rows that link or don't.
    Registry(
        'each kind with each field that links', '''
registrar x: clID=R9|registrant=C9|idnTableId=I9
contact x: clID=R9|registrant=C9|idnTableId=I9
host x: clID=R9|registrant=C9|idnTableId=I9
domain x: clID=R9|registrant=C9|idnTableId=I9
  domainContacts: contactId=C8
  domainContacts: contactId=C8
  domainHostAttr: hostName=ns.example
  contactStatuses: contactId=C9
idn x: clID=R9|registrant=C9|idnTableId=I9
nndn x: clID=R9|registrant=C9|idnTableId=I9
''', ('V1,contact,x,clID,R9,registrar', 'V1,host,x,clID,R9,registrar',
      'V1,domain,x,clID,R9,registrar', 'V1,domain,x,contactId,C8,contact',
      'V1,domain,x,idnTableId,I9,idn', 'V1,domain,x,registrant,C9,contact',
      'V1,nndn,x,idnTableId,I9,idn')),
    Registry(
        'links to objects that come later, and one to none', '''
domain a.example: idnTableId=I1
domain b.example: idnTableId=I2
idn I1: idnTableId=I2
nndn n.example: idnTableId=I1
''', ('V1,domain,b.example,idnTableId,I2,idn',)),
    # The first cell counts, and an empty one is no date.
    Registry(
        'dates of each kind', '''
registrar R1: crDate=1969-12-31T23:59:59Z|crDate=never|exDate=never
contact C1: crDate=2024-03-03T00:00:00.5Z|crDate=never|exDate=
host ns.example: crDate=2024-03-03T00:00:00.0Z|crDate=never|exDate=
domain a.example: crDate=2262-01-01T00:00:00Z|crDate=never|exDate=2024-02-30T00:00:00Z
domain b.example: crDate=2024-03-02T00:00:00.0Z|crDate=never|exDate=2024-03-02T00:00:00Z
idn I1: crDate=never|crDate=never|exDate=
nndn n.example: crDate=never|crDate=never|exDate=
''', ('V5,contact,C1,crDate,2024-03-03T00:00:00.5Z,2024-03-03T00:00:00Z',
      'V7,registrar,R1,crDate,1969-12-31T23:59:59Z,',
      'V7,domain,a.example,crDate,2262-01-01T00:00:00Z,',
      'V7,domain,a.example,exDate,2024-02-30T00:00:00Z,'), '2024-03-03T00:00:00Z'),
    # Statuses of hosts, of domains and of contacts.
    Registry(
        'statuses of a host', f'''{FRONT}
host ns.example: name=ns.example|clID=R1
  hostStatuses: status=linked
  contactStatuses: status=linked
  hostStatuses: status=ok
  contactStatuses: status=ok
  hostStatuses: status=
  contactStatuses: status=
  hostStatuses: status=clientTransferProhibited
  contactStatuses: status=clientTransferProhibited
  hostStatuses: status=inactive
  contactStatuses: status=inactive
''', ('V3,host,ns.example,status,clientTransferProhibited,',
      'V3,host,ns.example,status,inactive,')),
)

# The domain has child rows of two tables, one of them in two runs, which a deposit does not have.
CHILDREN = Registry('a domain with children', f'''{FRONT}
domain e.example: name=e.example|clID=R1|registrant=C1
  domainNs: domainName=e.example|hostName=ns1.e.example
  domainNs: domainName=e.example|hostName=ns2.e.example
  domainStatuses: domainName=e.example|status=ok
  domainNs: domainName=e.example|hostName=ns3.e.example
''', ())
DOMAIN = ('domain,e.example,domain,0,name,e.example', 'domain,e.example,domain,0,clID,R1',
          'domain,e.example,domain,0,registrant,C1')
FIRST_NS = ('domain,e.example,domainNs,1,domainName,e.example',
            'domain,e.example,domainNs,1,hostName,ns1.e.example',
            'domain,e.example,domainNs,2,domainName,e.example',
            'domain,e.example,domainNs,2,hostName,ns2.e.example')
LAST_NS = ('domain,e.example,domainNs,3,domainName,e.example',
           'domain,e.example,domainNs,3,hostName,ns3.e.example')
STATUSES = ('domain,e.example,domainStatuses,1,domainName,e.example',
            'domain,e.example,domainStatuses,1,status,ok')


# An object: its kind, its key, and its rows, each a table and its cells.
Listed = tuple[str, str, list[tuple[str, list[tuple[str, str]]]]]


def objects_in(text: str) -> list[Listed]:
    """The objects of a registry: of each its kind, its key, and its rows, the parent row first,
    each a table and its cells."""
    found: list[Listed] = []
    for line in filter(None, text.split('\n')):
        name, _, cells = line.strip().partition(': ')
        if not line.startswith(' '):
            name, key = name.split(' ')
            found.append((name, key, []))
        texts = [it.partition('=') for it in cells.split('|')]
        found[-1][2].append((name, [(field, text) for field, _, text in texts]))
    return found


def tables_of(objects: Sequence[Listed]) -> list[Table]:
    """The tables that have the rows of objects. (All rows of a table have the same fields.) The key
    comes first. Of a field that is there twice the first cell is taken."""
    tables: dict[tuple[str, str], list[dict[str, str]]] = {}
    for kind, key, rows in objects:
        for name, cells in rows:
            field = PARENT_KEYS[kind] if name == kind else CHILD_KEYS[kind]
            row = dict.fromkeys([field, *(it for it, _ in cells)], '') | dict(
                reversed(cells)) | {field: key}
            tables.setdefault((kind, name), []).append(row)
    return [
        Table(name, kind, 'parent' if name == kind else 'child', tuple(rows[0]),
              csv_text([*it.values()] for it in rows)) for (kind, name), rows in tables.items()
    ]


def check_registry(stage: Stage, registry: Registry, path: str, of_deposit: bytes,
                   of_records: bytes) -> None:
    """Compares a report of a registry, which comes as a deposit, and whose objects are then put
    into the store, in place of those there."""
    header, objects = Header('F1', 'FULL', registry.watermark), objects_in(registry.objects)
    body = deposit(header, tables_of(objects), counts=registry.counts)
    rows = [
        insertion('object (kind, key, record)', (KINDS.index(kind), key.encode(), record(its)))
        for kind, key, its in objects
    ]
    for name, content in {
            'listed.csv': manifest([(header, body)]),
            'body': body,
            'objects.sql': ''.join(['DELETE FROM object;\n', *rows]).encode()
    }.items():
        stage.write(name, content)
    with case(registry.name), new_desk(stage) as desk:
        check(desk, 'comes 1 body', '1,1,A1,,F1,0,new,0\n')
        with case('as a deposit'):
            desk.check_served(Wire(get(path)), of_deposit)
        with case('by records'):
            for line, wanted in (('close', ''), ('script objects.sql', ''), ('open', 'opened\n')):
                desk.check(line, wanted)
            desk.check_served(Wire(get(path)), of_records)


def test_what_is_found(stage: Stage) -> None:
    """What is found in small registries."""
    for registry in FOUND:
        check_registry(stage, registry, '/links', *[table('links', *registry.found)] * 2)


def test_what_is_exported(stage: Stage) -> None:
    """What is exported of small registries."""
    check_registry(stage, CHILDREN, '/export/domain',
                   table('export', *DOMAIN, *FIRST_NS, *LAST_NS, *STATUSES),
                   table('export', *DOMAIN, *FIRST_NS, *STATUSES, *LAST_NS))
    check_registry(stage, CHILDREN, '/export/nndn', *[table('export')] * 2)

"""A registry that looks real, made from a seed, and the bundles of its objects: for make_large, and
for tests, trials and benchmarks. Its objects are valid by RFC 9022, but for the links and statuses
that break a rule, and its fields have the names that unpack_rde writes."""
import csv
import datetime
import io
import json
import random
from collections.abc import Iterable
from collections.abc import Iterator
from collections.abc import Mapping
from collections.abc import Sequence

# A row: its table, and its fields in order.
Row = tuple[str, list[str]]
FIRST = datetime.date(2024, 3, 3)
NUMBERS = {'registrar': 40, 'contact': 4_000, 'host': 4_000, 'domain': 20_000, 'idn': 6,
           'nndn': 200}
# The order in which they are made: links lead to what is there.
ORDER = ('registrar', 'idn', 'contact', 'host', 'domain', 'nndn')
# Of each table: kind, role and fields, of which the first is the key.
TABLES = {name: (kind, role, fields.split()) for name, kind, role, fields in (
    ('registrar', 'registrar', 'parent',
     'id name gurid status street.0 city cc voice email url crDate upDate'),
    ('contact', 'contact', 'parent', 'id roid voice fax email clID crRr crDate upRr upDate'),
    ('contactPostal', 'contact', 'child', 'id postalType name org street.0 city sp pc cc'),
    ('contactStatuses', 'contact', 'child', 'id status'),
    ('host', 'host', 'parent', 'name roid clID crRr crDate upRr upDate'),
    ('hostAddresses', 'host', 'child', 'name addr addrVersion'),
    ('hostStatuses', 'host', 'child', 'name status'),
    ('domain', 'domain', 'parent',
     'name roid uName idnTableId originalName registrant clID crRr crDate exDate upRr upDate '
     'custom.note'),
    ('domainContacts', 'domain', 'child', 'name contactType contactId'),
    ('domainNs', 'domain', 'child', 'name hostName'),
    ('domainStatuses', 'domain', 'child', 'name status rgpStatus statusDescription'),
    ('secDNS', 'domain', 'child', 'name keyTag dsAlg digestType digest'),
    ('idn', 'idn', 'parent', 'idnTableId url urlPolicy'),
    ('nndn', 'nndn', 'parent', 'aName uName idnTableId originalName nameState crDate'),
)}
WORDS = ('alder amber birch brook cedar clover coral delta ember fern flint garnet grove harbor '
         'hazel heron iris ivory juniper kelp larch linden maple marsh meadow moss north oak olive '
         'opal orchid pearl pine quartz reed river sage slate spruce stone thistle tulip umber '
         'vale violet walnut willow wren yarrow zephyr').split()
STATUSES = ['ok', 'clientTransferProhibited', 'clientHold', 'serverTransferProhibited', 'inactive']


class Registry:
    """The objects of a registry: of each kind, by key, the rows of each as (table, fields). A
    domain's note has so many words more."""

    def __init__(self, seed: int | float, numbers: Mapping[str, int] = NUMBERS,
                 words: int = 53) -> None:
        self.random, self.words_of_note, self.last = random.Random(seed), words, 0
        self.objects: dict[str, dict[str, list[Row]]] = {kind: {} for kind in NUMBERS}
        self.keys: dict[str, list[str]] = {kind: [] for kind in NUMBERS}
        for kind in ORDER:
            for _ in range(numbers[kind]):
                self.add(kind, FIRST - datetime.timedelta(self.random.randint(30, 3_000)))

    def words(self, count: int, between: str = ' ') -> str:
        return between.join(self.random.choice(WORDS) for _ in range(count))

    def some(self, kind: str) -> str:
        """A key of this kind."""
        return self.random.choice(self.keys[kind])

    def moment(self, day: datetime.date) -> str:
        seconds = self.random.randint(0, 18 * 3_600 - 1)
        return f'{day}T{seconds // 3600:02d}:{seconds // 60 % 60:02d}:{seconds % 60:02d}Z'

    def add(self, kind: str, day: datetime.date = FIRST) -> str:
        """Adds an object of this kind, and returns its key."""
        self.last += 1
        n = self.last
        key = {'registrar': f'RAR-{n}', 'contact': f'C{n}-EX',
               'host': f'ns{n}.{self.words(2, "-")}.example',
               'domain': f'{self.words(2, "-")}-{n}.example', 'idn': f'IDN-{n}',
               'nndn': f'{self.words(1)}{n}.example'}[kind]
        self.objects[kind][key] = list(getattr(self, kind)(key, self.moment(day), ''))
        self.keys[kind].append(key)
        return key

    def change(self, kind: str, key: str, day: datetime.date = FIRST) -> None:
        """Changes an object: other rows, and the day of its creation as it was."""
        parent = dict(zip(TABLES[kind][2], self.objects[kind][key][0][1]))
        self.objects[kind][key] = list(getattr(self, kind)(key, parent['crDate'], self.moment(day)))

    def rows_of(self, chosen: Mapping[str, Iterable[str]]) -> dict[str, list[list[str]]]:
        """The rows of some objects, keys by kind, in their tables."""
        found: dict[str, list[list[str]]] = {table: [] for table in TABLES}
        for kind, keys in chosen.items():
            for key in keys:
                for table, fields in self.objects[kind][key]:
                    found[table].append(fields)
        return {table: rows for table, rows in found.items() if rows}

    def registrar(self, key: str, created: str, updated: str) -> Iterator[Row]:
        yield 'registrar', [key, f'{self.words(2).title()}, Inc.', self.digits(4), 'ok',
                            self.street(), self.words(1).title(), 'NL', self.phone(),
                            f'desk@{self.words(2, "-")}.example',
                            f'https://www.{self.words(2, "-")}.example/', created, updated]

    def contact(self, key: str, created: str, updated: str) -> Iterator[Row]:
        sponsor = self.some('registrar')
        mail = (self.phone(), self.phone(),
                f'{self.words(2, ".")}.{self.digits(5)}@mail.{self.words(2, "-")}.example')
        yield 'contact', [key, f'{key.replace("-", "_")}-ROID', *mail, sponsor, sponsor, created,
                          sponsor if updated else '', updated]
        name, company = (f'{self.words(2).title()} Jänsen',
                         f'{self.words(2).title()}, {self.words(1).title()} & Sons B.V.')
        street = self.street()
        city = f'{self.words(1).title()} upon {self.words(1).title()}'
        yield 'contactPostal', [key, 'loc', name, company, street, city, 'Noord-Holland',
                                f'{self.digits(4)} AB', 'NL']
        yield 'contactStatuses', [key, 'ok']

    def host(self, key: str, created: str, updated: str) -> Iterator[Row]:
        sponsor = self.some('registrar')
        yield 'host', [key, f'H{self.digits(8)}-EX', sponsor, sponsor, created,
                       sponsor if updated else '', updated]
        address = self.random.randint(0, 65_535)
        yield 'hostAddresses', [key, f'192.0.{address >> 8}.{address & 255}', 'v4']
        yield 'hostStatuses', [key, self.random.choice(['ok', 'linked'])]

    def note(self) -> str:
        if not self.words_of_note:
            return ''
        return (f'transferred in from {self.some("registrar")} by the {self.words(2)} desk on '
                f'request of its holder; see ticket {self.digits(9)} of '
                f'{self.words(self.words_of_note)}')

    def domain(self, key: str, created: str, updated: str) -> Iterator[Row]:
        sponsor = self.some('registrar')
        expires = f'20{self.random.randint(25, 33)}-0{self.random.randint(1, 9)}-15T00:00:00Z'
        note = self.note()
        registrant = self.some('contact') if self.random.random() < 0.9998 else 'C0-EX'
        yield 'domain', [key, f'D{self.digits(9)}-EX', '', '', '', registrant, sponsor, sponsor,
                         created, expires, sponsor if updated else '', updated, note]
        if self.random.random() < 0.45:
            yield 'domainContacts', [key, self.random.choice(['admin', 'tech']),
                                     self.some('contact')]
        yield 'domainNs', [key, self.some('host')]
        yield 'domainStatuses', [key, self.random.choice(STATUSES), '',
                                 f'by request of {self.words(2)}']
        if self.random.random() < 0.0005:
            yield 'domainStatuses', [key, 'ok', '', '']
        if self.random.random() < 0.1:
            yield 'secDNS', [key, self.digits(4), '13', '2', '%064X' % self.random.getrandbits(256)]

    def idn(self, key: str, created: str, updated: str) -> Iterator[Row]:
        yield 'idn', [key, *(f'https://www.iana.example/domains/idn-tables/{it}/{key}.html'
                             for it in ('tables', 'policies'))]

    def nndn(self, key: str, created: str, updated: str) -> Iterator[Row]:
        yield 'nndn', [key, key, self.some('idn'), '', 'blocked', created]

    def digits(self, count: int) -> str:
        return str(self.random.randint(10 ** (count - 1), 10 ** count - 1))

    def street(self) -> str:
        return f'{self.random.randint(1, 999)} {self.words(2).title()} Street'

    def phone(self) -> str:
        return f'+31.{self.digits(9)}'


def csv_text(rows: Iterable[Sequence[str]]) -> bytes:
    text = io.StringIO(newline='')
    csv.writer(text, lineterminator='\n').writerows(rows)
    return text.getvalue().encode()


def declaration(name: str, kind: str, role: str, fields: Sequence[str],
                file: str) -> dict[str, object]:
    return {'name': name, 'kind': kind, 'role': role, 'key': fields[0], 'fields': fields,
            'file': file}


def deposit(header: Mapping[str, object], rows: Mapping[str, Sequence[Sequence[str]]],
            deletes: Mapping[str, Sequence[str]], counts: Mapping[str, int],
            shapes: Mapping[str, tuple[str, str, list[str]]] = TABLES) -> bytes:
    """The bundle of a deposit: its id, type and watermark, and where it has them `prevId` and
    `resend`; the rows of its tables, whose shapes are given; the deleted keys of kinds; and how
    many objects there are."""
    contents = [declaration(name, *shapes[name], f'{name.lower()}.csv') for name in rows]
    gone = [declaration(kind, kind, 'parent', ['key'], f'deleted-{kind}.csv')
            for kind, keys in deletes.items() if keys]
    front = {it: header[it] for it in ('id', 'type', 'watermark')}
    envelope: dict[str, object] = {**front, 'tld': 'example', 'counts': counts,
                                   'contents': contents, 'deletes': gone, **header}
    sections = [(f'{name.lower()}.csv', csv_text(its)) for name, its in rows.items()]
    sections += [(f'deleted-{kind}.csv', csv_text([it] for it in keys))
                 for kind, keys in deletes.items() if keys]
    parts = [('envelope.json', json.dumps(envelope, separators=(',', ':')).encode()), *sections]
    return b'escrow-bundle 1\n' + b''.join(b'%s %d\n%s\n' % (name.encode(), len(body), body)
                                           for name, body in parts) + b'end\n'

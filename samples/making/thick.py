"""A registry of any size, object by object, with some eleven rows for each domain: for make_large.
Nothing of it is kept in memory.

Each object is made of its number alone: contacts with two postal forms, hosts with addresses of
both versions, domains with three contacts, statuses, servers, and a DS record for some. All of them
would be valid by RFC 9022."""
import hashlib
from collections.abc import Callable
from collections.abc import Iterable
from collections.abc import Iterator
from typing import NamedTuple
from xml.sax.saxutils import escape
from xml.sax.saxutils import quoteattr

from .registry import WORDS
from .registry import deposit

Cells = dict[str, str]
Rows = list[tuple[str, Cells]]
WATERMARK = '2024-03-03T00:00:00Z'
HISTORY = 'clID crRr crDate upRr upDate'
ADDRESS = 'street.0 city sp pc cc'
# Of each table: kind, role and fields, of which the first is the key.
SHAPES = {
    name: (kind, role, fields.split())
    for name, kind, role, fields in (
        ('registrar', 'registrar', 'parent',
         f'id name gurid status {ADDRESS} voice email url crDate'),
        ('idn', 'idn', 'parent', 'idnTableId url urlPolicy'),
        ('contact', 'contact', 'parent', f'id roid voice email {HISTORY}'),
        ('contactStatuses', 'contact', 'child', 'id status'),
        ('contactPostal', 'contact', 'child', f'id postalType name org {ADDRESS}'),
        ('host', 'host', 'parent', f'name roid {HISTORY}'),
        ('hostStatuses', 'host', 'child', 'name status'),
        ('hostAddresses', 'host', 'child', 'name addr addrVersion'),
        ('domain', 'domain', 'parent', f'name roid uName idnTableId registrant {HISTORY} exDate'),
        ('domainStatuses', 'domain', 'child', 'name status rgpStatus'),
        ('domainContacts', 'domain', 'child', 'name contactId contactType'),
        ('domainNs', 'domain', 'child', 'name hostName'),
        ('secDNS', 'domain', 'child', 'name keyTag dsAlg digestType digest'),
        ('nndn', 'nndn', 'parent', 'aName idnTableId nameState crDate'),
    )
}
# What one bundle takes, and what is left of it to its envelope.
MOST_ROWS, MOST_BYTES, OF_ENVELOPE = 100_000, 16_777_216, 77_216
STATUSES = ('ok', 'clientTransferProhibited', 'clientHold', 'serverTransferProhibited',
            'clientDeleteProhibited')


class Numbers(NamedTuple):
    """How many objects of each kind there are."""
    registrar: int
    idn: int
    contact: int
    host: int
    domain: int
    nndn: int


def numbers_of(domains: int) -> Numbers:
    return Numbers(max(1, min(200, domains // 50)), 3, max(3, domains * 3 // 5),
                   max(2, domains // 10), domains, domains // 100)


def word(number: int) -> str:
    return WORDS[number % len(WORDS)]


def some(number: int, salt: str, most: int) -> int:
    """A number below `most`, by an object's number."""
    return int.from_bytes(
        hashlib.blake2b(f'{salt}{number}'.encode(), digest_size=6).digest(), 'big') % most


def day(number: int, first: int) -> str:
    date = f'20{first + number % 9:02}-{number % 12 + 1:02}-{number % 28 + 1:02}'
    return f'{date}T{number % 24:02}:{number % 60:02}:00.0Z'


def address(number: int) -> Cells:
    return {
        'street.0': f'{number % 999 + 1} {word(number).title()} Street',
        'city': f'{word(number * 7).title()} Town', 'sp': 'NH',
        'pc': f'{1_000 + number % 9_000} AB', 'cc': 'NL'
    }


class Thick:
    """The objects of a registry of so many domains, whose hosts are in another zone, or else each
    below a domain of its own (`has_glue`)."""

    def __init__(self, domains: int, has_glue: bool = False) -> None:
        self.numbers, self.has_glue = numbers_of(domains), has_glue

    def objects(self) -> Iterator[Rows]:
        """Each object, the parent row first; what others refer to comes before them."""
        for kind, number in self.numbers._asdict().items():
            make = getattr(self, kind)
            yield from map(make, range(number))

    def history(self, number: int) -> Cells:
        sponsor = f'RAR-{some(number, "r", self.numbers.registrar)}'
        changed = {'upRr': sponsor, 'upDate': day(number, 19)} if number % 2 else {}
        return {'clID': sponsor, 'crRr': sponsor, 'crDate': day(number, 10), **changed}

    def contact_id(self, number: int, salt: str) -> str:
        return f'C{some(number, salt, self.numbers.contact)}-EX'

    def domain_name(self, number: int) -> str:
        return f'{word(number)}-{word(number // 61)}-{number}.example'

    def host_name(self, number: int) -> str:
        outside = f'{word(number)}-{word(number // 7)}.test'
        return f'ns{number}.{self.domain_name(number) if self.has_glue else outside}'

    def registrar(self, number: int) -> Rows:
        return [('registrar', {
            'id': f'RAR-{number}',
            'name': f'{word(number).title()} {word(number // 3).title()}, Inc.',
            'gurid': f'{number + 1}', 'status': 'ok', **address(number), 'voice': '+31.205550100',
            'email': f'desk@{word(number)}{number}.example',
            'url': f'https://www.{word(number)}{number}.example/', 'crDate': day(number, 5)
        })]

    def idn(self, number: int) -> Rows:
        name = ('de', 'fr', 'mul-Latn')[number]
        return [('idn', {
            'idnTableId': name, 'url': f'https://idn.example/{name}',
            'urlPolicy': 'https://idn.example/policy'
        })]

    def contact(self, number: int) -> Rows:
        cells = {
            'id': f'C{number}-EX', 'roid': f'C{number}-EXRY',
            'voice': f'+31.20555{number % 10_000:04}',
            'email': f'{word(number)}.{number}@mail.example', **self.history(number)
        }
        company = f'{word(number // 5).title()}, {word(number // 11).title()} & Sons'
        forms = [('contactPostal', {
            'postalType': form, 'name': f'{word(number).title()} {end}', 'org': f'{company} B.V.',
            **address(number)
        }) for form, end in (('int', 'Jansen'), ('loc', 'Jänsen'))]
        return [('contact', cells), ('contactStatuses', {'status': 'linked'}), *forms]

    def host(self, number: int) -> Rows:
        name = self.host_name(number)
        return [('host', {'name': name, 'roid': f'H{number}-EXRY', **self.history(number)}),
                ('hostStatuses', {'status': 'ok'}),
                ('hostAddresses', {'addr': f'192.0.2.{number % 254 + 1}', 'addrVersion': 'v4'}),
                ('hostAddresses',
                 {'addr': f'2001:db8::{number % 65_535 + 1:x}', 'addrVersion': 'v6'})]

    def domain(self, number: int) -> Rows:
        cells = {
            'name': self.domain_name(number), 'roid': f'D{number}-EXRY',
            'registrant': self.contact_id(number, 'o'), **self.history(number),
            'exDate': day(number, 25)
        }
        statuses = [('domainStatuses', {'status': STATUSES[number % len(STATUSES)]})]
        if number % 5:
            statuses.append(('domainStatuses', {'status': 'serverDeleteProhibited'}))
        contacts = [('domainContacts',
                     {'contactId': self.contact_id(number, it), 'contactType': it})
                    for it in ('admin', 'tech', 'billing')]
        first = some(number, 'h', self.numbers.host - 1)
        servers = [('domainNs', {'hostName': self.host_name(it)}) for it in (first, first + 1)]
        secured = {
            'keyTag': f'{number % 65_536}', 'dsAlg': '13', 'digestType': '2',
            'digest': hashlib.sha256(cells['name'].encode()).hexdigest().upper()
        }
        return [('domain', cells), *statuses, *contacts, *servers,
                *([('secDNS', secured)] if number % 3 == 0 else [])]

    def nndn(self, number: int) -> Rows:
        return [('nndn', {
            'aName': f'reserved{number}.example', 'idnTableId': 'de', 'nameState': 'blocked',
            'crDate': day(number, 12)
        })]


# ---- bundles


def fields_of(rows: Rows) -> Iterator[tuple[str, list[str]]]:
    """The rows of an object, each with all the fields of its table."""
    key = rows[0][1][SHAPES[rows[0][0]][2][0]]
    for table, cells in rows:
        front, *others = SHAPES[table][2]
        yield table, [key, *(cells.get(it, '') for it in others)]


def size_of(rows: list[tuple[str, list[str]]]) -> int:
    """No fewer bytes than these rows take."""
    return sum(len(it.encode()) + 3 for _, fields in rows for it in fields)


def portions(objects: Iterable[Rows]) -> Iterator[dict[str, list[list[str]]]]:
    """The rows of each bundle by table, each object whole in one."""
    portion: dict[str, list[list[str]]] = {}
    count = size = 0
    for rows in objects:
        found = list(fields_of(rows))
        more = size_of(found)
        if count + len(found) > MOST_ROWS or size + more > MOST_BYTES - OF_ENVELOPE:
            yield portion
            portion, count, size = {}, 0, 0
        for table, fields in found:
            portion.setdefault(table, []).append(fields)
        count, size = count + len(found), size + more
    yield portion


def bundles(registry: Thick) -> Iterator[tuple[dict, bytes]]:
    """The bundles of a Full, F1, as a series of deposits: a Full, and Differentials on it a
    nanosecond after each other; each with its header. The last one has the deposit's watermark, and
    says how many objects there are."""
    of = sum(1 for _ in portions(registry.objects()))
    previous = None
    for part, rows in enumerate(portions(registry.objects()), 1):
        name = 'F1' if part == of else f'F1.{part}of{of}'
        before = f'2024-03-02T23:59:59.{1_000_000_000 - (of - part):09}'.rstrip('0') + 'Z'
        watermark = WATERMARK if part == of else before
        header: dict[str, object] = {'id': name, 'type': 'DIFF' if previous else 'FULL',
                                     'watermark': watermark}
        if previous:
            header['prevId'] = previous
        if of > 1:
            header['series'] = {'deposit': 'F1', 'part': part, 'of': of}
        yield header, deposit(header, rows, {},
                              registry.numbers._asdict() if part == of else {}, SHAPES)
        previous = name


# ---- an XML document

URIS = {
    **{
        it: f'urn:ietf:params:xml:ns:{it}-1.0'
        for it in ('rde', 'rdeHeader', 'rdeRegistrar', 'rdeIDN', 'rdeContact', 'rdeHost',
                   'rdeDomain', 'rdeNNDN', 'domain', 'contact')
    }, 'secDNS': 'urn:ietf:params:xml:ns:secDNS-1.1'
}
PREFIXES = {
    'registrar': 'rdeRegistrar', 'idn': 'rdeIDN', 'contact': 'rdeContact', 'host': 'rdeHost',
    'domain': 'rdeDomain', 'nndn': 'rdeNNDN'
}


def texts(prefix: str, cells: Cells, names: str) -> str:
    """An element for each of these fields that a row has."""
    return ''.join(f'<{prefix}:{it}>{escape(cells[it])}</{prefix}:{it}>' for it in names.split()
                   if it in cells)


def address_xml(prefix: str, cells: Cells) -> str:
    street = f'<{prefix}:street>{escape(cells["street.0"])}</{prefix}:street>'
    return f'<{prefix}:addr>{street}{texts(prefix, cells, "city sp pc cc")}</{prefix}:addr>'


def postal_xml(cells: Cells) -> str:
    named = texts('contact', cells, 'name org') + address_xml('contact', cells)
    return f'<rdeContact:postalInfo type="{cells["postalType"]}">{named}</rdeContact:postalInfo>'


def ds_xml(cells: Cells) -> str:
    names = {'keyTag': 'keyTag', 'dsAlg': 'alg', 'digestType': 'digestType', 'digest': 'digest'}
    return ''.join(f'<secDNS:{name}>{cells[it]}</secDNS:{name}>' for it, name in names.items())


# The element of a row of each child table.
CHILDREN: dict[str, Callable[[Cells], str]] = {
    'contactStatuses': lambda it: f'<rdeContact:status s="{it["status"]}"/>',
    'contactPostal': postal_xml,
    'hostStatuses': lambda it: f'<rdeHost:status s="{it["status"]}"/>',
    'hostAddresses': lambda it:
    f'<rdeHost:addr ip="{it["addrVersion"]}">{it["addr"]}</rdeHost:addr>',
    'domainStatuses': lambda it: f'<rdeDomain:status s="{it["status"]}"/>',
    'domainContacts': lambda it: element('rdeDomain:contact', it['contactId'],
                                         f' type="{it["contactType"]}"'),
    'domainNs': lambda it: f'<domain:hostObj>{it["hostName"]}</domain:hostObj>',
    'secDNS': ds_xml,
}


def element(tag: str, within: str, attributes: str = '') -> str:
    return f'<{tag}{attributes}>{within}</{tag}>'


def of_table(rows: Rows, table: str) -> str:
    return ''.join(CHILDREN[name](cells) for name, cells in rows if name == table)


def within_registrar(prefix: str, rows: Rows) -> str:
    cells = rows[0][1]
    postal = element(f'{prefix}:postalInfo', address_xml(prefix, cells), ' type="int"')
    front, back = texts(prefix, cells, 'id name gurid status'), texts(prefix, cells,
                                                                      'voice email url crDate')
    return front + postal + back


def within_contact(prefix: str, rows: Rows) -> str:
    cells = rows[0][1]
    children = of_table(rows, 'contactStatuses') + of_table(rows, 'contactPostal')
    return texts(prefix, cells, 'id roid') + children + texts(prefix, cells,
                                                              f'voice email {HISTORY}')


def within_host(prefix: str, rows: Rows) -> str:
    cells = rows[0][1]
    children = of_table(rows, 'hostStatuses') + of_table(rows, 'hostAddresses')
    return texts(prefix, cells, 'name roid') + children + texts(prefix, cells, HISTORY)


def within_domain(prefix: str, rows: Rows) -> str:
    cells, ds = rows[0][1], of_table(rows, 'secDNS')
    parts = [
        texts(prefix, cells, 'name roid'),
        of_table(rows, 'domainStatuses'),
        texts(prefix, cells, 'registrant'),
        of_table(rows, 'domainContacts'),
        element(f'{prefix}:ns', of_table(rows, 'domainNs')),
        texts(prefix, cells, 'clID crRr crDate exDate upRr upDate')
    ]
    if ds:
        parts.append(element(f'{prefix}:secDNS', element('secDNS:dsData', ds)))
    return ''.join(parts)


# Of each kind the name of its element, and what is in it.
OBJECTS: dict[str, tuple[str, Callable[[str, Rows], str]]] = {
    'registrar': ('registrar', within_registrar),
    'idn': ('idnTableRef', lambda prefix, rows: texts(prefix, rows[0][1], 'url urlPolicy')),
    'contact': ('contact', within_contact),
    'host': ('host', within_host),
    'domain': ('domain', within_domain),
    'nndn': ('NNDN', lambda prefix, rows: texts(prefix, rows[0][1],
                                                'aName idnTableId nameState crDate')),
}


def object_xml(rows: Rows) -> str:
    kind, cells = rows[0]
    prefix, (name, within) = PREFIXES[kind], OBJECTS[kind]
    said = f' id={quoteattr(cells["idnTableId"])}' if kind == 'idn' else ''
    return element(f'{prefix}:{name}', within(prefix, rows), said)


def document(registry: Thick) -> Iterator[str]:
    """The XML document of a Full, F1, piece by piece."""
    spaces = ''.join(f' xmlns:{prefix}="{uri}"' for prefix, uri in URIS.items())
    listed = ''.join(f'<rde:objURI>{URIS[it]}</rde:objURI>' for it in ('rdeHeader',
                                                                       *PREFIXES.values()))
    counts = ''.join(f'<rdeHeader:count uri="{URIS[PREFIXES[kind]]}">{number}</rdeHeader:count>'
                     for kind, number in registry.numbers._asdict().items())
    yield (
        f'<?xml version="1.0" encoding="UTF-8"?>\n<rde:deposit type="FULL" id="F1"{spaces}>\n'
        f'<rde:watermark>{WATERMARK}</rde:watermark>\n'
        f'<rde:rdeMenu><rde:version>1.0</rde:version>{listed}</rde:rdeMenu>\n<rde:contents>\n'
        f'<rdeHeader:header><rdeHeader:tld>example</rdeHeader:tld>{counts}</rdeHeader:header>\n')
    for rows in registry.objects():
        yield f'{object_xml(rows)}\n'
    yield '</rde:contents>\n</rde:deposit>\n'

"""Writes registry objects as the documents of escrow deposits (RFC 8909), in both models of RFC
9022.

An object is a list of rows, each a table and its cells, the parent row first: `('domain', {'name':
'a.example', ..})`, then `('domainNs', {'hostName': 'ns1.example'})` and so on. Tables and fields
have the names by which the desk knows them."""
import csv
import io
import os
import zlib
from collections.abc import Callable
from collections.abc import Iterable
from collections.abc import Iterator
from collections.abc import Mapping
from collections.abc import Sequence
from xml.sax.saxutils import escape
from xml.sax.saxutils import quoteattr

# The cells of a row; an object; what gives the rows of a child table; and what makes an element of
# the parent row and of others.
Cells = dict[str, str]
Object = list[tuple[str, Cells]]
RowsOf = Callable[[str], list[Cells]]
Made = Callable[[str, Cells, RowsOf], str]

OBJECTS = {
    'registrar': 'rdeRegistrar:registrar',
    'idn': 'rdeIDN:idnTableRef',
    'contact': 'rdeContact:contact',
    'host': 'rdeHost:host',
    'domain': 'rdeDomain:domain',
    'nndn': 'rdeNNDN:NNDN'
}
KEYS = {
    'registrar': 'id',
    'idn': 'idnTableId',
    'contact': 'id',
    'host': 'name',
    'domain': 'name',
    'nndn': 'aName'
}
PREFIXES = ('rde', 'rdeHeader', 'rdeRegistrar', 'rdeContact', 'rdeHost', 'rdeDomain', 'rdeIDN',
            'rdeNNDN', 'rdeCsv', 'csvRegistrar', 'csvContact', 'csvHost', 'csvDomain', 'csvIDN',
            'csvNNDN', 'domain', 'contact')
# What a reader would take for spaces in an attribute.
LINE_SIGNS = {'\n': '&#10;', '\r': '&#13;', '\t': '&#9;'}
URIS = {
    **{it: f'urn:ietf:params:xml:ns:{it}-1.0'
       for it in PREFIXES}, 'secDNS': 'urn:ietf:params:xml:ns:secDNS-1.1'
}


# ---- the XML model


def element(tag: str, text: str = '', /, *, within: str = '', **attributes: str | None) -> str:
    """An element with a text, or with others within it."""
    said = ''.join(f' {it}={quoteattr(value, LINE_SIGNS)}' for it, value in attributes.items()
                   if value)
    body = within or escape(text, {'\r': '&#13;'})
    return f'<{tag}{said}>{body}</{tag}>' if body else f'<{tag}{said}/>'


def some(prefix: str, cells: Cells, *fields: str) -> str:
    """An element for each of these fields that a row has; an attribute of it is another field of
    the row."""
    return ''.join(
        element(f'{prefix}:{it}', cells[it], **
                {name: cells.get(field)
                 for name, field in ATTRIBUTES.get(it, {}).items()}) for it in fields
        if cells.get(it))


# The attributes of elements that are fields of their own.
ATTRIBUTES = {
    **{f'{it}Rr': {
        'client': f'{it}ID'
    }
       for it in ('cr', 'up', 're', 'ac')}, 'voice': {
        'x': 'voiceExt'
    },
    'fax': {
        'x': 'faxExt'
    },
    'nameState': {
        'mirroringNS': 'mirroringNS'
    }
}
HISTORY_XML = 'clID crRr crDate upRr upDate trDate'
# The elements of DNSSEC: of each its fields, where these have other names.
DS, KEY = {'keyTag': 'keyTag', 'alg': 'dsAlg', 'digestType': 'digestType', 'digest': 'digest'}, {
    'flags': 'flags', 'protocol': 'protocol', 'alg': 'keyAlg', 'pubKey': 'pubKey'}


def address(prefix: str, cells: Cells, front: str = '') -> str:
    own = {it: cells.get(f'{front}{it}') for it in ('city', 'sp', 'pc', 'cc')}
    streets = ''.join(
        element(f'{prefix}:street', cells[it]) for it in (f'{front}street.{at}' for at in range(3))
        if cells.get(it))
    return element(f'{prefix}:addr', within=streets + some(prefix, own, *own))


def registrar_postal(prefix: str, cells: Cells, _rows: RowsOf) -> str:
    return ''.join(element(f'{prefix}:postalInfo', within=address(prefix, cells, front), type=form)
                   for form, front in (('int', ''), ('loc', 'loc.')) if cells.get(f'{front}city'))


def whois(prefix: str, cells: Cells, _rows: RowsOf) -> str:
    return element(f'{prefix}:whoisInfo', within=element(
        f'{prefix}:url', cells['whoisUrl'])) if cells.get('whoisUrl') else ''


def each(table: str, make: Callable[[str, Cells], str]) -> Made:
    """What is made of the rows of a child table, one after the other."""
    return lambda prefix, _cells, rows: ''.join(make(prefix, it) for it in rows(table))


def postal(prefix: str, it: Cells) -> str:
    return element(f'{prefix}:postalInfo',
                   within=some('contact', it, 'name', 'org') + address('contact', it),
                   type=it['postalType'])


def status(prefix: str, it: Cells) -> str:
    name = 'rgpStatus' if it.get('rgpStatus') else 'status'
    return element(f'{prefix}:{name}', it.get('statusDescription', ''), s=it[name],
                   lang=it.get('lang'))


def transfer(prefix: str, it: Cells) -> str:
    return element(f'{prefix}:trnData',
                   within=some(prefix, it, *'trStatus reRr reDate acRr acDate exDate'.split()))


def disclosed(prefix: str, it: Cells) -> str:
    within = ''.join(
        element(f'contact:{name.lower()}', type=form.lower()) for name in ('Name', 'Org', 'Addr')
        for form in ('Int', 'Loc') if it.get(f'disclose{name}{form}'))
    within += ''.join(
        element(f'contact:{name.lower()}') for name in ('Voice', 'Fax', 'Email')
        if it.get(f'disclose{name}'))
    return element(f'{prefix}:disclose', within=within, flag=it['discloseFlag'])


def contact(prefix: str, it: Cells) -> str:
    return element(f'{prefix}:contact', it['contactId'], type=it['contactType'])


def addressed(tag: str, it: Cells) -> str:
    return element(tag, it['addr'], ip=it['addrVersion']) if it.get('addr') else ''


def servers(prefix: str, _cells: Cells, rows: RowsOf) -> str:
    within = ''.join(element('domain:hostObj', it['hostName']) for it in rows('domainNs'))
    for name in dict.fromkeys(it['hostName'] for it in rows('domainHostAttr')):
        its = ''.join(
            addressed('domain:hostAddr', it) for it in rows('domainHostAttr')
            if it['hostName'] == name)
        within += element('domain:hostAttr', within=element('domain:hostName', name) + its)
    return element(f'{prefix}:ns', within=within) if within else ''


def secured(prefix: str, _cells: Cells, rows: RowsOf) -> str:
    its = rows('secDNS')
    within = some('secDNS', its[0], 'maxSigLife') if its else ''
    for it in its:
        key = element(
            'secDNS:keyData', within=''.join(
                element(f'secDNS:{name}', it.get(field, '')) for name, field in KEY.items()))
        own = ''.join(element(f'secDNS:{name}', it.get(field, '')) for name, field in DS.items())
        within += element('secDNS:dsData', within=own +
                          (key if it.get('pubKey') else '')) if it.get('digest') else key
    return element(f'{prefix}:secDNS', within=within) if its else ''


# Of each kind what its element has, in order: fields of the parent row, and what is made of other
# rows.
XML: dict[str, tuple[str | Made, ...]] = {
    'registrar': ('id name gurid status', registrar_postal, 'voice fax email url', whois,
                  'crDate upDate'),
    'idn': ('url urlPolicy',),
    'contact': ('id roid', each('contactStatuses',
                                status), each('contactPostal',
                                              postal), f'voice fax email {HISTORY_XML}',
                each('contactTransfer', transfer), each('contactDisclose', disclosed)),
    'host': ('name roid', each('hostStatuses', status),
             each('hostAddresses',
                  lambda prefix, it: addressed(f'{prefix}:addr', it)), HISTORY_XML),
    'domain': ('name roid uName idnTableId originalName', each('domainStatuses',
                                                               status), 'registrant',
               each('domainContacts',
                    contact), servers, 'clID crRr crDate exDate upRr upDate', secured, 'trDate',
               each('domainTransfer', transfer)),
    'nndn': ('aName uName idnTableId originalName nameState crDate',),
}


def object_xml(rows: Object) -> str:
    kind, cells = rows[0]
    prefix = OBJECTS[kind].partition(':')[0]

    def children(table: str) -> list[Cells]:
        return [it for name, it in rows[1:] if name == table]

    within = ''.join(
        some(prefix, cells, *it.split()) if isinstance(it, str) else it(prefix, cells, children)
        for it in XML[kind])
    return element(OBJECTS[kind], within=within, id=cells['idnTableId'] if kind == 'idn' else None)


def deleted_xml(deletes: Mapping[str, Iterable[str]]) -> Iterator[str]:
    """The deletes of each kind: `{'domain': ['a.example']}`."""
    for kind, keys in deletes.items():
        prefix = OBJECTS[kind].partition(':')[0]
        name = 'id' if kind == 'idn' else KEYS[kind]
        yield element(f'{prefix}:delete',
                      within=''.join(element(f'{prefix}:{name}', it) for it in keys))


# ---- the CSV model


# The fields whose elements are the same in all tables.
COMMON = (
    'roid uName registrant statusDescription lang clID crRr crID upRr upID reRr reID acRr acID '
    'crDate upDate exDate reDate acDate '
    'trDate trStatus idnTableId url').split()


def fields(prefix: str, names: str) -> dict[str, str]:
    """Fields, each with the element that defines it."""
    return {
        it: f'{"rdeCsv" if it in COMMON else prefix}:f{it[0].upper()}{it[1:]}'
        for it in names.split()
    }


def optional(fields: dict[str, str], names: str) -> dict[str, str]:
    """The same fields, of which these may be empty, as the document says: their elements say
    otherwise by themselves."""
    return {
        it: f'{element} isRequired="false"' if it in names.split() else element
        for it, element in fields.items()
    }


def placed(loc: bool | None) -> dict[str, str]:
    """The fields of an address; those of the localized form where `loc` is true, of the
    internationalized where it is false."""
    front, form = ('loc.', ' isLoc="true" isRequired="false"') if loc else (
        '', '' if loc is None else ' isLoc="false" isRequired="false"')
    return {
        **{f'{front}street.{at}': f'csvContact:fStreet index="{at}"{form}'
           for at in range(3)},
        **{
            f'{front}{it}': f'csvContact:f{it.capitalize()}{form}'
            for it in ('city', 'sp', 'pc', 'cc')
        }
    }


NAME, CONTACT_ID = {'name': 'csvDomain:fName parent="true"'}, {'id': 'csvContact:fId parent="true"'}
ROID = {'roid': 'rdeCsv:fRoid parent="true"'}
HISTORY = 'clID crRr crID crDate upRr upID upDate'
SECURED = 'keyTag dsAlg digestType digest flags protocol keyAlg pubKey'
MOVED = 'trStatus reRr reID reDate acRr acID acDate'
DISCLOSED = 'NameLoc NameInt OrgLoc OrgInt AddrLoc AddrInt Voice Fax Email'.split()
# Of each table the element that holds its files, the name of these, and its fields.
FILES = {
    'registrar': ('csvRegistrar', 'registrar', {
        **fields('csvRegistrar', 'id'), 'name': 'csvRegistrar:fName isLoc="false"',
        **fields('csvRegistrar', 'gurid status'),
        **placed(False),
        **placed(True),
        **optional(fields('csvContact', 'voice voiceExt fax faxExt email'), 'email'),
        **fields('csvRegistrar', 'url whoisUrl crDate upDate')
    }),
    'idn': ('csvIDN', 'idnLanguage', fields('csvIDN', 'idnTableId url')),
    'contact': ('csvContact', 'contact',
                fields('csvContact', f'id roid voice voiceExt fax faxExt email {HISTORY} trDate')),
    'contactStatuses': ('csvContact', 'contactStatuses',
                        CONTACT_ID | fields('csvContact', 'status statusDescription lang')),
    'contactPostal': ('csvContact', 'contactPostal',
                      CONTACT_ID | fields('csvContact', 'postalType name org') | placed(None)),
    'contactTransfer': ('csvContact', 'contactTransfer', CONTACT_ID | fields('csvContact', MOVED)),
    'contactDisclose': ('csvContact', 'contactDisclose', CONTACT_ID
                        | fields('csvContact', ' '.join(
                            ['discloseFlag', *(f'disclose{it}' for it in DISCLOSED)]))),
    'host': ('csvHost', 'host', fields('csvHost', f'name roid {HISTORY} trDate')),
    'hostStatuses': ('csvHost', 'hostStatuses',
                     ROID | fields('csvHost', 'status statusDescription lang')),
    'hostAddresses': ('csvHost', 'hostAddresses', ROID | fields('csvHost', 'addr addrVersion')),
    'domain': ('csvDomain', 'domain',
               fields(
                   'csvDomain',
                   f'name roid uName idnTableId originalName registrant {HISTORY} exDate trDate')),
    'domainContacts': ('csvDomain', 'domainContacts', NAME | {
        'contactId': 'csvContact:fId'
    } | fields('csvDomain', 'contactType')),
    'domainStatuses': ('csvDomain', 'domainStatuses', NAME | optional(
        fields('csvDomain', 'status statusDescription lang rgpStatus'), 'status')),
    'domainNs': ('csvDomain', 'domainNameServers', NAME | {
        'hostRoid': 'rdeCsv:fRoid'
    }),
    'domainHostAttr': ('csvDomain', 'domainNameServersAddresses', NAME
                       | {
                           'hostName': 'csvHost:fName'
                       } | fields('csvHost', 'addr addrVersion')),
    'secDNS': ('csvDomain', 'dnssec',
               NAME | optional(fields('csvDomain', f'maxSigLife {SECURED}'), SECURED)),
    'domainTransfer': ('csvDomain', 'domainTransfer',
                       NAME | fields('csvDomain', f'{MOVED} exDate')),
    'nndn': ('csvNNDN', 'NNDN',
             fields('csvNNDN', 'aName uName idnTableId originalName nameState mirroringNS crDate')),
}


def csv_text(rows: Iterable[Sequence[str]], separator: str) -> bytes:
    text = io.StringIO(newline='')
    csv.writer(text, delimiter=separator).writerows(rows)
    return text.getvalue().encode()


def rows_of(objects: Iterable[Object], table: str, roids: Mapping[str, str]) -> Iterator[list[str]]:
    """The rows of a table, in the fields of its files. A host is named by its ROID."""
    fields = FILES[table][2]
    for rows in objects:
        kind, parent = rows[0]
        for name, cells in rows:
            if name == table:
                named = {
                    KEYS[kind]: parent[KEYS[kind]],
                    **({
                        'roid': parent['roid']
                    } if kind == 'host' else {}),
                    **cells
                }
                if 'hostRoid' in fields:
                    named['hostRoid'] = roids[cells['hostName']]
                yield [named.get(it, '') for it in fields]


def csv_model(folder: str, objects: Sequence[Object], deletes: Mapping[str, Iterable[str]],
              roids: Mapping[str, str], day: str, separator: str) -> list[str]:
    """Writes the CSV files, and gives what the document has of the deletes and of the contents."""
    found: dict[bool, dict[str, list[str]]] = {True: {}, False: {}}
    tables = [(table, False, list(rows_of(objects, table, roids))) for table in FILES]
    tables += [(kind, True, [[roids[key] if kind == 'host' else key] for key in keys])
               for kind, keys in deletes.items()]
    for table, is_of_deletes, rows in tables:
        if rows:
            prefix, name, fields = FILES[table]
            wanted = [fields['roid' if table == 'host' else KEYS[table]]
                      ] if is_of_deletes else list(fields.values())
            file, data = f'{name}{"-delete" if is_of_deletes else ""}-{day}.csv', csv_text(
                rows, separator)
            with open(os.path.join(folder, file), 'wb') as written:
                written.write(data)
            declared = element('rdeCsv:fields', within=''.join(
                f'<{it}/>' for it in wanted)) + element(
                    'rdeCsv:files', within=element('rdeCsv:file', file,
                                                   cksum=f'{zlib.crc32(data):08X}'))
            found[is_of_deletes].setdefault(prefix, []).append(
                element('rdeCsv:csv', within=declared, name=name, sep=separator))
    return [
        ''.join(
            element(f'{prefix}:{word}', within=''.join(its))
            for prefix, its in found[is_of_deletes].items())
        for is_of_deletes, word in ((True, 'deletes'), (False, 'contents'))
    ]


# ---- the document


def document(folder: str, name: str, header: Mapping[str, str], objects: Sequence[Object],
             deletes: Mapping[str, Iterable[str]], counts: Mapping[str, int], model: str,
             roids: Mapping[str, str] | None = None, separator: str = ',') -> str:
    """Writes a deposit of one model into a folder, and gives the path of its document. `header` has
    `id`, `type`, `watermark` and, where it has them, `prevId` and `resend`; `roids` are the ROIDs
    of hosts of earlier deposits, by their names."""
    roids = {
        **(roids or {}),
        **{rows[0][1]['name']: rows[0][1]['roid']
           for rows in objects if rows[0][0] == 'host'}
    }
    if model == 'CSV':
        gone, contents = csv_model(folder, objects, deletes, roids,
                                   header['watermark'][:10].replace('-', ''), separator)
    else:
        gone, contents = ''.join(deleted_xml(deletes)), ''.join(f'\n{object_xml(it)}'
                                                                for it in objects)
    front = 'csv' if model == 'CSV' else 'rde'
    uris = {kind: URIS[OBJECTS[kind].partition(':')[0].replace('rde', front, 1)] for kind in counts}
    counted = ''.join(
        element('rdeHeader:count', str(counts[kind]), uri=uri) for kind, uri in uris.items())
    within = (element('rde:watermark', header['watermark']) + element(
        'rde:rdeMenu', within=element('rde:version', '1.0') +
        ''.join(element('rde:objURI', it) for it in uris.values())) +
              (element('rde:deletes', within=gone) if gone else '') + element(
                  'rde:contents',
                  within=element('rdeHeader:header',
                                 within=element('rdeHeader:tld', 'example') + counted) + contents))
    said = {it: header.get(it) for it in ('type', 'id', 'prevId', 'resend')}
    spaces = {f'xmlns:{prefix}': uri for prefix, uri in URIS.items()}
    path = os.path.join(folder, name)
    with open(path, 'w', encoding='utf-8') as file:
        file.write('<?xml version="1.0" encoding="UTF-8"?>\n' +
                   element('rde:deposit', within=within, **said, **spaces) + '\n')
    return path

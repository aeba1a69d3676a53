"""The answers of RDAP that a folder of tables and a zone make, by SQL over the tables. It shares
nothing with packaging/rdap_files: statuses are those that RFC 8056 lists, dates are read by SQLite,
addresses by the system, and U-labels by Python's codec of IDNA."""
import csv
import os
import random
import re
import socket
import sqlite3
from collections.abc import Iterator
from typing import Any

from samples.making.thick import Thick
from tests.support.tables import Row
from tests.support.tables import key_of

# RFC 8056, section 2.
STATUSES = """addPeriod = add period; autoRenewPeriod = auto renew period;
clientDeleteProhibited = client delete prohibited; clientHold = client hold;
clientRenewProhibited = client renew prohibited;
clientTransferProhibited = client transfer prohibited;
clientUpdateProhibited = client update prohibited; inactive = inactive; linked = associated;
ok = active; pendingCreate = pending create; pendingDelete = pending delete;
pendingRenew = pending renew; pendingRestore = pending restore;
pendingTransfer = pending transfer; pendingUpdate = pending update;
redemptionPeriod = redemption period; renewPeriod = renew period;
serverDeleteProhibited = server delete prohibited; serverHold = server hold;
serverRenewProhibited = server renew prohibited;
serverTransferProhibited = server transfer prohibited;
serverUpdateProhibited = server update prohibited; transferPeriod = transfer period"""
COLUMNS = {
    'registrar': 'key name gurid crDate upDate',
    'host': 'key roid crDate upDate trDate',
    'hostStatuses': 'key status',
    'hostAddresses': 'key addr',
    'domain': 'key roid clID crDate exDate upDate trDate',
    'domainStatuses': 'key status rgpStatus',
    'domainNs': 'key hostName',
    'domainHostAttr': 'key hostName addr',
}
SCHEMA = """
CREATE TABLE word (status TEXT PRIMARY KEY, means TEXT);
CREATE TABLE zone (name TEXT, type TEXT, data TEXT);
CREATE VIEW said AS SELECT 'domain' AS kind, key, status FROM domainStatuses
  UNION ALL SELECT 'domain', key, rgpStatus FROM domainStatuses
  UNION ALL SELECT 'host', key, status FROM hostStatuses;
CREATE VIEW server AS SELECT 0 AS place, rowid AS at, key, hostName, NULL AS addr FROM domainNs
  UNION ALL SELECT 1, rowid, key, hostName, addr FROM domainHostAttr;
"""
HANDLE = """SELECT CASE WHEN gurid <> '' AND gurid NOT GLOB '*[^0-9]*' AND NOT EXISTS (
    SELECT 1 FROM registrar AS other WHERE other.key <> registrar.key
    AND (other.gurid = registrar.gurid OR other.key = registrar.gurid)) THEN gurid ELSE key END,
  name, CASE WHEN gurid NOT GLOB '*[^0-9]*' THEN gurid END FROM registrar WHERE key = ?"""
WORDS = """SELECT DISTINCT means FROM said JOIN word USING (status) WHERE kind = ? AND key = ?
  ORDER BY means"""
SERVERS = """SELECT hostName, group_concat(addr, ' ') FROM (
    SELECT rtrim(lower(hostName), '.') AS hostName, addr, place, at FROM server WHERE key = ?
    ORDER BY place, at)
  WHERE hostName NOT GLOB '*[^a-z0-9._-]*' AND hostName NOT GLOB '.*' AND hostName <> ''
  GROUP BY hostName ORDER BY min(place), min(at)"""
DATE = "strftime('%Y-%m-%dT%H:%M:%S', substr(?1, 1, 19), '+0 days') = substr(?1, 1, 19)"
IS_MOMENT = f"SELECT {DATE} AND (substr(?1, 20) = 'Z' OR substr(?1, 20) GLOB '.[0-9]*Z')"
NAMES = "SELECT key FROM {} WHERE key NOT GLOB '*[^a-z0-9._-]*' AND key NOT GLOB '.*'"
EVENTS = {'domain': {'crDate': 'registration', 'exDate': 'expiration', 'upDate': 'last changed',
                     'trDate': 'transfer'}}
EVENTS['host'] = {it: name for it, name in EVENTS['domain'].items() if it != 'exDate'}
EVENTS['registrar'] = {it: name for it, name in EVENTS['host'].items() if it != 'trDate'}
KINDS = {'domain': 'domain', 'nameserver': 'host'}

Json = dict[str, Any]


def rows_of(path: str) -> Iterator[dict[str, str]]:
    with open(path, encoding='utf-8', newline='') as file:
        yield from csv.DictReader(file, strict=True)


def unicode_of(name: str) -> str | None:
    """A name with U-labels, if it has A-labels."""
    try:
        found = name.encode().decode('idna')
    except UnicodeError:
        return None
    return found if found != name else None


def addresses(texts: list[str]) -> dict[str, list[str]]:
    found: dict[str, list[str]] = {}
    for text in texts:
        for version, family in (('v4', socket.AF_INET), ('v6', socket.AF_INET6)):
            try:
                it = socket.inet_ntop(family, socket.inet_pton(family, text))
            except (OSError, ValueError):
                continue
            if it not in found.setdefault(version, []):
                found[version].append(it)
    return found


def filled(members: Json) -> Json:
    return {name: value for name, value in members.items() if value not in ('', [], {}, None)}


class Expected:
    """What the files of a folder have to have."""

    def __init__(self, tables: str, zone: str, base: str, updated: str) -> None:
        self.url, self.updated = base, updated
        self.base = sqlite3.connect(':memory:')
        for table, columns in COLUMNS.items():
            # (UPDATE is a word of SQL.)
            fields = ', '.join(f'"{it}"' for it in columns.split())
            self.base.execute(f'CREATE TABLE {table} ({fields})')
            path = os.path.join(tables, f'{table}.csv')
            for row in rows_of(path) if os.path.exists(path) else ():
                values = [row.get(it, '') for it in columns.split()]
                marks = ', '.join('?' * len(values))
                self.base.execute(f'INSERT INTO {table} VALUES ({marks})', values)
            self.base.execute(f'CREATE INDEX key_of_{table} ON {table} (key)')
        self.base.executescript(SCHEMA)
        for it in STATUSES.replace('\n', ' ').split(';'):
            self.base.execute('INSERT INTO word VALUES (?, ?)', [*map(str.strip, it.split('='))])
        with open(zone, encoding='ascii') as file:
            self.base.executemany('INSERT INTO zone VALUES (?, ?, ?)',
                                  re.findall(r'^(\S+)\. \d+ IN (\w+) (.*)$', file.read(), re.M))
        self.base.execute('CREATE INDEX name_of_zone ON zone (name)')

    def ask(self, query: str, *values: str) -> list[tuple]:
        return self.base.execute(query, values).fetchall()

    def names(self, kind: str) -> list[str]:
        """The names that have an answer, without those in U-labels."""
        if kind == 'entity':
            keys = self.ask('SELECT key FROM registrar')
            handles = [self.ask(HANDLE, it)[0][0] for it, in keys]
            return [it for it in handles if re.fullmatch(r'[A-Za-z0-9_-][A-Za-z0-9._-]*', it)]
        return [it for it, in self.ask(NAMES.format(KINDS[kind]))]

    def files(self) -> dict[str, Json]:
        """All answers of objects, by the names of their files."""
        found = {}
        for kind in ('domain', 'nameserver', 'entity'):
            for name in self.names(kind):
                found[f'{kind}/{name}'] = self.answer(kind, name)
                if kind != 'entity' and (other := unicode_of(name)) is not None:
                    found[f'{kind}/{other}'] = found[f'{kind}/{name}']
        return found

    def answer(self, kind: str, name: str) -> Json:
        url = f'{self.url}{kind}/{name}'
        link = {'value': url, 'rel': 'self', 'href': url, 'type': 'application/rdap+json'}
        of_kind = {'domain': self.domain, 'nameserver': self.host, 'entity': self.entity}[kind]
        found = {'rdapConformance': ['rdap_level_0'], **of_kind(name), 'links': [link]}
        return filled(found)

    def domain(self, key: str) -> Json:
        (roid, sponsor), = self.ask('SELECT roid, clID FROM domain WHERE key = ?', key)
        query = "SELECT data FROM zone WHERE type = 'DS' AND name = ? ORDER BY rowid"
        ds = [it.split() for it, in self.ask(query, key)]
        secured = [{'keyTag': int(it[0]), 'algorithm': int(it[1]), 'digestType': int(it[2]),
                    'digest': it[3]} for it in ds]
        servers = [filled({'objectClassName': 'nameserver', 'ldhName': host,
                           'unicodeName': unicode_of(host),
                           'ipAddresses': addresses((texts or '').split())})
                   for host, texts in self.ask(SERVERS, key)]
        return {
            'objectClassName': 'domain', 'handle': roid, 'ldhName': key,
            'unicodeName': unicode_of(key),
            'nameservers': servers,
            'secureDNS': {'delegationSigned': True, 'dsData': secured} if ds
            else {'delegationSigned': False},
            'entities': [self.registrar(sponsor)] if self.ask(HANDLE, sponsor) else [],
            'status': [it for it, in self.ask(WORDS, 'domain', key)],
            'events': self.events('domain', key),
            'remarks': [{'title': 'Contacts', 'type': 'object truncated due to authorization',
                         'description': ['The contacts of this domain are not published here.']}],
        }

    def host(self, key: str) -> Json:
        (roid,), = self.ask('SELECT roid FROM host WHERE key = ?', key)
        texts = self.ask('SELECT addr FROM hostAddresses WHERE key = ? ORDER BY rowid', key)
        return {
            'objectClassName': 'nameserver', 'handle': roid, 'ldhName': key,
            'unicodeName': unicode_of(key), 'ipAddresses': addresses([it for it, in texts]),
            'status': [it for it, in self.ask(WORDS, 'host', key)],
            'events': self.events('host', key),
        }

    def entity(self, handle: str) -> Json:
        key, = [it for it, in self.ask('SELECT key FROM registrar')
                if self.ask(HANDLE, it)[0][0] == handle]
        return {**self.registrar(key), 'events': self.events('registrar', key)}

    def registrar(self, key: str) -> Json:
        (handle, name, number), = self.ask(HANDLE, key)
        card = [['version', {}, 'text', '4.0'], ['fn', {}, 'text', name]]
        numbers = [{'type': 'IANA Registrar ID', 'identifier': number}] if number else []
        return {'objectClassName': 'entity', 'handle': handle, 'roles': ['registrar'],
                'vcardArray': ['vcard', card], **({'publicIds': numbers} if numbers else {})}

    def events(self, kind: str, key: str) -> list[Json]:
        fields = EVENTS[kind]
        columns = ', '.join(f'"{it}"' for it in fields)
        dates, = self.ask(f'SELECT {columns} FROM {kind} WHERE key = ?', key)
        found = [{'eventAction': action, 'eventDate': date}
                 for action, date in zip(fields.values(), dates)
                 if self.ask(IS_MOMENT, date)[0][0]]
        return [*found, {'eventAction': 'last update of RDAP database', 'eventDate': self.updated}]


# ---- registries at random

FOREIGN = ('bücher', '例え', 'пример', 'ελλάδα', 'smörgås', 'नमूना')
# Labels that a web server might take for something else than a name.
LABELS = ('{}.de', '{}.var', '{}.gz', '{}.html', '{}_x', '-{}', '{}.', '*{}', '.{}', '{} b', '{}/b',
          '{}%2e', 'ö{}')
STATUS_TEXTS = (*(it.split('=')[0].strip() for it in STATUSES.split(';')), 'OK', 'on hold', '')
DATES = ('2023-02-29T00:00:00Z', '2024-02-29T23:59:59Z', '2020-01-01T00:00:00.123456789Z',
         '2020-01-01', '2020-01-01T00:00:00+01:00', '2020-01-01T24:00:00Z', '')
ADDRESSES = ('192.0.2.7', '192.000.2.7', '2001:DB8:0:0:0:0:0:7', '2001:db8::7', 'fe80::7%eth0',
             '192.0.2', 'none', '')


class Odd:
    """Makes some cells of a registry's objects odd."""

    def __init__(self, maker: random.Random) -> None:
        self.maker, self.number = maker, 0

    def is_odd(self, share: float = 0.15) -> bool:
        return self.maker.random() < share

    def name(self, name: str) -> str:
        """Another name for one, which no other has."""
        self.number += 1
        pick = self.maker.choice
        if self.is_odd(0.5):
            text = f'{pick(FOREIGN)}{self.number}'.encode('punycode').decode()
            return f'{pick(("xn--", "XN--"))}{text}.example'
        if self.is_odd(0.3):
            return name.title()
        return f'{pick(LABELS).format(f"a{self.number}")}.example'

    def cells(self, cells: dict[str, str]) -> None:
        for field in ('crDate', 'exDate', 'upDate', 'trDate'):
            if self.is_odd(0.05):
                cells[field] = self.maker.choice(DATES)
        if self.is_odd(0.05):
            cells['roid'] = ''

    def registrar(self, rows: list[Row]) -> None:
        if self.is_odd(0.5):
            rows[0][1]['gurid'] = self.maker.choice(('', '1', '2', 'x', 'RAR-1'))

    def host(self, rows: list[Row]) -> None:
        if self.is_odd():
            rows[0][1]['name'] = self.name(rows[0][1]['name'])
        for _ in range(self.maker.randint(0, 2)):
            rows.append(('hostAddresses', {'addr': self.maker.choice(ADDRESSES)}))
            rows.append(('hostStatuses', {'status': self.maker.choice(STATUS_TEXTS)}))

    def domain(self, rows: list[Row]) -> None:
        if self.is_odd():
            rows[0][1]['name'] = self.name(rows[0][1]['name'])
        if self.is_odd(0.05):
            rows[0][1]['clID'] = self.maker.choice(('RAR-999', ''))
        if self.is_odd():
            rows[:] = [it for it in rows if it[0] != 'domainNs']
            rows += [('domainHostAttr', {'hostName': it, 'addr': self.maker.choice(ADDRESSES)})
                     for it in ('ns1.attr.example', 'NS2.attr.example', 'ns1.attr.example.')]
        if self.is_odd():
            rows += [it for it in rows if it[0] == 'domainNs'][:1]
        for field in ('status', 'rgpStatus'):
            if self.is_odd(0.3):
                rows.append(('domainStatuses', {field: self.maker.choice(STATUS_TEXTS)}))


def some_registry(seed: int, domains: int) -> tuple[list[list[Row]], str]:
    """A registry at random of so many domains, and a zone, which has DS records of some of those
    that are not held."""
    maker = random.Random(seed)
    odd, objects = Odd(maker), []
    zone = ['example. 3600 IN SOA a.nic.example. h.nic.example. 1 2 3 4 5',
            'nic.example. 3600 IN DS 1 13 2 00']
    for given in Thick(domains).objects():
        rows = [(table, dict(cells)) for table, cells in given]
        objects.append(rows)
        odd.cells(rows[0][1])
        if rows[0][0] in ('registrar', 'host', 'domain'):
            getattr(odd, rows[0][0])(rows)
        key = key_of(*rows[0])
        if rows[0][0] == 'domain' and key.isascii() and key.isprintable() and ' ' not in key:
            is_held = any(cells.get('status') == 'clientHold' for _, cells in rows)
            secured = [cells for table, cells in rows if table == 'secDNS' and not is_held]
            zone += [f'{key}. 3600 IN NS ns.example.net.']
            zone += [f'{key}. 3600 IN DS {it["keyTag"]} {it["dsAlg"]} {it["digestType"]} '
                     f'{it["digest"]}' for it in secured if maker.random() < 0.9]
    return objects, ''.join(f'{it}\n' for it in zone)

"""The zone of a TLD, made of the tables of its registry: the plain model of `handover zone`.

Names are compared in small ASCII letters, without a dot at their end (RFC 4343). A *cut* is the
uppermost name, of those that are to be delegated, that has a server outside of the zone or one with
an address: below it the zone has addresses of servers alone (RFC 1034 4.2.1)."""
import base64
import binascii
import csv
import hashlib
import ipaddress
import os
import re
from collections import Counter
from functools import cache
from functools import cached_property
from typing import NamedTuple

from tests.support.acceptance import control_spelled
from tests.support.acceptance import looks_like
from tests.support.documents import KEYS
from tests.support.limits import MOST_BYTES
from tests.support.tables import LETTERS
from tests.support.tables import Row
from tests.support.tables import key_of

csv.field_size_limit(MOST_BYTES)
LABEL = re.compile('[a-z0-9]([a-z0-9-]{0,61}[a-z0-9])?')
STATUSES = ('clientDeleteProhibited', 'clientHold', 'clientRenewProhibited',
            'clientTransferProhibited', 'clientUpdateProhibited', 'inactive', 'ok',
            'pendingCreate', 'pendingDelete', 'pendingRenew', 'pendingTransfer', 'pendingUpdate',
            'serverDeleteProhibited', 'serverHold', 'serverRenewProhibited',
            'serverTransferProhibited', 'serverUpdateProhibited')
GRACE = ('addPeriod', 'autoRenewPeriod', 'renewPeriod', 'transferPeriod', 'redemptionPeriod',
         'pendingRestore', 'pendingDelete')
# What keeps a name out, beside a hold: the first of these counts.
KEPT_OUT = ('pendingCreate', 'redemptionPeriod', 'pendingRestore', 'pendingDelete', 'inactive')
DS_FIELDS = ('keyTag', 'dsAlg', 'digestType', 'digest')
KEY_FIELDS = ('flags', 'protocol', 'keyAlg', 'pubKey')
# The fields that are read: those that a table with rows has to have, and others.
NEEDED = {'domainNs': ('hostName',), 'domainHostAttr': ('hostName', 'addr'),
          'domainStatuses': ('status',), 'hostAddresses': ('addr',), 'nndn': ('nameState',)}
TAKEN = {'domain': ('originalName',), 'domainHostAttr': ('addrVersion',),
         'domainStatuses': ('rgpStatus',), 'hostAddresses': ('addrVersion',),
         'nndn': ('originalName', 'mirroringNS'), 'secDNS': DS_FIELDS + KEY_FIELDS}
CHILDREN = ('domainNs', 'domainHostAttr', 'domainStatuses', 'hostAddresses', 'secDNS')
# Other names of these tables.
OTHER_NAMES = {'domainNameServers': 'domainNs', 'domainNameServersAddresses': 'domainHostAttr',
               'dnssec': 'secDNS'}
# The bytes of a digest by its type: SHA-1, SHA-256, SHA-384 (RFC 4034, 4509, 6605).
DIGEST_BYTES = {1: 20, 2: 32, 4: 48}
# The greatest numbers of the first three fields of a DS, and of a key.
MOST = (0xffff, 0xff, 0xff)
# What is counted, in the order in which it is printed.
COUNTED = ('domains', 'delegated', 'held', *KEPT_OUT, 'without servers', 'no name of the zone',
           'no server left', 'DS', 'DS made of keys', 'mirrored', 'mirrored and delegated',
           'orphan glue hosts', 'addresses', 'records')
SIGNERS_TYPES = ('RRSIG', 'NSEC', 'NSEC3', 'NSEC3PARAM', 'DNSKEY', 'CDS', 'CDNSKEY', 'ZONEMD')
ZONE_KEY, REVOKED = 0x0100, 0x0080

Address = ipaddress.IPv4Address | ipaddress.IPv6Address


class Refused(Exception):
    """Why there is no zone: the refusal's line."""


class Table(NamedTuple):
    """A table's fields, and its rows by the key of their object: of each the texts that it has."""
    fields: tuple[str, ...]
    rows: dict[str, list[dict[str, str]]]


class Ds(NamedTuple):
    tag: int
    algorithm: int
    type: int
    digest: str

    def __str__(self) -> str:
        return f'{self.tag} {self.algorithm} {self.type} {self.digest}'


# ---- names


def name_of(text: str) -> str:
    return text.translate(LETTERS).removesuffix('.')


def is_below(name: str, above: str) -> bool:
    """Whether a name is another one, or below it."""
    return name == above or name.endswith(f'.{above}')


def parents_of(name: str) -> list[str]:
    """The names above one, the nearest first."""
    labels = name.split('.')
    return ['.'.join(labels[at:]) for at in range(1, len(labels))]


def fault_of_label(label: str, underscores: bool) -> str | None:
    if not label:
        return 'an empty label'
    if len(label) > 63:
        return 'a label over 63 bytes'
    if label == '*':
        return 'a wildcard'
    is_label = LABEL.fullmatch(label.replace('_', 'x') if underscores else label)
    return None if is_label else f'no label of letters, digits and hyphens: {label}'


def fault_of(name: str, underscores: bool = False) -> str | None:
    """Why this is no host name (RFC 5731 2.1, RFC 1035 2.3.4)."""
    if not name.isascii():
        return 'not ASCII: a U-label?'
    if len(name) > 253:
        return 'over 255 bytes on the wire'
    faults = (fault_of_label(it, underscores) for it in name.split('.'))
    return next(filter(None, faults), None)


# ---- texts of a row


def number(row: dict[str, str], field: str, most: int) -> int:
    text = row.get(field, '')
    if not re.fullmatch('[0-9]{1,10}', text) or int(text) > most:
        raise ValueError(f'no number up to {most}: {text}')
    return int(text)


def address_of(text: str) -> Address:
    """An address at which a server of the public Internet may be."""
    try:
        it = ipaddress.ip_address(text)
    except ValueError:
        raise ValueError('no address') from None
    if '%' in text:
        raise ValueError('no address')
    if (it.is_loopback or it.is_unspecified or it.is_multicast or it.is_link_local
            or it.version == 6 and it.ipv4_mapped):
        raise ValueError('an address of no server')
    return it


def key_tag(data: bytes) -> int:
    """RFC 4034, appendix B, of the data of a DNSKEY."""
    total = sum(byte << 8 if at % 2 == 0 else byte for at, byte in enumerate(data))
    return (total + (total >> 16)) & 0xffff


def ds_of_row(row: dict[str, str]) -> Ds:
    """The DS that a row has (RFC 5910 4.1)."""
    tag, algorithm, kind = (number(row, it, most) for it, most in zip(DS_FIELDS, MOST))
    digest = row.get('digest', '')
    if algorithm == 0 or kind not in DIGEST_BYTES:
        raise ValueError(f'algorithm {algorithm}, digest type {kind}')
    if not re.fullmatch('([0-9A-Fa-f]{2})*', digest) or len(digest) != 2 * DIGEST_BYTES[kind]:
        raise ValueError(f'no digest of {DIGEST_BYTES[kind]} bytes: {digest}')
    return Ds(tag, algorithm, kind, digest.upper())


def ds_of_key(name: str, row: dict[str, str]) -> Ds:
    """The DS of a key, with SHA-256 (RFC 5910 4.2, RFC 4034 5.1.4, RFC 4509 2)."""
    flags, protocol, algorithm = (number(row, it, most) for it, most in zip(KEY_FIELDS, MOST))
    if protocol != 3 or algorithm == 0:
        raise ValueError(f'no key of DNSSEC: protocol {protocol}, algorithm {algorithm}')
    if not flags & ZONE_KEY or flags & REVOKED:
        raise ValueError(f'no zone key, or a revoked one: flags {flags}')
    try:
        key = base64.b64decode(re.sub('[ \t\r\n]', '', row.get('pubKey', '')), validate=True)
    except binascii.Error:
        key = b''
    if not key:
        raise ValueError('a public key that is no base64')
    data = flags.to_bytes(2, 'big') + bytes([protocol, algorithm]) + key
    owner = b''.join(bytes([len(it)]) + it.encode() for it in name.split('.')) + b'\0'
    return Ds(key_tag(data), algorithm, 2, hashlib.sha256(owner + data).hexdigest().upper())


# ---- the tables


def read_tables(folder: str) -> dict[str, Table]:
    """The tables that `handover tables` wrote into a folder."""
    found = {}
    for file_name in sorted(it for it in os.listdir(folder) if it.endswith('.csv')):
        with open(f'{folder}/{file_name}', encoding='utf-8', newline='') as file:
            heading, *lines = csv.reader(file, strict=True)
        rows: dict[str, list[dict[str, str]]] = {}
        for key, *texts in lines:
            cells = {name: text for name, text in zip(heading[1:], texts, strict=True) if text}
            rows.setdefault(key, []).append(cells)
        found[file_name.removesuffix('.csv')] = Table(tuple(heading[1:]), rows)
    return found


def tables_of(objects: list[list[Row]]) -> dict[str, Table]:
    """The tables of objects, each a list of rows. A table has the fields of all its rows."""
    fields: dict[str, dict[str, None]] = {}
    found: dict[str, dict[str, list[dict[str, str]]]] = {}
    for rows in objects:
        kind, parent = rows[0]
        own = {KEYS[kind]: parent[KEYS[kind]]}
        for table, cells in rows:
            fields.setdefault(table, {}).update(dict.fromkeys({**own, **cells}))
            texts = {name: text for name, text in {**own, **cells}.items() if text}
            found.setdefault(table, {}).setdefault(key_of(kind, parent), []).append(texts)
    return {table: Table(tuple(fields[table]), rows) for table, rows in found.items()}


def looks_like_table(name: str, wanted: str) -> bool:
    """Whether a table's name is another one of the same table."""
    return name != wanted and (looks_like(name, wanted) or OTHER_NAMES.get(name) == wanted)


def check_names(tables: dict[str, Table]) -> None:
    """Z4: a table or field has another name than the one that is read, and so would be lost."""
    for wanted in CHILDREN:
        for name in tables:
            if wanted not in tables and looks_like_table(name, wanted):
                raise Refused(f'Z4 {name} looks like {wanted}')
    for table in {**NEEDED, **TAKEN}:
        fields = tables[table].fields if table in tables else ()
        for wanted in NEEDED.get(table, ()) + TAKEN.get(table, ()):
            for field in fields:
                if wanted not in fields and looks_like(field, wanted):
                    raise Refused(f'Z4 {table} {field} looks like {wanted}')


def check_fields(tables: dict[str, Table]) -> None:
    """Z4: a table with rows lacks a field without which these say nothing."""
    for table, needed in NEEDED.items():
        for it in needed:
            if table in tables and tables[table].rows and it not in tables[table].fields:
                raise Refused(f'Z4 {table} lacks {it}')
    secured = tables.get('secDNS')
    if secured and secured.rows:
        groups = [it for it in (DS_FIELDS, KEY_FIELDS) if {*it} & {*secured.fields}]
        missing = [it for group in groups for it in group if it not in secured.fields]
        if missing or not groups:
            raise Refused(f'Z4 secDNS lacks {missing[0] if missing else "keyTag and pubKey"}')


def check_once(kind: str, name: str, rows: list[dict[str, str]]) -> None:
    """Z5: two objects have one name. (Of hosts those are tested that are servers.)"""
    if len(rows) > 1:
        raise Refused(f'Z5 {kind} {name}: two objects have this name')


class Registry:
    """The objects of a registry by their names."""

    def __init__(self, tables: dict[str, Table]) -> None:
        check_names(tables)
        check_fields(tables)
        self.tables = tables
        self.domains, self.nndns = self.objects('domain'), self.objects('nndn')
        self.hosts = self.rows_by_name('host')
        self.children = {it: self.rows_by_name(it) for it in CHILDREN}

    def rows_by_name(self, table: str) -> dict[str, list[dict[str, str]]]:
        found: dict[str, list[dict[str, str]]] = {}
        for key, rows in self.tables[table].rows.items() if table in self.tables else ():
            found.setdefault(name_of(key), []).extend(rows)
        return found

    def objects(self, kind: str) -> dict[str, dict[str, str]]:
        """The parent row of each object. Z5: two objects have one name."""
        found = self.rows_by_name(kind)
        for name, rows in found.items():
            check_once(kind, name, rows)
        return {name: row for name, (row,) in found.items()}

    def rows(self, table: str, name: str) -> list[dict[str, str]]:
        return self.children[table].get(name, [])


# ---- the operator's file


class Operator:
    """The operator's own records: SOA, NS and others, one a line, as `NAME. TTL IN TYPE DATA`."""

    def __init__(self, path: str, text: str, origin: str, serial: int) -> None:
        self.origin, self.serial = origin, serial
        self.records: list[str] = []
        self.types: dict[str, Counter[str]] = {}
        self.addresses: dict[str, set[Address]] = {}
        self.servers: list[str] = []
        if not text.isascii():
            raise Refused(f'Z3 {path}: not ASCII')
        for at, line in enumerate(text.split('\n'), 1):
            if line.strip() and not line.startswith(';'):
                try:
                    self.take(line.split())
                except ValueError as error:
                    raise Refused(f'Z3 {path} line {at}: {error}') from None
        top = self.types.get(origin, Counter())
        if not top['SOA'] or not top['NS'] or top['CNAME'] + top['DNAME']:
            raise Refused(f'Z3 {path}: no zone begins so: one SOA, first; NS; no CNAME or DNAME at '
                          f'{origin}')

    def take(self, words: list[str]) -> None:
        if len(words) < 5 or words[2] != 'IN' or not words[0].endswith('.'):
            raise ValueError('not NAME. TTL IN TYPE DATA on one line')
        name, kind, data = name_of(words[0]), words[3], words[4:]
        self.check(words[1], name, kind, data)
        if kind == 'SOA':
            data[2] = str(self.serial)
        elif kind in ('A', 'AAAA'):
            self.addresses.setdefault(name, set()).add(ipaddress.ip_address(data[0]))
        elif kind == 'NS' and name == self.origin:
            self.servers.append(name_of(data[0]))
        self.types.setdefault(name, Counter())[kind] += 1
        self.records.append(' '.join([f'{name}.', words[1], 'IN', kind, *data]))

    def check(self, ttl: str, name: str, kind: str, data: list[str]) -> None:
        """What is wrong with a record: the first of these."""
        if not re.fullmatch('[0-9]{1,10}', ttl) or int(ttl) >= 1 << 31:
            raise ValueError(f'no TTL: {ttl}')
        # (The operator's own names may have labels such as `_dmarc`.)
        if fault := fault_of(name, underscores=True):
            raise ValueError(fault)
        if not is_below(name, self.origin):
            raise ValueError(f'not in {self.origin}')
        if not re.fullmatch('[A-Z][A-Z0-9]*', kind) or re.search(r'[()\\]', ' '.join(data)):
            raise ValueError('a type in small letters, parentheses or a backslash')
        if kind in SIGNERS_TYPES:
            raise ValueError(f'{kind}: it is for the signer')
        if kind in ('NS', 'CNAME', 'DNAME', 'MX') and not data[-1].endswith('.'):
            raise ValueError('a name without a dot at its end')
        is_first = name == self.origin and not self.records
        is_soa = is_first and len(data) == 7 and data[2] == 'SERIAL'
        if kind == 'SOA' and not (is_soa and data[0].endswith('.') and data[1].endswith('.')):
            raise ValueError('no SOA with SERIAL in the place of its serial')
        if kind in ('A', 'AAAA') and not is_address(data[0], 4 if kind == 'A' else 6):
            raise ValueError(f'no address: {data[0]}')

    def check_cut(self, name: str) -> None:
        """Z6: the file has a delegation at or above this one, or more than addresses below it."""
        for its, types in self.types.items():
            if its != self.origin and types['NS'] and is_below(name, its):
                raise Refused(f"Z6 {name}: {its} is delegated by the operator's file")
        for its, types in self.types.items():
            for other in sorted(set(types) - {'A', 'AAAA'}):
                if its != self.origin and is_below(its, name):
                    raise Refused(f"Z6 {name}: the operator's file has {other} at {its}")


def is_address(text: str, version: int) -> bool:
    try:
        return ipaddress.ip_address(text).version == version
    except ValueError:
        return False


# ---- the zone


def is_mirrored(row: dict[str, str]) -> bool:
    """Whether a name that is no domain has the servers of another one (RFC 9022 5.6.1.1)."""
    by_servers = row.get('mirroringNS', '').strip()
    return row.get('nameState') == 'mirrored' and by_servers in ('', 'true', '1')


class Settings(NamedTuple):
    """The TTL of delegations, whether names of servers may have `_`, and whether addresses that are
    below no delegation are written."""
    ttl: int = 3600
    has_underscores: bool = False
    has_orphan_glue: bool = True


class Zone:
    """What is delegated to which servers, and what is told."""

    def __init__(self, tables: dict[str, Table], text: str, origin: str, serial: int,
                 settings: Settings = Settings()) -> None:
        check_origin(origin, serial)
        self.origin, self.settings = origin, settings
        self.operator = Operator('apex', text, origin, serial)
        self.registry = Registry(tables)
        self.told: list[str] = []
        self.counts = Counter({it: 0 for it in COUNTED})
        self.delegations: dict[str, list[str]] = {}
        self.secured: dict[str, list[Ds]] = {}
        # The servers in the zone that are written, and the first name that has each.
        self.used = {it: origin for it in self.operator.servers
                     if is_below(it, origin) and it not in self.operator.addresses}

    # ---- what the registry says of a domain

    @cache
    def meanings(self, name: str) -> list[tuple[str, str, str | None]]:
        """The statuses of a domain: field, text, and which it is in whatever letters, if any."""
        found = []
        for row in self.registry.rows('domainStatuses', name):
            for field, known in (('status', STATUSES), ('rgpStatus', GRACE)):
                if text := row.get(field):
                    meant = (it for it in known if it.lower() == text.translate(LETTERS))
                    found.append((field, text, next(meant, None)))
        return found

    @cache
    def kept_out(self, name: str) -> str | None:
        """Which status keeps a domain out of the zone (RFC 5731 2.3, RFC 3915)."""
        statuses = {meant for field, _, meant in self.meanings(name) if field == 'status'}
        grace = {meant for field, _, meant in self.meanings(name) if field == 'rgpStatus'}
        if statuses & {'clientHold', 'serverHold'}:
            return 'held'
        return next((it for it in KEPT_OUT if it in statuses | grace), None)

    @cache
    def servers(self, name: str) -> list[str]:
        """The names of a domain's servers, each once."""
        rows = [*self.registry.rows('domainNs', name), *self.registry.rows('domainHostAttr', name)]
        return sorted({name_of(it['hostName']) for it in rows if it.get('hostName')})

    # ---- hosts

    def fault_of_server(self, host: str) -> str | None:
        """Why this is no name of a server, which must not look like an address."""
        if re.fullmatch('[0-9]+', host.split('.')[-1]):
            return 'it is an address'
        return fault_of(host, self.settings.has_underscores)

    def domain_of(self, host: str) -> str | None:
        """The nearest domain at or above a host in the zone."""
        names = [it for it in (host, *parents_of(host)) if it.endswith(f'.{self.origin}')]
        return next((it for it in names if it in self.registry.domains), None)

    @cached_property
    def noted(self) -> set[str]:
        """The servers in the zone of domains that their statuses and their names let in."""
        domains = [it for it in self.registry.domains if it.endswith(f'.{self.origin}')
                   and fault_of(it) is None and self.kept_out(it) is None]
        hosts = {host for it in domains for host in self.servers(it)}
        return {*self.used, *(it for it in hosts if is_below(it, self.origin)
                              and self.fault_of_server(it) is None)}

    @cache
    def address_rows(self, host: str) -> list[dict[str, str]]:
        """The rows that say a host's addresses: its own, or where it is no object those of the
        domain that it is in. Any other domain could lead it elsewhere (RFC 5732 3.2.1)."""
        if host in self.registry.hosts:
            check_once('host', host, self.registry.hosts[host])
            return self.registry.rows('hostAddresses', host)
        rows = self.registry.rows('domainHostAttr', self.domain_of(host) or '')
        return [it for it in rows if name_of(it.get('hostName', '')) == host and it.get('addr')]

    @cache
    def addresses(self, host: str) -> list[Address]:
        """The addresses of a host that are some, IPv4 first."""
        found = set()
        for row in self.address_rows(host):
            try:
                found.add(address_of(row.get('addr', '')))
            except ValueError:
                pass
        return sorted(found, key=lambda it: (it.version, int(it)))

    def has_address(self, host: str) -> bool:
        """Whether the zone has an address of a host."""
        is_written = self.settings.has_orphan_glue or self.cut(host) is not None
        return host in self.operator.addresses or bool(self.addresses(host)) and is_written

    # ---- cuts

    @cache
    def is_strong(self, name: str) -> bool:
        """Whether a name is let in and has a server outside of the zone, or with an address."""
        row = self.registry.nndns.get(name, {})
        if name not in self.registry.domains:
            original = name_of(row.get('originalName', ''))
            is_there = original in self.registry.domains
            return is_mirrored(row) and is_there and self.is_strong(original)
        if fault_of(name) or self.kept_out(name):
            return False
        return any(not is_below(it, self.origin) or it in self.operator.addresses
                   or bool(self.addresses(it))
                   for it in self.servers(name) if self.fault_of_server(it) is None)

    @cache
    def cut(self, name: str) -> str | None:
        """The cut at or above a name: the uppermost strong name of these."""
        names = [it for it in (name, *parents_of(name)) if it.endswith(f'.{self.origin}')]
        return next((it for it in reversed(names) if self.is_strong(it)), None)

    # ---- what is delegated

    def fault(self, name: str) -> str | None:
        """Why a name has no place in the zone."""
        if name == self.origin:
            return 'it is the zone itself'
        if not is_below(name, self.origin):
            return f'not below {self.origin}'
        if fault := fault_of(name):
            return fault
        above = self.cut(name)
        return f'below {above}, which is delegated' if above not in (None, name) else None

    def tell(self, line: str) -> None:
        self.told.append(control_spelled(line))

    def is_usable(self, name: str, host: str) -> bool:
        """Whether a domain's server is written (RFC 8499 7). One without an address is, where
        another domain's servers are asked for it."""
        fault, is_inside = self.fault_of_server(host), is_below(host, self.origin)
        if fault is None and is_inside and not self.has_address(host):
            cut = self.cut(host)
            if cut is not None and not is_below(cut, name):
                self.tell(f'server {name} {host}: has no address here, and is left to {cut}')
            else:
                fault = 'in the zone, and has no address'
        if fault:
            self.tell(f'server {name} {host}: left out: {fault}')
        elif is_inside:
            self.used.setdefault(host, name)
        return fault is None

    def secure(self, name: str) -> list[Ds]:
        """The DS of a domain: those that the registry has, or has keys of."""
        found = set()
        for row in self.registry.rows('secDNS', name):
            try:
                if any(it in row for it in DS_FIELDS):
                    found.add(ds_of_row(row))
                elif any(it in row for it in KEY_FIELDS):
                    found.add(ds_of_key(name, row))
                    self.counts['DS made of keys'] += 1
            except ValueError as error:
                self.tell(f'DS {name} left out: {error}')
        return sorted(found)

    def tell_statuses(self, name: str) -> None:
        for field, text, meant in self.meanings(name):
            if text != meant:
                said = f'taken for {meant}' if meant else 'is not known'
                self.tell(f'status {name} {field} {text} {said}')
        out = {'pendingDelete', 'pendingRestore', 'redemptionPeriod'}
        odd = sorted({it for field, _, it in self.meanings(name) if field == 'rgpStatus'} & out)
        is_pending = ('status', 'pendingDelete') in [(it[0], it[2]) for it in self.meanings(name)]
        if odd and not is_pending and self.kept_out(name) != 'held':
            self.tell(f'status {name} {" ".join(odd)} without pendingDelete')

    def domain(self, name: str) -> None:
        """Takes a domain: it is delegated, or what it is counted as."""
        self.tell_statuses(name)
        kept, servers = self.kept_out(name), self.servers(name)
        original = self.registry.domains[name].get('originalName')
        kept = kept or (None if servers else 'without servers')
        if kept == 'inactive' and servers:
            self.tell(f'left out {name} inactive, and has servers')
        if kept in ('inactive', 'without servers') and original and not servers:
            self.tell(f'left out {name} a variant of {original} without servers of its own')
        if kept is None and (fault := self.fault(name)):
            kept = 'no name of the zone'
            self.tell(f'left out {name} {fault}')
        if kept is None:
            servers = [it for it in servers if self.is_usable(name, it)]
            if not servers:
                kept = 'no server left'
                self.tell(f'left out {name} no server is left')
        if kept is None:
            self.operator.check_cut(name)
            self.delegations[name], self.secured[name] = servers, self.secure(name)
        self.counts[kept or 'delegated'] += 1
        self.tell_foreign(name)

    def tell_foreign(self, name: str) -> None:
        """Tells of addresses that a domain says of servers in another one."""
        for row in self.registry.rows('domainHostAttr', name):
            host = name_of(row.get('hostName', ''))
            if 'addr' in row and host in self.noted and self.domain_of(host) != name:
                self.tell(f'address {host} {row["addr"]}: {name} says it, which is not the domain '
                          'that it is in')

    def mirror(self, name: str) -> None:
        """Takes a name that is mirrored: it has the servers of its original."""
        row = self.registry.nndns[name]
        self.counts['mirrored'] += 1
        original = name_of(row.get('originalName', ''))
        if name in self.registry.domains:
            fault = 'it is a domain too'
        elif not is_mirrored(row):
            fault = ('mirrored in another way than by name servers: mirroringNS is '
                     f'{row["mirroringNS"]}')
        elif not original:
            fault = 'mirrored without originalName'
        elif original not in self.registry.domains:
            fault = f'its original {original} is no domain'
        else:
            fault = self.fault(name)
        if fault:
            self.tell(f'left out {name} {fault}')
        elif original in self.delegations:
            self.counts['mirrored and delegated'] += 1
            self.operator.check_cut(name)
            self.delegations[name] = self.delegations[original]

    # ---- glue

    def tell_addresses(self, host: str) -> None:
        for row in self.address_rows(host):
            text, declared = row.get('addr', ''), row.get('addrVersion')
            try:
                version = f'v{address_of(text).version}'
            except ValueError as error:
                self.tell(f'address {host} {text}: {error}')
            else:
                if version != (declared or 'v4'):
                    self.tell(f'address {host} {text}: is {version}, declared '
                              f'{declared or "v4 (none)"}')

    def glue_of(self, host: str) -> list[Address]:
        """Takes a server in the zone: the addresses that are written, if it is in use."""
        self.tell_addresses(host)
        if host not in self.used:
            return []
        addresses, own = self.addresses(host), self.operator.addresses.get(host)
        if own is not None:
            if host in self.registry.hosts and set(addresses) != own:
                self.tell(f"address {host} the operator's file has others, which are taken")
            return []
        if addresses and self.cut(host) is None:
            self.tell(f'glue {host} below no delegation; {self.used[host]} uses it')
            self.counts['orphan glue hosts'] += 1
        self.counts['addresses'] += len(addresses)
        return addresses

    # ---- all of it

    @cached_property
    def glue(self) -> dict[str, list[Address]]:
        """Takes all objects: gives the addresses that are written, by host."""
        registry = self.registry
        for name in sorted(registry.domains, key=str.encode):
            self.domain(name)
        self.counts['domains'] = len(registry.domains)
        for name in sorted(registry.nndns, key=str.encode):
            if registry.nndns[name].get('nameState') == 'mirrored':
                self.mirror(name)
        for host, user in self.used.items():
            if user == self.origin and not self.addresses(host):
                raise Refused(f"Z3 the zone's own server {host} has no address")
        if registry.domains and not self.counts['delegated']:
            raise Refused('Z7 no domain is delegated')
        return {host: self.glue_of(host) for host in sorted(self.noted)}

    @cached_property
    def records(self) -> list[str]:
        """The lines of the zone."""
        lines, glue, ttl = list(self.operator.records), self.glue, self.settings.ttl
        for name, servers in self.delegations.items():
            lines += [f'{name}. {ttl} IN NS {it}.' for it in servers]
            lines += [f'{name}. {ttl} IN DS {it}' for it in self.secured.get(name, ())]
        for host, addresses in glue.items():
            lines += [f'{host}. {ttl} IN {"A" if it.version == 4 else "AAAA"} {it}'
                      for it in addresses]
        self.counts['DS'] = sum(map(len, self.secured.values()))
        self.counts['records'] = len(lines)
        return lines


def check_origin(origin: str, serial: int) -> None:
    if origin != name_of(origin):
        raise Refused(f'Z1 {origin}: not in small letters, or with a dot at its end')
    if fault := fault_of(origin):
        raise Refused(f'Z1 {origin}: {fault}')
    if not 0 < serial < 1 << 32:
        raise Refused('Z2 the serial is not from 1 to 4294967295')


def unsigned_line(origin: str) -> str:
    """What is told last of each zone, which has no signatures (RFC 4035 4.3)."""
    return (f'unsigned {origin} while the root has its old DS, validating resolvers refuse this '
            'zone, also newly signed: have the DS replaced or removed, and wait its TTL, before '
            'the NS change')

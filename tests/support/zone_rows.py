"""Worked registries of the TLD `example`, with the zone of each, by hand: what `handover zone` has
to make of them, and the plain model too.

A registry has the domain `0.example` beside its own objects, so that there always is a zone. Of the
zone's lines those stand here that come after the operator's and those of `0.example`: `a NS b.net`
is `a.example. 3600 IN NS b.net.`"""
from typing import NamedTuple

from tests.support.bundles import Header
from tests.support.bundles import Table
from tests.support.bundles import deposit
from tests.support.documents import KEYS
from tests.support.documents import csv_text
from tests.support.tables import Row
from tests.support.zones import DS_FIELDS
from tests.support.zones import KEY_FIELDS
from tests.support.zones import Settings
from tests.support.zones import tables_of

SERIAL = 2024030401
OUT1, OUT2 = 'ns1.provider.net', 'ns2.provider.net'
SOA = 'example. 3600 IN SOA a.nic.example. hostmaster.nic.example. SERIAL 1800 900 604800 900\n'
NS = f'example. 3600 IN NS {OUT1}.\n'
HEADER = Header('F1', 'FULL', '2024-03-03T00:00:00Z')
CHILD_KINDS = {'domainNs': 'domain', 'domainHostAttr': 'domain', 'domainStatuses': 'domain',
               'secDNS': 'domain', 'dnssec': 'domain', 'hostAddresses': 'host'}
# RFC 4034 5.4 has a key and its DS with SHA-1, RFC 4509 2.3 its DS with SHA-256.
RFC_KEY = {'flags': '256', 'protocol': '3', 'keyAlg': '5', 'pubKey':
           'AQOeiiR0GOMYkDshWoSKz9XzfwJr1AYtsmx3TGkJaNXVbfi/2pHm822aJ5iI9BMzNXxeYCmZDRD99WYwYqUSdj'
           'MmmAphXdvxegXd/M5+X7OrzKBaMbCVdFLUUh6DhweJBjEVv5f2wwjM9XzcnOf+EPbtG9DMBmADjFDc2w/rljwv'
           'Fw=='}
RFC_DS = '60485 5 1 2BB183AF5F22588179A53B0A98631FAD1A292118'
RFC_DS_256 = '60485 5 2 D4B7D520E7BB5F0F67674A0CCEB1E3E0614B93C4F9E99B8383F6A1E4469DA50A'


# ---- objects


def below(name: str, origin: str = 'example') -> str:
    """A name of the zone: all of it where it has a dot at its end, else with the TLD added."""
    return name[:-1] if name.endswith('.') else f'{name}.{origin}'


def domain(name: str, *servers: str, status: str = '', rgp: str = '',
           more: tuple[Row, ...] = (), **cells: str) -> list[Row]:
    """A domain with these servers and statuses, and with further rows."""
    return [('domain', {'name': below(name), **cells}),
            *(('domainStatuses', {'status': it, 'rgpStatus': ''}) for it in status.split()),
            *(('domainStatuses', {'status': '', 'rgpStatus': it}) for it in rgp.split()),
            *(('domainNs', {'hostName': it}) for it in servers), *more]


def attribute(host: str, *addresses: str) -> tuple[Row, ...]:
    """The rows of a server that is an attribute of its domain, with addresses."""
    return tuple(('domainHostAttr', {'hostName': host, **address(it)}) for it in addresses or ('',))


def address(text: str) -> dict[str, str]:
    return {'addr': text, 'addrVersion': 'v6' if ':' in text else 'v4' if text else ''}


def host(name: str, *addresses: str) -> list[Row]:
    return [('host', {'name': below(name)}), *(('hostAddresses', address(it)) for it in addresses)]


def mirrored(name: str, original: str = '', **cells: str) -> list[Row]:
    return [('nndn', {'aName': below(name), 'nameState': 'mirrored', 'originalName': original,
                      **cells})]


def ds(text: str) -> tuple[Row, ...]:
    return (('secDNS', dict(zip(DS_FIELDS, text.split()))),)


def key(**cells: str) -> tuple[Row, ...]:
    return (('secDNS', {**dict.fromkeys(KEY_FIELDS, ''), **RFC_KEY, **cells}),)


ZERO = domain('0', OUT1)


def full_of(objects: list[list[Row]], header: Header = HEADER) -> bytes:
    """The bundle of a Full with these objects: each table has all fields that its rows have."""
    tables = []
    for name, (fields, rows) in tables_of(objects).items():
        kind = CHILD_KINDS.get(name, name)
        own = KEYS[kind]
        lines = [[row.get(own, ''), *(row.get(it, '') for it in fields if it != own)]
                 for its in rows.values() for row in its]
        tables.append(Table(name, kind, 'child' if name in CHILD_KINDS else 'parent',
                            (own, *(it for it in fields if it != own)), csv_text(lines, ',')))
    return deposit(header, tables)


class Worked(NamedTuple):
    """A registry, the lines of its zone, and what is told, or the refusal."""
    title: str
    objects: list[list[Row]]
    zone: str = ''
    told: str = ''
    refusal: str = ''
    apex: str = SOA + NS
    origin: str = 'example'
    flags: str = ''

    def settings(self) -> Settings:
        return Settings(86400 if '--day' in self.flags else 3600, '--underscores' in self.flags,
                        '--no-orphan-glue' not in self.flags)

    def records(self) -> list[str]:
        """The lines of the zone."""
        own = [it.replace('SERIAL', str(SERIAL)) for it in self.apex.splitlines()
               if it[:1] not in ';']
        zero = f'0 NS {OUT1}' if ZERO in self.objects else ''
        found = []
        for line in filter(None, [zero, *self.zone.splitlines()]):
            name, kind, data = line.strip().split(' ', 2)
            dot = '.' if kind == 'NS' else ''
            ttl = self.settings().ttl
            found.append(f'{below(name, self.origin)}. {ttl} IN {kind} {data}{dot}')
        return own + found

    def lines(self) -> list[str]:
        """The lines that are told."""
        return [it.strip() for it in self.told.splitlines() if it.strip()]


def worked(title: str, *objects: list[Row], **more: str) -> Worked:
    return Worked(title, [ZERO, *objects], **more)


def alone(title: str, *objects: list[Row], **more: str) -> Worked:
    """The same without the domain `0.example`."""
    return Worked(title, list(objects), **more)


# ---- the rows

HELD = domain('held', 'ns1.held.example', status='serverHold')
HELD_HOST = host('ns1.held', '192.0.2.7')
DIGEST = '0011223344556677889900112233445566778899001122334455667788990011'
LONG = 'l' * 63

WORKED = (
    # ---- names
    worked('servers stand once, in small letters and by their bytes',
           domain('A', OUT2, 'NS1.provider.NET', f'{OUT1}.', 'a.net'),
           zone=f'a NS a.net\na NS {OUT1}\na NS {OUT2}'),
    worked('domains stand by the bytes of their keys', domain('b', OUT1), domain('a-b', OUT1),
           domain('a1', OUT1), domain('a', OUT1),
           zone=f'a-b NS {OUT1}\na NS {OUT1}\na1 NS {OUT1}\nb NS {OUT1}'),
    worked('a domain that is not below the TLD, or is the TLD',
           domain('other.org.', OUT1), domain('example.', OUT1), domain('badexample.', OUT1),
           told="""left out badexample not below example
           left out example it is the zone itself
           left out other.org not below example"""),
    worked('a domain below another one that is delegated', domain('x.a', OUT1), domain('a', OUT1),
           domain('y.x.a', OUT1), domain('third.level', OUT1),
           zone=f'a NS {OUT1}\nthird.level NS {OUT1}',
           told="""left out x.a.example below a.example, which is delegated
           left out y.x.a.example below a.example, which is delegated"""),
    worked('a domain below another one that is held', HELD, domain('x.held', OUT1),
           zone=f'x.held NS {OUT1}'),
    worked('labels that are none of a host name',
           domain('_srv', OUT1), domain('*', OUT1), domain('-a', OUT1), domain('a-', OUT1),
           domain('a..b', OUT1), domain('$ttl', OUT1), domain('@', OUT1), domain('a;b', OUT1),
           domain('a"b', OUT1), domain(f'{LONG}l', OUT1), domain(LONG, OUT1),
           domain('bücher', OUT1), domain('xn--bcher-kva', OUT1),
           zone=f'{LONG} NS {OUT1}\nxn--bcher-kva NS {OUT1}',
           told=f"""left out $ttl.example no label of letters, digits and hyphens: $ttl
           left out *.example a wildcard
           left out -a.example no label of letters, digits and hyphens: -a
           left out @.example no label of letters, digits and hyphens: @
           left out _srv.example no label of letters, digits and hyphens: _srv
           left out a"b.example no label of letters, digits and hyphens: a"b
           left out a-.example no label of letters, digits and hyphens: a-
           left out a..b.example an empty label
           left out a;b.example no label of letters, digits and hyphens: a;b
           left out bücher.example not ASCII: a U-label?
           left out {LONG}l.example a label over 63 bytes"""),
    worked('the longest name, and one that is longer',
           domain('.'.join([LONG, LONG, LONG, 'l' * 53]), OUT1),
           domain('.'.join([LONG, LONG, LONG, 'l' * 54]), OUT1),
           zone=f'{LONG}.{LONG}.{LONG}.{"l" * 53} NS {OUT1}',
           told=f'left out {LONG}.{LONG}.{LONG}.{"l" * 54}.example over 255 bytes on the wire'),
    worked('servers whose names are none', domain('b', '*.b.net'),
           domain('a', 'ns-.b.net', '192.0.2.1', 'bücher.net', OUT1), zone=f'a NS {OUT1}',
           told="""server a.example 192.0.2.1: left out: it is an address
           server a.example bücher.net: left out: not ASCII: a U-label?
           server a.example ns-.b.net: left out: no label of letters, digits and hyphens: ns-
           server b.example *.b.net: left out: a wildcard
           left out b.example no server is left"""),
    worked('a name with a line end in it', domain('a\nb', OUT1),
           told='left out a\\nb.example no label of letters, digits and hyphens: a\\nb'),
    # ---- statuses
    worked('held domains', HELD, domain('a', OUT1, status='ok clientHold'),
           domain('b', OUT1, status='inactive serverHold'),
           domain('c', OUT1, status='clientTransferProhibited'), zone=f'c NS {OUT1}'),
    worked('domains in a state without delegation',
           domain('a', OUT1, status='pendingCreate'),
           domain('b', OUT1, status='pendingDelete', rgp='redemptionPeriod'),
           domain('c', OUT1, status='pendingDelete', rgp='pendingDelete'),
           domain('d', OUT1, status='pendingDelete', rgp='pendingRestore'),
           domain('e', OUT1, status='pendingDelete'), domain('f', status='inactive'),
           domain('g', status='ok'), domain('h', OUT1, status='inactive'),
           domain('i', OUT1, status='ok', rgp='addPeriod'),
           domain('j', OUT1, status='ok', exDate='2020-01-01T00:00:00Z'),
           zone=f'i NS {OUT1}\nj NS {OUT1}', told='left out h.example inactive, and has servers'),
    worked('a grace period that its status does not go with',
           domain('a', OUT1, status='ok', rgp='redemptionPeriod'),
           domain('b', OUT1, status='clientHold', rgp='pendingRestore'),
           told='status a.example redemptionPeriod without pendingDelete'),
    worked('statuses in other letters, and unknown ones',
           domain('a', OUT1, status='clienthold'), domain('b', OUT1, status='ok strange'),
           domain('c', OUT1, status='pendingdelete', rgp='RedemptionPeriod'),
           zone=f'b NS {OUT1}',
           told="""status a.example status clienthold taken for clientHold
           status b.example status strange is not known
           status c.example status pendingdelete taken for pendingDelete
           status c.example rgpStatus RedemptionPeriod taken for redemptionPeriod"""),
    worked('a variant without servers', domain('a', OUT1),
           domain('b', originalName='a.example', status='inactive'),
           domain('c', OUT1, originalName='a.example'),
           zone=f'a NS {OUT1}\nc NS {OUT1}',
           told='left out b.example a variant of a.example without servers of its own'),
    # ---- servers in the zone, and glue
    worked('the addresses of servers in the zone, and of no others',
           domain('a', 'ns1.a.example', OUT1), domain('b', 'ns1.a.example'),
           host(f'{OUT1}.', '192.0.2.9'), host('ns2.a', '192.0.2.11'),
           host('ns1.a', '2001:DB8::0001', '192.0.2.10', '192.0.2.9', '2001:db8:0:0:1:0:0:1'),
           zone=f"""a NS ns1.a.example\na NS {OUT1}\nb NS ns1.a.example
           ns1.a A 192.0.2.9\nns1.a A 192.0.2.10
           ns1.a AAAA 2001:db8::1\nns1.a AAAA 2001:db8::1:0:0:1"""),
    worked('a domain is its own server', domain('a', 'a.example'), host('a', '192.0.2.9'),
           zone='a NS a.example\na A 192.0.2.9'),
    worked('a server in the zone without an address', domain('a', 'ns1.a.example', OUT1),
           domain('b', 'ns1.b.example'), domain('c', 'ns1.none.example', OUT1), host('ns1.a'),
           zone=f'a NS {OUT1}\nc NS {OUT1}',
           told="""server a.example ns1.a.example: left out: in the zone, and has no address
           server b.example ns1.b.example: left out: in the zone, and has no address
           left out b.example no server is left
           server c.example ns1.none.example: left out: in the zone, and has no address"""),
    worked('a server below another domain is left to that, where it is delegated',
           domain('a', OUT1), domain('b', 'ns1.a.example'),
           domain('c', 'ns1.held.example', OUT1), HELD,
           zone=f'a NS {OUT1}\nb NS ns1.a.example\nc NS {OUT1}',
           told="""server b.example ns1.a.example: has no address here, and is left to a.example
           server c.example ns1.held.example: left out: in the zone, and has no address"""),
    worked('the addresses of a server below a held domain', HELD, HELD_HOST,
           domain('a', 'ns1.held.example'),
           zone='a NS ns1.held.example\nns1.held A 192.0.2.7',
           told='glue ns1.held.example below no delegation; a.example uses it'),
    worked('the addresses of a server of held domains alone are left out', HELD, HELD_HOST),
    worked('the addresses of a server that is no object are those of its own domain',
           domain('a', more=attribute('ns1.a.example', '192.0.2.1', '2001:db8::1')),
           domain('b', more=attribute('ns1.a.example', '192.0.2.6') + attribute(OUT1, '192.0.2.7')),
           domain('c', more=attribute('ns1.c.example') + attribute(OUT1)),
           zone=f"""a NS ns1.a.example\nb NS ns1.a.example\nb NS {OUT1}\nc NS {OUT1}
           ns1.a A 192.0.2.1\nns1.a AAAA 2001:db8::1""",
           told="""
           address ns1.a.example 192.0.2.6: b.example says it, which is not the domain that it is in
           server c.example ns1.c.example: left out: in the zone, and has no address"""),
    worked('the addresses of an object are its own', host('ns1.a', '192.0.2.1'),
           domain('a', more=attribute('ns1.a.example', '192.0.2.66')),
           zone='a NS ns1.a.example\nns1.a A 192.0.2.1'),
    worked('a host in a deeper domain has its addresses',
           domain('a', more=attribute('n.b.a.example', '192.0.2.6') + attribute(OUT1)),
           domain('b.a', more=attribute('n.b.a.example', '192.0.2.1')),
           zone=f'a NS n.b.a.example\na NS {OUT1}\nn.b.a A 192.0.2.1',
           told="""
           address n.b.a.example 192.0.2.6: a.example says it, which is not the domain that it is in
           left out b.a.example below a.example, which is delegated"""),
    worked('texts that are no addresses of servers', domain('a', 'ns1.a.example'),
           host('ns1.a', '192.000.002.001', '127.0.0.1', '0.0.0.0', '169.254.0.1', '224.0.0.1',
                '::', '::1', 'fe80::1', 'fe80::1%eth0', 'ff02::1', '::ffff:192.0.2.1', '192.0.2',
                'x', '192.0.2.1'),
           zone='a NS ns1.a.example\nns1.a A 192.0.2.1',
           told="""address ns1.a.example 192.000.002.001: no address
           address ns1.a.example 127.0.0.1: an address of no server
           address ns1.a.example 0.0.0.0: an address of no server
           address ns1.a.example 169.254.0.1: an address of no server
           address ns1.a.example 224.0.0.1: an address of no server
           address ns1.a.example ::: an address of no server
           address ns1.a.example ::1: an address of no server
           address ns1.a.example fe80::1: an address of no server
           address ns1.a.example fe80::1%eth0: no address
           address ns1.a.example ff02::1: an address of no server
           address ns1.a.example ::ffff:192.0.2.1: an address of no server
           address ns1.a.example 192.0.2: no address
           address ns1.a.example x: no address"""),
    worked('an address of another version than declared', domain('a', 'ns1.a.example'),
           [*host('ns1.a'), ('hostAddresses', {'addr': '2001:db8::1', 'addrVersion': 'v4'}),
            ('hostAddresses', {'addr': '2001:db8::2', 'addrVersion': ''}),
            ('hostAddresses', {'addr': '192.0.2.1', 'addrVersion': 'v6'}),
            ('hostAddresses', {'addr': '192.0.2.2', 'addrVersion': ''})],
           zone="""a NS ns1.a.example\nns1.a A 192.0.2.1\nns1.a A 192.0.2.2
           ns1.a AAAA 2001:db8::1\nns1.a AAAA 2001:db8::2""",
           told="""address ns1.a.example 2001:db8::1: is v6, declared v4
           address ns1.a.example 2001:db8::2: is v6, declared v4 (none)
           address ns1.a.example 192.0.2.1: is v4, declared v6"""),
    # ---- DNSSEC
    worked('DS stand by their numbers, each once',
           domain('a', OUT1, more=ds(f'5 13 2 {DIGEST}') + ds(f'00005 8 2 {DIGEST[::-1]}')
                  + ds(RFC_DS) + ds(f'5 13 2 {DIGEST}') + ds(f'6 13 4 {"aB" * 48}')),
           zone=f"""a NS {OUT1}\na DS 5 8 2 {DIGEST[::-1]}\na DS 5 13 2 {DIGEST}
           a DS 6 13 4 {"AB" * 48}\na DS {RFC_DS}"""),
    worked('DS that are none',
           domain('a', OUT1, more=ds('5 13 2 0011') + ds(f'5 0 2 {DIGEST}') + ds(f'5 13 3 {DIGEST}')
                  + ds(f'65536 13 2 {DIGEST}') + ds(f'5 13 2 {"x" * 64}')
                  + ds(f'5 256 2 {DIGEST}')),
           zone=f'a NS {OUT1}',
           told=f"""DS a.example left out: no digest of 32 bytes: 0011
           DS a.example left out: algorithm 0, digest type 2
           DS a.example left out: algorithm 13, digest type 3
           DS a.example left out: no number up to 65535: 65536
           DS a.example left out: no digest of 32 bytes: {"x" * 64}
           DS a.example left out: no number up to 255: 256"""),
    worked('DS stand where NS do', domain('a', OUT1, status='clientHold', more=ds(RFC_DS)),
           domain('b', more=ds(RFC_DS)), domain('c', 'ns1.c.example', more=ds(RFC_DS)),
           told="""server c.example ns1.c.example: left out: in the zone, and has no address
           left out c.example no server is left"""),
    alone('the DS of a key is computed', domain('dskey.example.com.', OUT1, more=key()),
          zone=f'dskey NS {OUT1}\ndskey DS {RFC_DS_256}', origin='example.com',
          apex=SOA.replace('example.', 'example.com.', 1) + f'example.com. 60 IN NS {OUT1}.\n'),
    worked('the key of a DS is not used',
           domain('a', OUT1, more=(('secDNS', {**ds(RFC_DS)[0][1], **key(flags='0')[0][1]}),)),
           zone=f'a NS {OUT1}\na DS {RFC_DS}'),
    worked('keys that are none of a zone',
           domain('a', OUT1, more=key(flags='0') + key(flags='384') + key(protocol='2')
                  + key(keyAlg='0') + key(pubKey='%') + key(flags='x')),
           zone=f'a NS {OUT1}',
           told="""DS a.example left out: no zone key, or a revoked one: flags 0
           DS a.example left out: no zone key, or a revoked one: flags 384
           DS a.example left out: no key of DNSSEC: protocol 2, algorithm 5
           DS a.example left out: no key of DNSSEC: protocol 3, algorithm 0
           DS a.example left out: a public key that is no base64
           DS a.example left out: no number up to 65535: x"""),
    # ---- names that are no domains
    worked('mirrored names have the servers of their original, and no DS',
           domain('a', OUT1, 'ns1.a.example', more=ds(RFC_DS)), host('ns1.a', '192.0.2.1'),
           mirrored('m', 'A.example'), mirrored('l', 'a.example', mirroringNS='true'),
           zone=f"""a NS ns1.a.example\na NS {OUT1}\na DS {RFC_DS}\nl NS ns1.a.example\nl NS {OUT1}
           m NS ns1.a.example\nm NS {OUT1}\nns1.a A 192.0.2.1"""),
    worked('names that are no domains and are not mirrored, or not so', domain('a', OUT1), HELD,
           mirrored('b', 'a.example', mirroringNS='false'), mirrored('c'),
           mirrored('d', 'none.example'), mirrored('a', '0.example'), mirrored('e', 'held.example'),
           mirrored('x.a', '0.example'), mirrored('_f', 'a.example'),
           mirrored('g.org.', 'a.example'),
           mirrored('h', 'a.example', nameState='blocked'),
           mirrored('i', 'a.example', nameState='withheld'),
           zone=f'a NS {OUT1}',
           told="""left out _f.example no label of letters, digits and hyphens: _f
           left out a.example it is a domain too
           left out b.example mirrored in another way than by name servers: mirroringNS is false
           left out c.example mirrored without originalName
           left out d.example its original none.example is no domain
           left out g.org not below example
           left out x.a.example below a.example, which is delegated"""),
    # ---- the operator's file
    worked("the operator's records stand first, as they are", domain('a', OUT1),
           zone=f'a NS {OUT1}',
           apex=f'; own\n\n{SOA}{NS}example. 300 IN TXT "one two"\nw.example. 60 IN A 192.0.2.8\n'),
    worked("the operator's servers in the zone have the file's addresses, or the host's",
           host('a.nic', '192.0.2.1'), host('b.nic', '192.0.2.2'), domain('nic', 'a.nic.example'),
           zone='nic NS a.nic.example\nb.nic A 192.0.2.2',
           told="address a.nic.example the operator's file has others, which are taken",
           apex=f"""{SOA}{NS}example. 3600 IN NS a.nic.example.
example. 3600 IN NS b.nic.example.
a.nic.example. 3600 IN A 192.0.2.53
"""),
    # ---- flags
    worked('a TTL of a day', domain('a', 'ns1.a.example'), host('ns1.a', '192.0.2.1'),
           zone='a NS ns1.a.example\nns1.a A 192.0.2.1', flags='--day'),
    worked('servers with underscores', domain('a', 'ns_1.b.net', '_a.b-_.net', '-a.net'),
           domain('_b', OUT1), zone='a NS _a.b-_.net\na NS ns_1.b.net', flags='--underscores',
           told="""left out _b.example no label of letters, digits and hyphens: _b
           server a.example -a.net: left out: no label of letters, digits and hyphens: -a"""),
    worked('no addresses below no delegation', HELD, HELD_HOST,
           domain('a', 'ns1.held.example', OUT1), domain('b', 'ns1.held.example'),
           zone=f'a NS {OUT1}', flags='--no-orphan-glue',
           told="""server a.example ns1.held.example: left out: in the zone, and has no address
           server b.example ns1.held.example: left out: in the zone, and has no address
           left out b.example no server is left"""),
    # ---- refusals
    worked('an origin that is none', origin='e_x',
           refusal='Z1 e_x: no label of letters, digits and hyphens: e_x'),
    worked('an origin in other letters', origin='Example',
           refusal='Z1 Example: not in small letters, or with a dot at its end'),
    worked('no record', apex=f'{SOA}{NS}example. 3600 NS x.\n',
           refusal='Z3 apex line 3: not NAME. TTL IN TYPE DATA on one line'),
    worked('no TTL', apex=f'{SOA}{NS}example. 1h IN TXT x\n', refusal='Z3 apex line 3: no TTL: 1h'),
    worked('a name of another zone', apex=f'{SOA}{NS}\nother. 60 IN TXT x\n',
           refusal='Z3 apex line 4: not in example'),
    worked('a wildcard', apex=f'{SOA}{NS}*.example. 60 IN TXT x\n',
           refusal='Z3 apex line 3: a wildcard'),
    worked('a record of the signer', apex=f'{SOA}{NS}example. 60 IN DNSKEY 257 3 13 AwEA\n',
           refusal='Z3 apex line 3: DNSKEY: it is for the signer'),
    worked('a type in small letters', apex=f'{SOA}{NS}example. 60 IN txt x\n',
           refusal='Z3 apex line 3: a type in small letters, parentheses or a backslash'),
    worked('a file in other letters than ASCII', apex=f'{SOA}{NS}example. 60 IN TXT é\n',
           refusal='Z3 apex: not ASCII'),
    worked('a server without a dot', apex=f'{SOA}{NS}example. 60 IN NS a\n',
           refusal='Z3 apex line 3: a name without a dot at its end'),
    worked('an SOA with a serial', apex=SOA.replace('SERIAL', '7') + NS,
           refusal='Z3 apex line 1: no SOA with SERIAL in the place of its serial'),
    worked('an address that is none', apex=f'{SOA}{NS}www.example. 60 IN A 192.0.2\n',
           refusal='Z3 apex line 3: no address: 192.0.2'),
    worked('an SOA that is not first', apex=NS + SOA,
           refusal='Z3 apex line 2: no SOA with SERIAL in the place of its serial'),
    worked('two SOA', apex=SOA + SOA + NS,
           refusal='Z3 apex line 2: no SOA with SERIAL in the place of its serial'),
    worked('no SOA', apex=NS,
           refusal='Z3 apex: no zone begins so: one SOA, first; NS; no CNAME or DNAME at example'),
    worked('no NS', apex=SOA,
           refusal='Z3 apex: no zone begins so: one SOA, first; NS; no CNAME or DNAME at example'),
    worked('a DNAME at the apex', apex=f'{SOA}{NS}example. 60 IN DNAME other.\n',
           refusal='Z3 apex: no zone begins so: one SOA, first; NS; no CNAME or DNAME at example'),
    worked('an own server without an address', apex=f'{SOA}example. 60 IN NS a.nic.example.\n',
           refusal="Z3 the zone's own server a.nic.example has no address"),
    worked('a table under another name', [*domain('a', OUT1), ('dnssec', dict(ds(RFC_DS)[0][1]))],
           refusal='Z4 dnssec looks like secDNS'),
    worked('a field under another name', domain('a', OUT1, more=(('secDNS', {
        'fKeyTag': '1', 'dsAlg': '13', 'digestType': '2', 'digest': DIGEST}),)),
           refusal='Z4 secDNS fKeyTag looks like keyTag'),
    worked('a DS of which a part is missing',
           domain('a', OUT1, more=(('secDNS', {'keyTag': '1', 'dsAlg': '8', 'digest': 'AB'}),)),
           refusal='Z4 secDNS lacks digestType'),
    worked('neither DS nor keys', domain('a', OUT1, more=(('secDNS', {'maxSigLife': '1'}),)),
           refusal='Z4 secDNS lacks keyTag and pubKey'),
    worked('a field that is missing', [*host('ns1.a'), ('hostAddresses', {'address': '192.0.2.1'})],
           refusal='Z4 hostAddresses lacks addr'),
    worked('two hosts with one name', domain('a', 'ns1.a.example'), host('ns1.a', '192.0.2.1'),
           host('NS1.a.example..', '192.0.2.2'),
           refusal='Z5 host ns1.a.example: two objects have this name'),
    worked('two domains with one name', domain('a', OUT1), domain('A.example..', OUT1),
           refusal='Z5 domain a.example: two objects have this name'),
    worked("a delegation of the operator's", domain('a', OUT1), domain('x.b', OUT1),
           apex=f'{SOA}{NS}b.example. 60 IN NS ns.other.\n',
           refusal="Z6 x.b.example: b.example is delegated by the operator's file"),
    worked("a record of the operator's at a delegation", domain('a', OUT1),
           apex=f'{SOA}{NS}a.example. 60 IN TXT x\n',
           refusal="Z6 a.example: the operator's file has TXT at a.example"),
    worked("a record of the operator's below a delegation", domain('a', OUT1),
           apex=f'{SOA}{NS}www.a.example. 60 IN CNAME x.\n',
           refusal="Z6 a.example: the operator's file has CNAME at www.a.example"),
    alone('no domain at all', host('ns1.a', '192.0.2.1')),
    alone('nothing is delegated', HELD, domain('a', status='ok'),
          refusal='Z7 no domain is delegated'),
)

"""Registries of the TLD `example` at random, for zones: most domains are ordinary, and a part has
what a zone leaves out, tells or takes from elsewhere."""
import random
from collections.abc import Sequence
from typing import TypeVar

from tests.support.tables import Row
from tests.support.zone_rows import OUT1
from tests.support.zone_rows import OUT2
from tests.support.zone_rows import RFC_DS
from tests.support.zone_rows import ZERO
from tests.support.zone_rows import attribute
from tests.support.zone_rows import domain
from tests.support.zone_rows import ds
from tests.support.zone_rows import host
from tests.support.zone_rows import key
from tests.support.zone_rows import mirrored

It = TypeVar('It')
OUTSIDE = (OUT1, OUT2, 'NS3.Provider.NET', 'dns.other.org.', 'a.b.c.test')
ODD_LABELS = ('_srv{}', '*', '-a{}', 'a{}-', 'a..b{}', '$ttl{}', '@', 'a;b{}', 'bücher{}', 'A{}')
ODD_SERVERS = ('ns_1.b.net', '192.0.2.1', 'bücher.net', '*.b.net', 'a..net')
ODD_ADDRESSES = ('192.000.002.001', '127.0.0.1', 'fe80::1%eth0', '::ffff:192.0.2.1', 'none',
                 'ff02::1')
STATES = (('clientHold', ''), ('serverHold clientTransferProhibited', ''), ('pendingCreate', ''),
          ('pendingDelete', 'redemptionPeriod'), ('pendingDelete', 'pendingDelete'),
          ('inactive', ''), ('pendingDelete', ''), ('ok', 'redemptionPeriod'), ('clienthold', ''),
          ('strange', ''))
ORDINARY = (('ok', ''), ('clientTransferProhibited serverUpdateProhibited', ''), ('', ''),
            ('ok', 'addPeriod'), ('pendingTransfer', ''))


class Maker:
    """Makes domains, hosts and other names: of these a share is odd."""

    def __init__(self, seed: int, count: int, odd: float) -> None:
        self.random, self.count, self.odd = random.Random(seed), count, odd
        self.labels = [f'd{at}' for at in range(count)]
        self.objects: list[list[Row]] = [ZERO]
        self.names: set[str] = {'0.example'}

    def chance(self, share: float) -> bool:
        return self.random.random() < share

    def pick(self, of: Sequence[It]) -> It:
        return self.random.choice(of)

    def add(self, rows: list[Row]) -> None:
        """Adds an object, if its name is a new one."""
        kind, cells = rows[0]
        name = f'{kind} {next(iter(cells.values())).lower()}'
        if name not in self.names:
            self.names.add(name)
            self.objects.append(rows)

    def address(self) -> str:
        if self.chance(self.odd):
            return self.pick(ODD_ADDRESSES)
        last = self.random.randint(1, 250)
        return self.pick((f'192.0.2.{last}', f'198.51.100.{last}', f'2001:DB8:0:0:{last:x}::1',
                          f'2001:db8::{last:x}'))

    def addresses(self) -> list[str]:
        return [self.address() for _ in range(self.pick((0, 1, 1, 1, 2, 3)))]

    def host_of(self, label: str) -> str:
        return f'{self.pick(("ns1", "ns2", "Ns1", "a.b"))}.{label}.example'

    def server(self, label: str) -> str:
        if self.chance(self.odd):
            return self.pick(ODD_SERVERS)
        share = self.random.random()
        if share < 0.6:
            return self.pick(OUTSIDE)
        if share < 0.85:
            return self.host_of(label)
        return self.host_of(self.pick(self.labels)) if share < 0.97 else f'{label}.example'

    def secured(self) -> tuple[Row, ...]:
        """DS, keys, or some that are none."""
        row = (f'{self.random.randint(0, 65535)} {self.pick(("8", "13", "15"))} 2 '
               f'{self.random.getrandbits(256):064x}')
        rows = {1: ds(row), 2: key(flags=self.pick(('257', '256'))), 3: ds(row) + ds(RFC_DS),
                4: (('secDNS', {**ds(row)[0][1], **key()[0][1]}),)}
        odd = {1: ds('5 13 2 0011'), 2: key(flags=self.pick(('0', '384'))), 3: ds('5 13 99 AB'),
               4: key(protocol='2')}
        return (odd if self.chance(self.odd) else rows)[self.random.randint(1, 4)]

    def domain(self, label: str) -> list[Row]:
        name = self.pick(ODD_LABELS).format(label) if self.chance(self.odd) else label
        if self.chance(self.odd):
            name = self.pick((f'x.{name}', f'x.y.{name}', f'{name}.org.', name.upper()))
        status, rgp = self.pick(STATES if self.chance(2 * self.odd) else ORDINARY)
        servers = [self.server(label) for _ in range(self.pick((0, 1, 2, 2, 2, 3)))]
        more: tuple[Row, ...] = self.secured() if self.chance(0.2) else ()
        if self.chance(0.2):
            own = [(it, self.addresses() if '.example' in it else []) for it in servers]
            more += tuple(row for it in own for row in attribute(it[0], *it[1]))
            servers = []
        if self.chance(0.05):
            more += (('domainStatuses', {'status': 'inactive', 'rgpStatus': ''}),)
        original = f'{self.pick(self.labels)}.example' if self.chance(0.05) else ''
        return domain(name, *servers, status=status, rgp=rgp, more=more, originalName=original)

    def all(self) -> list[list[Row]]:
        for label in self.labels:
            self.add(self.domain(label))
        for label in self.labels:
            for it in ('ns1', 'ns2', 'a.b'):
                if self.chance(0.3):
                    self.add(host(f'{it}.{label}', *self.addresses()))
            if self.chance(0.1):
                self.add(host(label, *self.addresses()))
        self.add(host(f'{OUT1}.', '203.0.113.1'))
        for at in range(1 + self.count // 10):
            original = f'{self.pick(self.labels)}.example' if self.chance(0.9) else ''
            state = self.pick(('mirrored', 'mirrored', 'blocked', 'withheld'))
            name = f'm{at}' if self.chance(1 - self.odd) else self.pick(self.labels)
            self.add(mirrored(name, original, nameState=state,
                              mirroringNS=self.pick(('', '', 'true', 'false'))))
        return self.objects


def draw_registry(seed: int, count: int, odd: float = 0.1) -> list[list[Row]]:
    """A registry with so many domains or a few less, of which a share is odd."""
    return Maker(seed, count, odd).all()

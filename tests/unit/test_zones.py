"""Tests of the plain model of a zone (tests/support/zones.py): texts that stand in RFCs, the worked
registries, and what holds of each zone whatever its registry is."""
import unittest
from collections.abc import Iterator
from typing import NamedTuple

from tests.support.zone_registries import draw_registry
from tests.support.zone_rows import NS
from tests.support.zone_rows import RFC_DS_256
from tests.support.zone_rows import RFC_KEY
from tests.support.zone_rows import SERIAL
from tests.support.zone_rows import SOA
from tests.support.zone_rows import WORKED
from tests.support.zone_rows import Worked
from tests.support.zones import Refused
from tests.support.zones import Zone
from tests.support.zones import address_of
from tests.support.zones import ds_of_key
from tests.support.zones import is_below
from tests.support.zones import tables_of


def made(row: Worked) -> tuple[list[str], list[str], str]:
    """The lines of the zone and what is told, or the refusal."""
    try:
        zone = Zone(tables_of(row.objects), row.apex, row.origin, SERIAL, row.settings())
        return zone.records, zone.told, ''
    except Refused as refused:
        return [], [], f'{refused}'


class Record(NamedTuple):
    name: str
    type: str
    data: str


def records_of(zone: Zone) -> list[Record]:
    """The records that are of the registry."""
    lines = [it.split(' ', 4) for it in zone.records[2:]]
    return [Record(name[:-1], kind, data.removesuffix('.')) for name, _, _, kind, data in lines]


class WorkedRegistries(unittest.TestCase):
    maxDiff = None

    def test_worked_registries(self) -> None:
        for row in WORKED:
            with self.subTest(row.title):
                wanted = ([], [], row.refusal) if row.refusal else (row.records(), row.lines(), '')
                self.assertEqual(made(row), wanted)

    def test_titles_are_unique(self) -> None:
        self.assertEqual(len({it.title for it in WORKED}), len(WORKED))


class Texts(unittest.TestCase):
    def test_the_ds_of_a_key(self) -> None:
        """RFC 4509 2.3, whose key is that of RFC 4034 5.4."""
        self.assertEqual(str(ds_of_key('dskey.example.com', RFC_KEY)), RFC_DS_256)

    def test_addresses_as_they_are_written(self) -> None:
        """RFC 5952 1, 2, 4."""
        for text, written in (
                ('2001:db8:0:0:1:0:0:1', '2001:db8::1:0:0:1'),
                ('2001:0db8:0:0:1:0:0:1', '2001:db8::1:0:0:1'),
                ('2001:DB8:0:0:1::1', '2001:db8::1:0:0:1'),
                ('2001:db8::0:1', '2001:db8::1'), ('2001:0db8::0001', '2001:db8::1'),
                ('2001:db8::1:1:1:1:1', '2001:db8:0:1:1:1:1:1'),
                ('2001:db8::AAAA', '2001:db8::aaaa'), ('2001:0:0:1:0:0:0:1', '2001:0:0:1::1'),
                ('192.0.2.1', '192.0.2.1')):
            with self.subTest(text):
                self.assertEqual(str(address_of(text)), written)


class Drawn(unittest.TestCase):
    """Registries at random: what follows from no rule of the model alone."""

    def setUp(self) -> None:
        self.registries = [draw_registry(seed, 40, 0.2) for seed in range(20)]
        self.zones = [Zone(tables_of(it), SOA + NS, 'example', SERIAL) for it in self.registries]

    def each(self) -> Iterator[tuple[Zone, list[Record]]]:
        for seed, zone in enumerate(self.zones):
            with self.subTest(seed=seed):
                yield zone, records_of(zone)

    def test_no_line_stands_twice(self) -> None:
        for zone, _ in self.each():
            self.assertEqual(len(zone.records), len({*zone.records}))

    def test_nothing_stands_below_a_delegation_but_addresses(self) -> None:
        for _, records in self.each():
            cuts = {it.name for it in records if it.type == 'NS'}
            wrong = [it for it in records if it.type in ('NS', 'DS')
                     for cut in cuts if it.name != cut and is_below(it.name, cut)]
            self.assertEqual(wrong, [])

    def test_ds_stand_where_servers_do(self) -> None:
        for _, records in self.each():
            cuts = {it.name for it in records if it.type == 'NS'}
            self.assertEqual([it for it in records if it.type == 'DS' and it.name not in cuts], [])

    def test_addresses_are_of_servers_in_the_zone(self) -> None:
        for _, records in self.each():
            used = {it.data for it in records if it.type == 'NS'}
            addresses = [it for it in records if it.type in ('A', 'AAAA')]
            self.assertEqual([it for it in addresses if it.name not in used
                              or not is_below(it.name, 'example')], [])

    def test_each_server_in_the_zone_has_an_address_or_is_another_ones(self) -> None:
        for zone, records in self.each():
            there = {it.name for it in records if it.type in ('A', 'AAAA')}
            told = {' '.join(it.split(' ')[1:3]) for it in zone.told if 'is left to' in it}
            bare = {f'{it.name} {it.data}:' for it in records
                    if it.type == 'NS' and it.name in zone.registry.domains
                    and is_below(it.data, 'example') and it.data not in there}
            self.assertEqual(bare - told, set())

    def test_each_domain_is_counted_once(self) -> None:
        for zone, _ in self.each():
            words = list(zone.counts)
            ways = words[words.index('delegated'):words.index('DS')]
            self.assertEqual(sum(zone.counts[it] for it in ways), zone.counts['domains'])

    def test_objects_in_another_order_make_the_same_zone(self) -> None:
        for zone, objects in zip(self.zones, self.registries):
            other = Zone(tables_of(objects[::-1]), SOA + NS, 'example', SERIAL)
            self.assertEqual(other.records, zone.records)

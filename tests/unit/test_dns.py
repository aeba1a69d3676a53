"""Tests of support/dns.py and of what support/name_server.py says that a server answers."""
import struct
import unittest

from tests.support.dns import Record
from tests.support.dns import message_of
from tests.support.dns import name_at
from tests.support.dns import name_bytes
from tests.support.name_server import Lookup
from tests.support.name_server import answer_of


class Names(unittest.TestCase):
    def test_the_example_of_rfc_1035_4_1_4(self) -> None:
        message = bytearray(93)
        message[20:32] = b'\1F\3ISI\4ARPA\0'
        message[40:46] = b'\3FOO\xc0\x14'
        message[64:66] = b'\xc0\x1a'
        for at, found in ((20, ('f.isi.arpa', 32)), (40, ('foo.f.isi.arpa', 46)),
                          (64, ('arpa', 66)), (92, ('', 93))):
            with self.subTest(at=at):
                self.assertEqual(name_at(bytes(message), at), found)

    def test_names_that_can_not_be_asked(self) -> None:
        self.assertEqual(name_bytes('a.bc'), b'\1a\2bc\0')
        self.assertEqual(name_bytes(''), b'\0')
        for name in ('a..b', 'a.', 'l' * 64):
            with self.subTest(name), self.assertRaises(ValueError):
                name_bytes(name)

    def test_a_name_that_leads_to_itself(self) -> None:
        for message in (b'\1a\xc0\0', b'\xc0\0'):
            with self.subTest(message), self.assertRaises(ValueError):
                name_at(message, 0)


class Messages(unittest.TestCase):
    def test_a_referral(self) -> None:
        """The servers of a.example in the authority section, an address in the additional one."""
        question = name_bytes('www.a.example') + struct.pack('>HH', 1, 1)
        server = b'\xc0\x10' + struct.pack('>HHIH', 2, 1, 3600, 6) + b'\3ns1\xc0\x10'
        address = b'\xc0\x2b' + struct.pack('>HHIH', 1, 1, 3600, 4) + bytes([192, 0, 2, 1])
        data = struct.pack('>HHHHHH', 1, 0x8000, 1, 0, 1, 1) + question + server + address
        found = answer_of(message_of(data))
        self.assertEqual((found.code, found.is_authority), ('NOERROR', False))
        self.assertEqual(found.records, {Record('a.example', 'NS', 'ns1.a.example')})
        self.assertEqual(found.addresses, {Record('ns1.a.example', 'A', '192.0.2.1')})


class Lookups(unittest.TestCase):
    NS, GLUE = Record('a.example', 'NS', 'ns.a.example'), Record('ns.a.example', 'A', '192.0.2.1')
    DS, DEEP = Record('a.example', 'DS', '1 13 2 AB'), Record('x.b.example', 'NS', 'ns.a.example')
    ORPHAN = Record('ns.c.example', 'A', '192.0.2.2')

    def answer(self, name: str, kind: str) -> tuple:
        lookup = Lookup('example', [self.NS, self.GLUE, self.DS, self.DEEP, self.ORPHAN])
        return tuple(lookup.answer(name, kind))

    def test_answers(self) -> None:
        """RFC 1034 4.3.2, RFC 4035 3.1.4.1 (DS), RFC 8020 2 (names between)."""
        none = frozenset()
        referral = ('NOERROR', False, {self.NS}, {self.GLUE})
        for name, kind, wanted in (
                ('a.example', 'A', referral), ('www.a.example', 'DS', referral),
                ('ns.a.example', 'A', referral), ('a.example', 'NS', referral),
                ('a.example', 'DS', ('NOERROR', True, {self.DS}, none)),
                ('x.b.example', 'A', ('NOERROR', False, {self.DEEP}, {self.GLUE})),
                ('b.example', 'A', ('NOERROR', True, none, none)),
                ('y.b.example', 'A', ('NXDOMAIN', True, none, none)),
                ('ns.c.example', 'A', ('NOERROR', True, {self.ORPHAN}, none)),
                ('c.example', 'NS', ('NOERROR', True, none, none))):
            with self.subTest(name=name, kind=kind):
                self.assertEqual(self.answer(name, kind), wanted)

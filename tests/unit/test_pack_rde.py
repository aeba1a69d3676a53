"""Tests of packaging/pack_rde: `unpack_rde` of what it writes gives the same tables, in both
models; what it refuses, fills and tells; and what is in its document."""
import contextlib
import copy
import io
import os
import random
import re
import runpy
import subprocess
import sys
import tempfile
import unittest
import xml.etree.ElementTree as trees
from collections.abc import Callable
from collections.abc import Iterable
from collections.abc import Mapping
from collections.abc import Sequence
from typing import NamedTuple

from tests.support import TOP
from tests.support.bundles import sealed
from tests.support.documents import KEYS
from tests.support.documents import URIS
from tests.support.documents import Cells
from tests.support.documents import Object
from tests.support.escrow import Description
from tests.support.escrow import description_in
from tests.support.escrow import some_objects
from tests.support.files import read
from tests.support.files import write
from tests.support.registries import TABLES
from tests.support.registries import Registry
from tests.support.registries import deposit
from tests.support.tables import Tables
from tests.support.tables import in_tables
from tests.support.tables import quoted_rows
from tests.support.tables import tables_in
from tests.support.tables import write_tables

PROGRAM, UNPACK = f'{TOP}/packaging/pack_rde', f'{TOP}/packaging/unpack_rde'
# Both programs are run in this process: to start others would take ten times as long.
MAIN = runpy.run_path(PROGRAM, run_name='pack_rde')['main']
UNPACK_MAIN = runpy.run_path(UNPACK, run_name='unpack_rde')['main']
ID, WATERMARK = '20240304001', '2024-03-04T00:00:00Z'
WORDS = ('--id', ID, '--watermark', WATERMARK, '--tld', 'example')
MODELS = ('xml', 'csv')
HISTORY = {'clID': 'RAR-1', 'crDate': '2021-05-01T08:00:00.0Z'}
ADDRESS = {'street.0': '1 Main St.', 'city': 'Springfield', 'cc': 'US'}
# An object of each kind, valid by RFC 9022.
VALID = (
    [('registrar', {'id': 'RAR-1', 'name': 'One', 'status': 'ok'})],
    [('idn', {'idnTableId': 'fr', 'url': 'https://idn.example/fr',
              'urlPolicy': 'https://idn.example/p'})],
    [('contact', {'id': 'C1-EX', 'roid': 'C1-EX', 'email': 'c1@mail.example', **HISTORY}),
     ('contactStatuses', {'status': 'ok'}),
     ('contactPostal', {'postalType': 'loc', 'name': 'Zoë', **ADDRESS})],
    [('host', {'name': 'ns1.example', 'roid': 'H1-EX', **HISTORY}),
     ('hostStatuses', {'status': 'ok'}),
     ('hostAddresses', {'addr': '192.0.2.1', 'addrVersion': 'v4'})],
    [('domain', {'name': 'A.example', 'roid': 'D1-EX', 'registrant': 'C1-EX', **HISTORY}),
     ('domainStatuses', {'status': 'ok'}), ('domainNs', {'hostName': 'ns1.example'})],
    [('nndn', {'aName': 'n.example', 'nameState': 'blocked'})],
)
# The CSV model has no field for the policy of an IDN table: each deposit in it tells so.
POLICY_IN_CSV = 'custom.urlPolicy'
RENAMED = f'changed: idn.urlPolicy, which is read back as {POLICY_IN_CSV} '
KINDS = {rows[0][0]: rows for rows in VALID}
PARENTS = {'contactStatuses': 'contact', 'contactPostal': 'contact', 'contactTransfer': 'contact',
           'contactDisclose': 'contact', 'hostStatuses': 'host', 'hostAddresses': 'host',
           **dict.fromkeys(('domainStatuses', 'domainNs', 'domainHostAttr', 'domainContacts',
                            'secDNS',
                            'domainTransfer', 'domainNotes'), 'domain')}


def with_rows(table: str, *rows: Cells, objects: Sequence[Object] = VALID) -> list[Object]:
    """Objects of which one has these rows in a table: in place of its child rows, or of cells of
    its parent row, which an empty text removes."""
    found = copy.deepcopy(list(objects))
    for its in found:
        if its[0][0] == table:
            cells = {**its[0][1], **rows[0]}
            its[0] = (table, {name: text for name, text in cells.items() if text})
        elif its[0][0] == PARENTS.get(table):
            its[:] = [it for it in its if it[0] != table] + [(table, row) for row in rows]
    return found


def run(main: Callable[[list[str]], int],
        *words: object) -> tuple[int | str | None, list[str]]:
    """The status of a program, and its lines on standard error."""
    err = io.StringIO()
    try:
        with contextlib.redirect_stdout(io.StringIO()), contextlib.redirect_stderr(err):
            status = main([*map(str, words)])
    except SystemExit as ended:
        status = ended.code
    return status, err.getvalue().splitlines()


def as_named(tables: Tables) -> Tables:
    """Tables in which the policies of IDN tables have their own name, which the CSV model lacks."""
    for rows in tables.get('idn', {}).values():
        for row in rows:
            if POLICY_IN_CSV in row:
                row['urlPolicy'] = row.pop(POLICY_IN_CSV)
    return tables


class Packed:
    """What the program does with objects that are in a folder of `handover tables`, in a folder of
    its own."""

    def __init__(self, folder: str, objects: Sequence[Object], *words: object, model: str = 'xml',
                 order: Callable[[Iterable[str]], Iterable[str]] = sorted) -> None:
        self.folder, self.model = folder, model
        self.tables, self.out = os.path.join(folder, 'tables'), os.path.join(folder, 'deposit')
        write_tables(self.tables, objects, order)
        self.status, lines = run(MAIN, *WORDS, '--model', model, *words, self.tables, self.out)
        self.lines = [it for it in lines if model == 'xml' or not it.startswith(RENAMED)]

    @property
    def document(self) -> str:
        return self.out if self.model == 'xml' else os.path.join(self.out, 'deposit.xml')

    def back(self) -> tuple[Tables, list[str]]:
        """The tables that `unpack_rde` makes of it, and what it tells."""
        out = os.path.join(self.folder, 'back')
        status, lines = run(UNPACK_MAIN, '--strict', self.document, out)
        if status:
            raise AssertionError(lines)
        return as_named(tables_in(out)), lines


class Case(unittest.TestCase):
    maxDiff = None

    def folder(self) -> str:
        folder = tempfile.TemporaryDirectory(prefix='case-')
        self.addCleanup(folder.cleanup)
        return folder.name

    def packed(self, objects: Sequence[Object] = VALID, *words: object, model: str = 'xml',
               order: Callable[[Iterable[str]], Iterable[str]] = sorted) -> Packed:
        return Packed(self.folder(), objects, *words, model=model, order=order)

    def check_back(self, found: Packed, objects: Sequence[Object]) -> list[str]:
        """It is written, and read back as these objects; what it says."""
        self.assertEqual(found.status, 0, found.lines)
        self.assertEqual(found.back(), (in_tables(objects), []))
        return found.lines


class RoundTrips(Case):
    def test_odd_texts_at_random_come_back_in_both_models(self) -> None:
        for seed in range(12):
            objects = some_objects(random.Random(seed))
            for model in MODELS:
                with self.subTest(seed=seed, model=model):
                    # Their ids are too short, for one: so they are invalid, and written anyway.
                    found = self.packed(objects, '--anyway', model=model)
                    lines = self.check_back(found, objects)
                    self.assertEqual([it for it in lines
                                      if not it.startswith(('invalid: ', 'missing: '))], [])

    def test_a_valid_registry_comes_back_without_a_word(self) -> None:
        for model in MODELS:
            with self.subTest(model):
                self.assertEqual(self.check_back(self.packed(model=model), VALID), [])

    def test_rows_in_any_order_give_the_same_deposit(self) -> None:
        objects = some_objects(random.Random(1))
        for model in MODELS:
            with self.subTest(model):
                sorted_one, other = (self.packed(objects, '--anyway', model=model, order=it)
                                     for it in (sorted, lambda keys: sorted(keys, reverse=True)))
                self.assertEqual((sorted_one.lines, sorted_one.back()), (other.lines, other.back()))

    def test_no_object_at_all_is_a_deposit(self) -> None:
        for model in MODELS:
            with self.subTest(model):
                self.assertEqual(self.check_back(self.packed((), model=model), ()), [])


class Odd(NamedTuple):
    """Rows that are odd: what they come back as, and what is told, in the XML and in the CSV model.
    Without these they come back as they are, and nothing is told."""
    title: str
    table: str
    rows: tuple
    told: tuple = ()
    back: tuple | None = None
    told_csv: tuple = ()
    back_csv: tuple | None = None


DS = {'keyTag': '1', 'dsAlg': '13', 'digestType': '2', 'digest': 'AB'}
DNSKEY = {'flags': '257', 'protocol': '3', 'keyAlg': '13', 'pubKey': 'AwEA'}
MOVED = {'trStatus': 'pending', 'reRr': 'RAR-1', 'reDate': '2024-01-01T00:00:00Z', 'acRr': 'RAR-2',
         'acDate': '2024-01-06T00:00:00Z'}
NS = {'hostName': 'ns1.example'}
ODD = (
    Odd('signs that mean something in XML', 'registrar', ({'name': '<a> & "b" \'c\' ]]>'},)),
    Odd('line ends and tabs in a text', 'registrar', ({'name': 'a\r\nb\tc\rd'},)),
    Odd('signs past the first plane', 'registrar', ({'name': '\U0001f600\u2028\xa0\ufeffé'},)),
    Odd('quotes and line ends in an attribute', 'registrar',
        ({'voice': '+1.5', 'voiceExt': '"1"\n2\t3'},)),
    Odd('a comma and quotes in a field', 'registrar', ({'name': 'a,"b";c'},)),
    Odd('both addresses of a registrar', 'registrar',
        ({**ADDRESS, 'loc.street.1': 'x', 'loc.city': 'Ørsted', 'loc.cc': 'DK'},)),
    Odd('the localized address alone', 'registrar', ({'loc.city': 'Ørsted', 'loc.cc': 'DK'},)),
    Odd('an empty line of a street before others', 'contactPostal',
        ({'postalType': 'loc', 'name': 'Z', 'street.2': 'x', 'city': 'c', 'cc': 'FR'},)),
    Odd('two addresses of a contact', 'contactPostal',
        tuple({'postalType': it, 'name': 'Z', 'city': 'c', 'cc': 'FR'} for it in ('loc', 'int'))),
    Odd('an extension of a number', 'contact', ({'fax': '+1.5', 'faxExt': '7'},)),
    Odd('who created it, with its client', 'contact', ({'crRr': 'RAR-2', 'crID': 'client-1'},)),
    Odd('all that may be disclosed', 'contactDisclose',
        ({'discloseFlag': '1', **dict.fromkeys(('discloseNameInt', 'discloseAddrLoc',
                                                'discloseFax'), '1')},)),
    Odd('nothing that may be disclosed', 'contactDisclose', ({'discloseFlag': '0'},)),
    Odd('a transfer of a contact', 'contactTransfer', ({**MOVED, 'reID': 'client-1'},)),
    Odd('seven statuses of a contact', 'contactStatuses', tuple({'status': it} for it in (
        'linked', 'clientDeleteProhibited', 'clientUpdateProhibited', 'serverDeleteProhibited',
        'serverUpdateProhibited', 'clientTransferProhibited', 'pendingUpdate'))),
    Odd('a description in its language', 'hostStatuses',
        ({'status': 'ok', 'statusDescription': 'bon "a"\nb', 'lang': 'fr-CA'},)),
    Odd('a language without a description', 'hostStatuses', ({'status': 'ok', 'lang': 'en'},)),
    Odd('no address of a host', 'hostAddresses', ()),
    Odd('an address without its version', 'hostAddresses',
        ({'addr': '192.0.2.1'}, {'addr': '2001:db8::1', 'addrVersion': 'v6'})),
    Odd('no server', 'domainNs', ()),
    Odd('one server twice', 'domainNs', (NS, NS)),
    Odd('a grace period after the statuses', 'domainStatuses',
        ({'status': 'ok'}, {'rgpStatus': 'addPeriod', 'statusDescription': 'new', 'lang': 'en'})),
    Odd('two contacts of a type', 'domainContacts',
        tuple({'contactId': f'C{it}-EX', 'contactType': 'tech'} for it in (2, 1))),
    Odd('a contact without a type', 'domainContacts', ({'contactId': 'C1-EX'},)),
    Odd('DS records with their life', 'secDNS',
        tuple({**DS, 'maxSigLife': '604800', 'keyTag': it} for it in '12')),
    Odd('a DS record with its key', 'secDNS', ({**DS, **DNSKEY}, DS)),
    Odd('keys alone', 'secDNS', (DNSKEY, {**DNSKEY, 'flags': '256'})),
    Odd('a transfer of a domain', 'domainTransfer',
        ({**MOVED, 'acID': 'client-1', 'exDate': '2025-01-01T00:00:00Z'},)),
    Odd('a name in two scripts', 'domain', ({'uName': 'té.example', 'idnTableId': 'fr',
                                             'originalName': 'b.example'},)),
    Odd('a mirrored name', 'nndn', ({'nameState': 'mirrored', 'mirroringNS': 'false',
                                     'originalName': 'a.example'},)),
    Odd('white space around a text', 'registrar', ({'name': ' One\n'},),
        ('left out: white space around registrar.name 1',),
        ({'name': 'One'},)),
    Odd("a registry's own column", 'domain', ({'note': 'x'},), ('left out: domain.note 1',),
        ({'note': ''},),
        ('changed: domain.note, which is read back as custom.note 1',),
        ({'note': '', 'custom.note': 'x'},)),
    Odd("a custom field and a column of its name", 'domain', ({'note': 'x', 'custom.note': 'y'},),
        ('left out: domain.custom.note 1', 'left out: domain.note 1'),
        ({'note': '', 'custom.note': ''},),
        ('left out: domain.note, since there is custom.note 1',),
        ({'note': '', 'custom.note': 'y'},)),
    Odd('a custom field', 'domain', ({'custom.note': 'x'},), ('left out: domain.custom.note 1',),
        ({'custom.note': ''},)),
    Odd('a ROID of a registrar', 'registrar', ({'roid': 'R1-EX'},), ('left out: registrar.roid 1',),
        ({'roid': ''},)),
    Odd('the name of a WHOIS server', 'registrar', ({'whoisName': 'whois.example'},), (), None,
        ('changed: registrar.whoisName, which is read back as custom.whoisName 1',),
        ({'whoisName': '', 'custom.whoisName': 'whois.example'},)),
    Odd('a status and a grace period in one row', 'domainStatuses',
        ({'status': 'ok', 'rgpStatus': 'addPeriod', 'statusDescription': 'x'},),
        ('changed: row of domainStatuses, which becomes two 1',),
        ({'status': 'ok', 'statusDescription': 'x'}, {'rgpStatus': 'addPeriod'})),
    Odd('a grace period before a status', 'domainStatuses',
        ({'rgpStatus': 'addPeriod'}, {'status': 'ok'}),
        ('changed: row of domainStatuses, which comes before the one above it 1',),
        ({'status': 'ok'}, {'rgpStatus': 'addPeriod'})),
    Odd('a description alone', 'domainStatuses', ({'status': 'ok'}, {'statusDescription': 'x'}),
        ('left out: row of domainStatuses without rgpStatus or status 1',), ({'status': 'ok'},)),
    Odd('an extension without its number', 'contact', ({'voiceExt': '7'},),
        ('left out: contact.voiceExt without voice 1',), ({'voiceExt': ''},)),
    Odd('a client without its registrar', 'contact', ({'crID': 'client-1'},),
        ('left out: contact.crID without crRr 1',), ({'crID': ''},)),
    Odd('a disclosure in a word', 'contactDisclose',
        ({'discloseFlag': 'true', 'discloseVoice': 'true'},),
        ('changed: contactDisclose.discloseVoice, which is read back as 1 1',),
        ({'discloseFlag': 'true', 'discloseVoice': '1'},)),
    Odd('a disclosure that is none', 'contactDisclose',
        ({'discloseFlag': '0', 'discloseVoice': '0'},),
        ('changed: contactDisclose.discloseVoice, which is read back as nothing 1',),
        ({'discloseFlag': '0'},)),
    Odd('a name of its own in a child row', 'domainNs', ({**NS, 'name': 'a.EXAMPLE'},),
        ('changed: domainNs.name, which is that of its domain 1',), ({**NS, 'name': 'A.example'},)),
    Odd("a name of its own in a host's row", 'hostStatuses',
        ({'status': 'ok', 'name': 'NS1.example'},),
        ('changed: hostStatuses.name, which is that of its host 1',),
        ({'status': 'ok', 'name': 'ns1.example'},),
        ('changed: hostStatuses.name, which is that of its host 1',),
        ({'status': 'ok', 'name': 'ns1.example'},)),
    Odd('a table of its own', 'domainNotes', ({'note': 'x'},),
        ('left out: rows of the table domainNotes 1',), (),
        ('left out: rows of the table domainNotes 1',), ()),
    Odd('two hosts without an address', 'domainHostAttr', (NS, NS)),
    Odd('servers with their addresses', 'domainHostAttr',
        ({**NS, 'addr': '192.0.2.1', 'addrVersion': 'v4'},
         {**NS, 'addr': '192.0.2.2', 'addrVersion': 'v4'},
         {'hostName': 'ns2.example'}, {'hostName': 'NS1.example', 'addr': '192.0.2.1'})),
)


class OddRows(Case):
    def objects(self, odd: Odd, rows: Sequence[Cells]) -> list[Object]:
        """The valid objects, of which one has these rows. A domain has its servers in one table."""
        objects = with_rows('domainNs') if odd.table == 'domainHostAttr' else VALID
        return with_rows(odd.table, *rows, objects=objects)

    def check(self, odd: Odd, model: str, told: Sequence[str],
              back: Sequence[Cells] | None) -> None:
        found = self.packed(self.objects(odd, odd.rows), model=model)
        objects = self.objects(odd, odd.rows)
        if back is not None:
            objects = with_rows(odd.table, *back, objects=objects)
        self.assertEqual(self.check_back(found, objects), list(told))

    def test_they_come_back_as_they_are_or_it_is_told(self) -> None:
        for it in ODD:
            with self.subTest(it.title):
                self.check(it, 'xml', it.told, it.back)
                self.check(it, 'csv', it.told_csv, it.back_csv)


# Of each fault the line that tells it; the table; and its rows, or changed cells of its parent row.
OF_BOTH = (
    ('missing: registrar.name of RAR-1', 'registrar', {'name': ''}),
    ('missing: idn.url of fr', 'idn', {'url': ''}),
    ('missing: idn.urlPolicy of fr', 'idn', {'urlPolicy': ''}),
    ('missing: contact.roid of C1-EX', 'contact', {'roid': ''}),
    ('missing: contact.email of C1-EX', 'contact', {'email': ''}),
    ('missing: contactPostal: postalInfo of C1-EX', 'contactPostal'),
    ('missing: contactPostal.city of C1-EX', 'contactPostal',
     {'postalType': 'loc', 'name': 'Z', 'cc': 'FR'}),
    ('missing: contactPostal.name of C1-EX', 'contactPostal',
     {'postalType': 'loc', 'city': 'c', 'cc': 'FR'}),
    ('missing: contactPostal.postalType of C1-EX', 'contactPostal',
     {'name': 'Z', 'city': 'c', 'cc': 'FR'}),
    ('missing: contactStatuses: status of C1-EX', 'contactStatuses'),
    ('missing: contactDisclose.discloseFlag of C1-EX', 'contactDisclose', {'discloseFax': '1'}),
    ('missing: hostStatuses: status of ns1.example', 'hostStatuses'),
    ('missing: hostAddresses.addr of ns1.example', 'hostAddresses', {'addrVersion': 'v4'}),
    ('missing: host.clID of ns1.example', 'host', {'clID': ''}),
    ('missing: domain.clID of a.example', 'domain', {'clID': ''}),
    ('missing: domain.roid of a.example', 'domain', {'roid': ''}),
    ('missing: domainStatuses: status of a.example', 'domainStatuses', {'rgpStatus': 'addPeriod'}),
    ('missing: domainContacts.contactId of a.example', 'domainContacts', {'contactType': 'tech'}),
    ('missing: domainTransfer.acRr of a.example', 'domainTransfer', {**MOVED, 'acRr': ''}),
    ('missing: secDNS.digest of a.example', 'secDNS', {**DS, 'digest': ''}),
    ('missing: secDNS.pubKey of a.example', 'secDNS', {**DNSKEY, 'pubKey': ''}),
    ('missing: secDNS: dsData or keyData of a.example', 'secDNS', {'maxSigLife': '5'}),
    ('missing: nndn.nameState of n.example', 'nndn', {'nameState': ''}),
    ('missing: registrar.cc of RAR-1', 'registrar', {'city': 'c'}),
    ("invalid: registrar.gurid of RAR-1: '0'", 'registrar', {'gurid': '0'}),
    ("invalid: registrar.status of RAR-1: 'gone'", 'registrar', {'status': 'gone'}),
    ("invalid: registrar.voice of RAR-1: '0123'", 'registrar', {'voice': '0123'}),
    ("invalid: registrar.url of RAR-1: 'a b'", 'registrar', {'url': 'a b'}),
    ("invalid: registrar.url of RAR-1: '1:2'", 'registrar', {'url': '1:2'}),
    ("invalid: registrar.name of RAR-1: U+0007, which XML has no way to write", 'registrar',
     {'name': 'a\x07'}),
    ("invalid: registrar.name of RAR-1: U+FFFE, which XML has no way to write", 'registrar',
     {'name': 'a\ufffe'}),
    ("invalid: contact.clID of C1-EX: 'R1'", 'contact', {'clID': 'R1'}),
    ("invalid: contact.roid of C1-EX: 'C1_EX'", 'contact', {'roid': 'C1_EX'}),
    ("invalid: contactPostal.cc of C1-EX: 'FRA'", 'contactPostal',
     {'postalType': 'loc', 'name': 'Z', 'city': 'c', 'cc': 'FRA'}),
    ("invalid: contactStatuses.status of C1-EX: 'clientHold'", 'contactStatuses',
     {'status': 'clientHold'}),
    ("invalid: hostAddresses.addr of ns1.example: '::'", 'hostAddresses', {'addr': '::'}),
    ("invalid: hostAddresses.addrVersion of ns1.example: 'v5'", 'hostAddresses',
     {'addr': '::1', 'addrVersion': 'v5'}),
    ("invalid: hostStatuses.lang of ns1.example: 'x_y'", 'hostStatuses',
     {'status': 'ok', 'lang': 'x_y'}),
    ("invalid: domain.crDate of a.example: '2021-02-29T00:00:00Z'", 'domain',
     {'crDate': '2021-02-29T00:00:00Z'}),
    ("invalid: domain.exDate of a.example: '2021-02-28T00:00:00+01:00'", 'domain',
     {'exDate': '2021-02-28T00:00:00+01:00'}),
    ("invalid: domain.roid of a.example: 'Dxn--a-EX'", 'domain', {'roid': 'Dxn--a-EX'}),
    ("invalid: domainStatuses.rgpStatus of a.example: 'gone'", 'domainStatuses', {'status': 'ok'},
     {'rgpStatus': 'gone'}),
    ("invalid: domainContacts.contactType of a.example: 'owner'", 'domainContacts',
     {'contactId': 'C1-EX', 'contactType': 'owner'}),
    ("invalid: secDNS.digest of a.example: 'ABC'", 'secDNS', {**DS, 'digest': 'ABC'}),
    ("invalid: secDNS.keyTag of a.example: '+1'", 'secDNS', {**DS, 'keyTag': '+1'}),
    ("invalid: secDNS.keyTag of a.example: '65536'", 'secDNS', {**DS, 'keyTag': '65536'}),
    ("invalid: secDNS.pubKey of a.example: 'A-=='", 'secDNS', {**DNSKEY, 'pubKey': 'A-=='}),
    ("invalid: nndn.mirroringNS of n.example: 'no'", 'nndn', {'mirroringNS': 'no'}),
)
# What the XML model has one place for, and the CSV model as many as there are rows.
OF_XML = (
    ('no room: domainTransfer of a.example: 2 times trnData, at most 1', 'domainTransfer', MOVED,
     MOVED),
    ('no room: contactPostal of C1-EX: 3 times postalInfo, at most 2', 'contactPostal',
     *[{'postalType': 'loc', 'name': it, 'city': 'c', 'cc': 'FR'} for it in 'abc']),
    ('no room: secDNS of a.example: 2 times secDNS, at most 1', 'secDNS', {**DS, 'maxSigLife': '1'},
     {**DS, 'maxSigLife': '2'}),
    ('no room: secDNS of a.example: both dsData and keyData', 'secDNS', DS, DNSKEY),
    ('no room: domainNs of a.example: both hostObj and hostAttr', 'domainHostAttr', NS),
    ('no room: hostStatuses of ns1.example: 8 times status, at most 7', 'hostStatuses',
     *[{'status': 'ok'}] * 8),
)


class Faults(Case):
    def check_refused(self, line: str, table: str, *rows: Cells, model: str = 'xml') -> None:
        found = self.packed(with_rows(table, *rows), model=model)
        self.assertEqual((found.status, found.lines[:-1]), (1, [line]))
        self.assertRegex(found.lines[-1],
                         f'^pack_rde: {re.escape(found.out)}: 1 faults: it is not written')
        self.assertEqual(os.listdir(found.folder), ['tables'])

    def test_what_is_missing_or_invalid_is_refused_with_its_object(self) -> None:
        for line, *changed in OF_BOTH:
            for model in MODELS:
                with self.subTest(line, model=model):
                    self.check_refused(line, *changed, model=model)

    def test_hosts_of_one_roid_are_refused_where_it_names_them(self) -> None:
        objects = [*VALID, with_rows('host', {'name': 'ns2.example'})[3]]
        self.assertEqual(self.check_back(self.packed(objects), objects), [])
        found = self.packed(objects, model='csv')
        self.assertEqual((found.status, found.lines[0]),
                         (1, "invalid: host.roid of ns2.example: 'H1-EX' of another"))

    def test_what_has_no_room_in_xml_is_refused_there_alone(self) -> None:
        for line, *changed in OF_XML:
            with self.subTest(line):
                self.check_refused(line, *changed)
                objects = with_rows(*changed)
                self.assertEqual(self.check_back(self.packed(objects, model='csv'), objects), [])

    def test_it_is_written_anyway_where_that_is_asked(self) -> None:
        objects = with_rows('domain', {'clID': ''})
        lines = self.check_back(self.packed(objects, '--anyway'), objects)
        self.assertEqual(lines, ['missing: domain.clID of a.example'])

    def test_of_many_objects_with_a_fault_some_are_named(self) -> None:
        objects = [[('nndn', {'aName': f'n{it:02}.example'})] for it in range(25)]
        lines = self.packed(objects).lines
        self.assertEqual(lines[:-1], sorted([*(f'missing: nndn.nameState of n{it:02}.example'
                                               for it in range(10)),
                                             'missing: nndn.nameState of 15 more']))

    def test_a_key_with_control_characters_is_told_in_one_line(self) -> None:
        objects = [[('nndn', {'aName': 'n\n\x1b.example', 'nameState': 'blocked'})]]
        self.assertEqual(self.packed(objects).lines[0],
                         "invalid: nndn.aName of 'n\\n\\x1b.example': U+001B, "
                         'which XML has no way to write')


# Of each filling its words, what it tells, the table, the rows that lack something, and what these
# become.
FILLED = (
    (('--roid', 'EX'), ('filled: host.roid 1',), 'host', ({'roid': ''},), 'host',
     ({'roid': 'HFE0A8E8AE5C2A4AB-EX'},)),
    (('--status',), ('filled: contactStatuses.status with ok 1',), 'contactStatuses', (),
     'contactStatuses', ({'status': 'ok'},)),
    (('--status',), ('filled: domainStatuses.status with ok 1',), 'domainStatuses',
     ({'rgpStatus': 'addPeriod'},), 'domainStatuses',
     ({'status': 'ok'}, {'rgpStatus': 'addPeriod'})),
    (('--idn-policy', 'https://a.example/'), ('filled: idn.urlPolicy 1',), 'idn',
     ({'urlPolicy': ''},), 'idn',
     ({'urlPolicy': 'https://a.example/'},)),
)


class Fillings(Case):
    def test_what_is_filled_is_told_and_comes_back(self) -> None:
        for words, told, table, lacking, filled_table, filled in FILLED:
            with self.subTest(words, table=table):
                found = self.packed(with_rows(table, *lacking), *words)
                self.assertEqual((found.status, found.lines), (0, list(told)))
                back = found.back()[0]
                rows = in_tables(with_rows(filled_table, *filled))[filled_table]
                if table == 'host':
                    # The digits are of the kind and the key.
                    self.assertRegex(back['host']['ns1.example'][0]['roid'], '^H[0-9A-F]{16}-EX$')
                else:
                    self.assertEqual(back[filled_table], rows)

    def test_it_is_filled_in_files_too(self) -> None:
        lacking = with_rows('hostStatuses', objects=with_rows('host', {'roid': ''}))
        found = self.packed(lacking, '--roid', 'EX', '--status', model='csv')
        self.assertEqual((found.status, found.lines),
                         (0, ['filled: host.roid 1', 'filled: hostStatuses.status with ok 1']))
        back = found.back()[0]
        self.assertEqual(back['hostStatuses'],
                         {'ns1.example': [{'name': 'ns1.example', 'status': 'ok'}]})
        self.assertEqual(back['hostAddresses'], in_tables(VALID)['hostAddresses'])

    def test_a_domain_without_servers_is_inactive(self) -> None:
        lacking = with_rows('domainStatuses', objects=with_rows('domainNs'))
        found = self.packed(lacking, '--status')
        self.assertEqual(found.lines, ['filled: domainStatuses.status with inactive 1'])

    def test_roids_are_the_same_each_time_and_differ_by_kind_and_key(self) -> None:
        objects = [[('host', {'name': it, **HISTORY}), ('hostStatuses', {'status': 'ok'})]
                   for it in ('a', 'b')]
        first, second = (self.packed(objects, '--roid', 'EX').back()[0]['host'] for _ in range(2))
        self.assertEqual(first, second)
        self.assertNotEqual(*(its[0]['roid'] for its in first.values()))

    def test_nothing_is_filled_where_it_is_there(self) -> None:
        words = ('--roid', 'EX', '--status', '--idn-policy', 'https://a.example/')
        self.assertEqual(self.check_back(self.packed(VALID, *words), VALID), [])


def tag(prefix: str, name: str) -> str:
    return f'{{{URIS[prefix]}}}{name}'


EPP = 'urn:ietf:params:xml:ns:rdeEppParams-1.0'
POLICY = 'urn:ietf:params:xml:ns:rdePolicy-1.0'
REST = f'''<?xml version="1.0" encoding="UTF-8"?>
<r:rest xmlns:r="urn:restore-desk:rest-1.0" xmlns:e="{EPP}" xmlns="{POLICY}">
<e:eppParams><e:version>1.0</e:version><!-- a -->
<x:dcp xmlns:x="urn:x" a="&lt;&quot;&#10;">&amp;<![CDATA[<]]></x:dcp></e:eppParams>
<policy scope="//rde:deposit" element="a"/><thing xmlns="urn:own"><e:part/></thing></r:rest>'''


class Documents(Case):
    def tree(self, *words: object, model: str = 'xml',
             objects: Sequence[Object] = VALID) -> trees.Element:
        found = self.packed(objects, *words, model=model)
        self.assertEqual((found.status, found.lines), (0, []))
        return trees.parse(found.document).getroot()

    def test_the_header_counts_the_objects_of_all_kinds(self) -> None:
        for model, front in (('xml', 'rde'), ('csv', 'csv')):
            with self.subTest(model):
                root = self.tree(model=model)
                counts = {it.get('uri'): it.text for it in root.iter(tag('rdeHeader', 'count'))}
                kinds = ('Registrar', 'IDN', 'Contact', 'Host', 'Domain', 'NNDN')
                self.assertEqual(counts, {URIS[f'{front}{it}']: '1' for it in kinds})
                self.assertEqual([it.text for it in root.iter(tag('rdeHeader', 'tld'))],
                                 ['example'])
                menu = [it.text for it in root.iter(tag('rde', 'objURI'))]
                self.assertEqual(menu, [URIS[it]
                                        for it in ('rdeHeader', *(f'{front}{it}' for it in kinds))])

    def test_the_deposit_says_what_it_is(self) -> None:
        root = self.tree('--resend', '2')
        self.assertEqual((root.tag, root.attrib),
                         (tag('rde', 'deposit'), {'type': 'FULL', 'id': ID, 'resend': '2'}))
        self.assertEqual([it.tag for it in root],
                         [tag('rde', it) for it in ('watermark', 'rdeMenu', 'contents')])
        self.assertEqual(root[0].text, WATERMARK)
        self.assertNotIn('resend', self.tree().attrib)

    def test_what_unpack_rde_knows_of_it_is_what_was_said(self) -> None:
        for model in MODELS:
            with self.subTest(model):
                found = self.packed(VALID, '--resend', '7', model=model)
                found.back()
                described = description_in(os.path.join(found.folder, 'back'))
                self.assertEqual({it: described[it]
                                  for it in ('id', 'type', 'watermark', 'resend', 'tld', 'counts')},
                                 {'id': ID, 'type': 'FULL', 'watermark': WATERMARK, 'resend': 7,
                                  'tld': 'example',
                                  'counts': dict.fromkeys(KINDS, 1)})

    def test_what_is_referred_to_comes_first(self) -> None:
        order = [it.tag.partition('}')[2] for it in self.tree()[2]]
        self.assertEqual(order, ['header', 'registrar', 'idnTableRef', 'contact', 'host', 'domain',
                                 'NNDN'])

    def test_objects_of_a_file_are_written_again_and_counted(self) -> None:
        rest = os.path.join(self.folder(), 'rest.xml')
        write(rest, REST.encode())
        wanted = [trees.canonicalize(trees.tostring(it), rewrite_prefixes=True)
                  for it in trees.fromstring(REST)]
        for model in MODELS:
            with self.subTest(model):
                root = self.tree('--also', rest, model=model)
                found = [trees.canonicalize(trees.tostring(it), rewrite_prefixes=True)
                         for it in root[2][-3:]]
                self.assertEqual([it.strip() for it in found], [it.strip() for it in wanted])
                counts = {it.get('uri'): it.text for it in root.iter(tag('rdeHeader', 'count'))}
                self.assertEqual({it: counts[it] for it in (EPP, POLICY, 'urn:own')},
                                 {EPP: '1', POLICY: '1', 'urn:own': '1'})
                self.assertEqual([it.text for it in root.iter(tag('rde', 'objURI'))][-3:],
                                 [EPP, POLICY, 'urn:own'])

    def test_files_have_their_checksums_and_fields(self) -> None:
        found = self.packed(model='csv')
        text = read(found.document).decode()
        self.assertIn('<rdeCsv:fields><rdeCsv:fRoid parent="true"/><csvHost:fAddr/>'
                      '<csvHost:fAddrVersion/></rdeCsv:fields>', text)
        self.assertIn('cksumAlg="SHA256">hostAddresses-20240304.csv<', text)
        self.assertEqual(read(os.path.join(found.out, 'hostAddresses-20240304.csv')),
                         b'H1-EX,192.0.2.1,v4\n')

    def test_a_field_that_a_row_lacks_is_not_mandatory(self) -> None:
        objects = [*VALID, [('registrar', {'id': 'RAR-2', 'name': 'Two'})]]
        text = read(self.packed(objects, model='csv').document).decode()
        self.assertIn('<csvRegistrar:fId/><csvRegistrar:fName/>'
                      '<csvRegistrar:fStatus isRequired="false"/>', text)


HEAD = '<rest xmlns="urn:restore-desk:rest-1.0">'
# Files of objects that are refused: their text, and what is said.
RESTS = (
    ('<rest/>', 'its root element is not that of the rest of a deposit'),
    (f'{HEAD}<a/></rest>', 'a is no object that has no table'),
    (f'{HEAD}<a xmlns=""/></rest>', 'a is no object that has no table'),
    (f'{HEAD}<d:domain xmlns:d="{URIS["rdeDomain"]}"/></rest>',
     'd:domain is no object that has no table'),
    (f'{HEAD}<d:contents xmlns:d="{URIS["csvDomain"]}"/></rest>',
     'd:contents is no object that has no table'),
    (f'{HEAD}<h:header xmlns:h="{URIS["rdeHeader"]}"/></rest>',
     'h:header is no object that has no table'),
    (f'{HEAD}<a xmlns="urn:a"><b><authInfo/></b></a></rest>',
     'authInfo: credentials are not escrowed'),
    (f'{HEAD}<a xmlns="urn:a" xmlns:p="urn:p"><p:pw/></a></rest>',
     'p:pw: credentials are not escrowed'),
    (f'<!DOCTYPE rest []>{HEAD}</rest>', 'a document type (DOCTYPE) is not read'),
    (f'{HEAD}<a xmlns="urn:a">', 'no element found'),
    ('', 'no element found'),
    ('<?xml version="1.0" encoding="klingon"?><a/>', 'unknown encoding'),
)


class Words(Case):
    def test_other_files_of_objects_are_refused(self) -> None:
        for text, words in RESTS:
            with self.subTest(text):
                folder = self.folder()
                write(os.path.join(folder, 'rest.xml'), text.encode())
                found = Packed(folder, VALID, '--also', os.path.join(folder, 'rest.xml'))
                self.assertEqual(found.status, 1)
                self.assertIn(words, found.lines[-1])
                self.assertEqual(sorted(os.listdir(folder)), ['rest.xml', 'tables'])

    def test_other_words_are_told_the_usage(self) -> None:
        for words in (('--id', 'F-1'), ('--id', 'F' * 14), ('--watermark', '2024-03-04'),
                      ('--watermark', '2024-03-04T00:00:00+00:00'),
                      ('--tld', ''), ('--resend', '65536'), ('--resend', '-1'), ('--roid', 'E-X'),
                      ('--roid', ''), ('--idn-policy', 'a b'),
                      ('--model', 'json'), ('--lenient',)):
            with self.subTest(words):
                found = self.packed(VALID, *words)
                self.assertEqual((found.status, os.listdir(found.folder)), (2, ['tables']))

    def test_what_the_tables_do_not_say_has_to_be_said(self) -> None:
        folder = self.folder()
        write_tables(f'{folder}/tables', VALID)
        for at in (0, 2, 4):
            words = [*WORDS[:at], *WORDS[at + 2:]]
            status, lines = run(MAIN, *words, f'{folder}/tables', f'{folder}/out')
            self.assertEqual((status, lines[-1]),
                             (2, f'pack_rde: error: {WORDS[at]} is needed: the tables '
                                                 'do not have it'))

    def test_nothing_is_written_over(self) -> None:
        for taken in ('deposit', 'deposit.part'):
            for model in MODELS:
                with self.subTest(taken, model=model):
                    folder = self.folder()
                    write(os.path.join(folder, taken), b'mine')
                    found = Packed(folder, VALID, model=model)
                    self.assertEqual((found.status, read(os.path.join(folder, taken))),
                                     (3, b'mine'))
                    self.assertEqual(sorted(os.listdir(folder)), sorted([taken, 'tables']))

    def test_what_cannot_be_read_or_written_stops_it(self) -> None:
        folder = self.folder()
        write_tables(f'{folder}/tables', VALID)
        for words in ((f'{folder}/none', f'{folder}/out'),
                      (f'{folder}/tables', f'{folder}/none/out'),
                      ('--also', f'{folder}/none', f'{folder}/tables', f'{folder}/out')):
            with self.subTest(words):
                status, lines = run(MAIN, *WORDS, *words)
                self.assertEqual((status, len(lines), os.listdir(folder)), (3, 1, ['tables']))

    def test_other_folders_are_refused(self) -> None:
        heading, row = 'key,id,name\n', 'RAR-1,RAR-1,One\n'
        for name, text, words in (
                ('envelope.json', '{}', 'it is no folder of handover tables'),
                ('registrar.csv', 'id,name\n', 'its first line is no heading'),
                ('registrar.csv', 'key,id,id\n', 'its first line is no heading'),
                ('registrar.csv', '', 'its first line is no heading'),
                ('registrar.csv', heading + 'RAR-1,One\n', '2 fields, and not the 3'),
                ('registrar.csv', heading + 'a,"b', 'it cannot be read'),
                ('registrar.csv', heading + '\udce9,a,b\n', 'it cannot be read'),
                ('registrar.csv', heading + row + row, 'RAR-1 is there twice')):
            with self.subTest(name, words=words):
                folder = self.folder()
                write_tables(f'{folder}/tables', VALID)
                write(f'{folder}/tables/{name}', text.encode('utf-8', 'surrogateescape'))
                status, lines = run(MAIN, *WORDS, f'{folder}/tables', f'{folder}/out')
                self.assertEqual((status, os.listdir(folder)), (1, ['tables']))
                self.assertIn(words, lines[-1])

    def test_rows_without_their_object_are_told(self) -> None:
        folder = self.folder()
        write_tables(f'{folder}/tables', VALID)
        for at, key in enumerate(('0.example', 'z.example')):
            path = f'{folder}/tables/domainNs.csv'
            lines = read(path).decode().splitlines()
            write(path, '\n'.join([lines[0], *sorted([*lines[1:],
                                                      f'{key},x,ns1.example'])]).encode())
            status, lines = run(MAIN, *WORDS, f'{folder}/tables', f'{folder}/out{at}')
            self.assertEqual((status, lines),
                             (0, [f'orphan: rows of domainNs of no domain {at + 1}']))

    def test_credentials_are_left_out(self) -> None:
        objects = with_rows('domain', {'authInfo': 'x', 'custom.password': 'y'})
        for model in MODELS:
            with self.subTest(model):
                found = self.packed(objects, model=model)
                self.assertEqual(found.back()[0], in_tables(VALID))
                self.assertEqual(len(found.lines), 2)

    def test_lines_of_an_operator_are_written_as_they_are_read(self) -> None:
        own = ('what,name,becomes,section\nnamespace,own,urn:x,mine\n'
               'cell,rdeDomain:domain/own:colour,domain.colour,mine\n'
               'field,domain/own:fColour,colour,mine\n')
        objects = with_rows('domain', {'colour': 'red'})
        for model in MODELS:
            with self.subTest(model):
                folder = self.folder()
                write(os.path.join(folder, 'own.csv'), own.encode())
                found = Packed(folder, objects, '--map', os.path.join(folder, 'own.csv'),
                               model=model)
                self.assertEqual((found.status, found.lines), (0, []))
                self.assertEqual(run(UNPACK_MAIN, '--strict', '--map',
                                     os.path.join(folder, 'own.csv'), found.document,
                                     os.path.join(folder, 'back')), (0, []))
                self.assertEqual(as_named(tables_in(os.path.join(folder, 'back'))),
                                 in_tables(objects))

    def test_it_says_how_far_it_is_and_has_an_example(self) -> None:
        self.assertEqual(self.packed(VALID, '--progress').status, 0)
        out = io.StringIO()
        with contextlib.redirect_stdout(out), self.assertRaises(SystemExit):
            MAIN(['--help'])
        self.assertIn('Example:', out.getvalue())


def bundle(header: Mapping[str, str], objects: Sequence[Object] = (),
           deletes: Mapping[str, Sequence[str]] | None = None) -> bytes:
    """The bundle of a deposit of objects, with the rows in the order of the objects."""
    declared, files = [], []
    for table, its in in_tables(objects).items():
        kind = PARENTS.get(table, table)
        fields = list(dict.fromkeys([KEYS[kind],
                                     *(name for rows in its.values() for row in rows
                                       for name in row)]))
        role = 'child' if table in PARENTS else 'parent'
        declared.append({'name': table, 'kind': kind, 'role': role, 'key': KEYS[kind],
                         'fields': fields, 'file': f'{table.lower()}.csv'})
        files.append((f'{table.lower()}.csv',
                      quoted_rows([row.get(it, '') for it in fields] for rows in its.values()
                                  for row in rows)))
    gone = [{'name': kind, 'kind': kind, 'role': 'parent', 'key': 'k', 'fields': ['k'],
             'file': f'gone-{kind}.csv'} for kind in deletes or {}]
    files += [(f'gone-{kind}.csv', quoted_rows([it] for it in keys)) for kind,
              keys in (deletes or {}).items()]
    envelope = {**header, 'tld': 'example', 'contents': declared, 'deletes': gone}
    return sealed(envelope, [(name, text.encode()) for name, text in files])


FULL = {'id': 'F1', 'type': 'FULL', 'watermark': WATERMARK}


def following(number: int, previous: str) -> dict[str, str]:
    return {'id': f'D{number}', 'type': 'DIFF', 'watermark': f'2024-03-04T00:00:00.{number:09}Z',
            'prevId': previous}


class Bundles(Case):
    def packed(self, *bodies: bytes, words: Sequence[str] = (),
               model: str = 'xml') -> tuple[int, list[str], str]:
        folder = self.folder()
        paths = [os.path.join(folder, f'n{at}') for at in range(len(bodies))]
        for path, body in zip(paths, bodies):
            write(path, body)
        self.out = os.path.join(folder, 'deposit')
        status, lines = run(MAIN, '--model', model, *words, *paths, self.out)
        lines = [it for it in lines if not it.startswith(RENAMED)]
        document = self.out if model == 'xml' else os.path.join(self.out, 'deposit.xml')
        return status, lines, document

    def back(self, document: str) -> tuple[Tables, Description]:
        out = f'{self.out}.back'
        self.assertEqual(run(UNPACK_MAIN, '--strict', document, out), (0, []))
        return as_named(tables_in(out)), description_in(out)

    def test_a_bundle_is_written_as_its_tables(self) -> None:
        for model in MODELS:
            with self.subTest(model):
                status, lines, document = self.packed(bundle(FULL, VALID), model=model)
                self.assertEqual((status, lines), (0, []))
                tables, described = self.back(document)
                self.assertEqual(tables, in_tables(VALID))
                self.assertEqual((described['id'], described['watermark'], described['tld']),
                                 ('F1', WATERMARK, 'example'))

    def test_random_registries_in_series_are_written_as_their_tables(self) -> None:
        for seed in range(6):
            maker = random.Random(seed)
            objects = some_objects(maker)
            maker.shuffle(objects)
            cuts = sorted(maker.sample(range(len(objects) + 1), min(3, len(objects) + 1)))
            parts = [objects[a:b] for a, b in zip([0, *cuts], [*cuts, len(objects)])]
            bodies = [bundle(FULL, parts[0])]
            for at, it in enumerate(parts[1:], 1):
                bodies.append(bundle(following(at, 'F1' if at == 1 else f'D{at - 1}'), it))
            maker.shuffle(bodies)
            with self.subTest(seed):
                status, _, document = self.packed(*bodies, words=['--anyway'])
                self.assertEqual(status, 0)
                tables, described = self.back(document)
                self.assertEqual(tables, in_tables(objects))
                self.assertEqual(described['id'], f'D{len(parts) - 1}')

    def test_later_objects_take_the_place_of_earlier_ones_whole(self) -> None:
        later = with_rows('domain', {'name': 'a.EXAMPLE'}, objects=with_rows('domainNs'))
        gone = {'nndn': ['n.example'], 'host': ['NS1.example'], 'domain': ['a.example']}
        status, lines, document = self.packed(bundle(FULL, VALID, {'contact': ['C1-EX']}),
                                              bundle(following(1, 'F1'), later[4:5], gone))
        self.assertEqual((status, lines), (0, []))
        self.assertEqual(self.back(document)[0], in_tables([*VALID[:3], later[4]]))

    def test_the_last_of_two_rows_of_a_key_counts(self) -> None:
        twice = [VALID[0], [('registrar', {'id': 'RAR-1', 'name': 'Two'})]]
        _, _, document = self.packed(bundle(FULL, twice))
        self.assertEqual(self.back(document)[0]['registrar']['RAR-1'][0]['name'], 'Two')

    def test_rows_without_their_object_are_told(self) -> None:
        body = bundle(FULL, VALID).replace(b'"A.example","ns1', b'"B.example","ns1')
        self.assertEqual(self.packed(body)[:2], (0, ['orphan: rows of domainNs of no domain 1']))

    def test_other_files_are_refused(self) -> None:
        whole = bundle(FULL, VALID)
        for words, bodies in (
                ('its first line is not "escrow-bundle 1"', [b'hello\n']),
                ('its first line is not "escrow-bundle 1"', [b'']),
                ('no line with a new name and a length', [whole[:-4]]),
                ('it is cut off', [whole[:-10]]),
                ('more after the line "end"', [whole + b'x']),
                ('it has no envelope.json', [b'escrow-bundle 1\nend\n']),
                ('envelope.json: no JSON', [b'escrow-bundle 1\nenvelope.json 1\n{\nend\n']),
                ('a table is not declared', [whole.replace(b'"key":"id"', b'"key":"no"', 1)]),
                ('registrar: 4 fields, and not 3', [whole.replace(b'"One"', b'1,"2"', 1)]),
                ('a row cannot be read', [whole.replace('Zoë'.encode(), b'Zo\xff\xff')]),
                ('its watermark is not one', [whole.replace(WATERMARK.encode(),
                                                            b'2024-03-04T24:00:00Z')]),
                ('the earliest bundle is no FULL, but DIFF', [bundle(following(1, 'F1'))]),
                ('it is no Differential on F1, the deposit before it',
                 [bundle(FULL), bundle(following(2, 'D1'))]),
                ('it is no Differential on F1, the deposit before it',
                 [bundle(FULL), bundle({**FULL, 'id': 'F2'})]),
                ("its id is none of a deposit ('F-1'): give one by --id",
                 [bundle({**FULL, 'id': 'F-1'})])):
            with self.subTest(words):
                status, lines, _ = self.packed(*bodies)
                self.assertEqual((status, os.path.exists(self.out)), (1, False), lines)
                self.assertIn(words, lines[-1])

    def test_the_words_come_before_what_the_bundle_says(self) -> None:
        _, _, document = self.packed(bundle({**FULL, 'id': 'F-1'}),
                                     words=['--id', 'F2', '--tld', 'other'])
        described = self.back(document)[1]
        self.assertEqual((described['id'], described['tld'], described['watermark']),
                         ('F2', 'other', WATERMARK))

    def test_a_registry_that_looks_real_needs_no_filling(self) -> None:
        registry = Registry(7, {'registrar': 5, 'contact': 30, 'host': 20, 'domain': 60, 'idn': 3,
                                'nndn': 4})
        body = deposit(FULL, registry.rows_of(registry.objects), {}, {})
        told = {'xml': ['left out: domain.custom.note 60'], 'csv': []}
        for model in MODELS:
            with self.subTest(model):
                status, lines, document = self.packed(body, model=model)
                self.assertEqual((status, lines), (0, told[model]))
                objects = [[(table, dict(zip(TABLES[table][2], row))) for table, row in rows]
                           for its in registry.objects.values() for rows in its.values()]
                if model == 'xml':
                    for rows in objects:
                        rows[0][1].pop('custom.note', None)
                self.assertEqual(self.back(document)[0], in_tables(objects))


class Memory(Case):
    # Measures the most memory of the program, in KB.
    MEASURED = ('import resource, subprocess, sys\n'
                'subprocess.run(sys.argv[1:], check=True, stdout=subprocess.DEVNULL)\n'
                'print(resource.getrusage(resource.RUSAGE_CHILDREN).ru_maxrss)')

    def most_memory(self, sources: Sequence[str], folder: str) -> int:
        words = [sys.executable, '-c', self.MEASURED, sys.executable, PROGRAM, *WORDS, *sources,
                 f'{folder}/out']
        return int(subprocess.run(words, check=True, capture_output=True, text=True).stdout)

    def of_tables(self, count: int) -> int:
        with tempfile.TemporaryDirectory() as folder:
            write_tables(f'{folder}/tables', ())
            with open(f'{folder}/tables/registrar.csv', 'w') as file:
                file.write('key,id,name,url\n')
                file.writelines(f'R-{it:06},R-{it:06},One,{"x" * 1_000}\n' for it in range(count))
            return self.most_memory([f'{folder}/tables'], folder)

    def of_bundles(self, count: int) -> int:
        with tempfile.TemporaryDirectory() as folder:
            paths = []
            for at in range(3):
                objects = [[('registrar', {'id': f'R-{at}-{it:06}', 'name': 'One',
                                           'url': 'x' * 1_000})] for it in range(count)]
                paths.append(f'{folder}/n{at}')
                write(paths[-1], bundle(following(at, f'D{at - 1}') if at else {**FULL, 'id': 'D0'},
                                        objects))
            return self.most_memory(paths, folder)

    def test_memory_does_not_grow_with_the_registry(self) -> None:
        # The larger ones have 25 MB.
        self.assertLess(self.of_tables(25_000) - self.of_tables(100), 4_000)
        self.assertLess(self.of_bundles(8_000) - self.of_bundles(50), 8_000)

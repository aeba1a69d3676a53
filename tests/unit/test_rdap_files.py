"""Tests of packaging/rdap_files: answers written here by hand, by RFC 9083; what it refuses and
tells; and all files of registries at random, beside what SQL finds in the tables."""
import contextlib
import copy
import io
import json
import os
import runpy
import shutil
import subprocess
import sys
import tempfile
import unittest
from collections.abc import Sequence

from tests.support import TOP
from tests.support.documents import Cells
from tests.support.documents import Object
from tests.support.files import read
from tests.support.files import write
from tests.support.rdap import Expected
from tests.support.rdap import some_registry
from tests.support.tables import write_tables

PROGRAM = f'{TOP}/packaging/rdap_files'
# It is run in this process: to start another would take ten times as long.
MAIN = runpy.run_path(PROGRAM, run_name='rdap_files')['main']
BASE, UPDATED = 'https://rdap.nic.example/', '2024-03-04T00:00:00Z'
WORDS = ('--base', BASE, '--updated', UPDATED)
SOA = 'example. 3600 IN SOA a.nic.example. hostmaster.nic.example. 1 1800 900 604800 900\n'
DIGEST = '3D' * 32
HISTORY = {'clID': 'RAR-1', 'crRr': 'RAR-1', 'crDate': '2021-05-01T08:00:00.0Z'}

# A registry, and the answers that it has by hand.
REGISTRY = [
    [('registrar', {'id': 'RAR-1', 'name': 'Ember Oak, "Inc."', 'gurid': '1001', 'status': 'ok',
                    'voice': '+1.5551234', 'email': 'desk@registrar.example',
                    'street.0': '1 Main St.', 'city': 'Springfield', 'cc': 'US',
                    'crDate': '2013-01-01T00:00:00Z'})],
    [('registrar', {'id': 'RAR-2', 'name': 'Zoë', 'upDate': '2014-01-01T00:00:00Z'})],
    [('contact', {'id': 'C1-EX', 'roid': 'C1-EXRY', 'email': 'jan@mail.example', **HISTORY}),
     ('contactPostal', {'postalType': 'loc', 'name': 'Jan Jänsen', 'city': 'Delft', 'cc': 'NL'})],
    [('host', {'name': 'NS1.Signed.example', 'roid': 'H1-EXRY', **HISTORY,
               'upDate': '2022-05-01T08:00:00Z', 'trDate': '2023-05-01T08:00:00Z'}),
     ('hostStatuses', {'status': 'linked'}), ('hostStatuses', {'status': 'ok'}),
     ('hostAddresses', {'addr': '192.0.2.1', 'addrVersion': 'v4'}),
     ('hostAddresses', {'addr': '2001:DB8:0:0::1', 'addrVersion': 'v6'}),
     ('hostAddresses', {'addr': '2001:db8::1', 'addrVersion': 'v6'})],
    [('host', {'name': 'ns.xn--r8jz45g.net', 'roid': '', **HISTORY})],
    [('domain', {'name': 'Signed.EXAMPLE', 'roid': 'D1-EXRY', 'registrant': 'C1-EX', **HISTORY,
                 'crID': 'client-7', 'exDate': '2031-05-01T08:00:00Z', 'upRr': 'RAR-2',
                 'upID': 'client-8',
                 'upDate': '2022-01-01T00:00:00Z', 'trDate': '2023-01-01T00:00:00Z'}),
     ('domainContacts', {'contactId': 'C1-EX', 'contactType': 'admin'}),
     ('domainStatuses', {'status': 'serverTransferProhibited',
                         'statusDescription': 'by order of a court'}),
     ('domainStatuses', {'rgpStatus': 'addPeriod'}),
     ('domainStatuses', {'status': 'clientUpdateProhibited'}),
     ('domainNs', {'hostName': 'NS1.signed.example.'}), ('domainNs', {'hostName': 'ns2.other.net'}),
     ('domainNs', {'hostName': 'ns1.signed.example'}),
     ('secDNS', {'keyTag': '1', 'dsAlg': '13', 'digestType': '2', 'digest': '00' * 32})],
    [('domain', {'name': 'held.example', 'roid': 'D2-EXRY', **HISTORY, 'clID': 'RAR-2'}),
     ('domainStatuses', {'status': 'serverHold'}), ('domainNs', {'hostName': 'ns2.other.net'}),
     ('secDNS', {'keyTag': '4719', 'dsAlg': '15', 'digestType': '2', 'digest': DIGEST})],
    [('domain', {'name': 'xn--bcher-kva.example', 'roid': 'D3-EXRY', **HISTORY,
                 'uName': 'bücher.example'}),
     ('domainStatuses', {'status': 'ok'}),
     ('domainHostAttr', {'hostName': 'ns.bcher.example', 'addr': '192.0.2.3'}),
     ('domainHostAttr', {'hostName': 'ns.bcher.example', 'addr': '2001:db8::3'}),
     ('domainHostAttr', {'hostName': 'ns.other.net'})],
    [('nndn', {'aName': 'reserved.example', 'nameState': 'blocked'})],
]
ZONE = (f'; of a test\n{SOA}example. 3600 IN NS a.nic.example.\n'
        'example. 3600 IN TXT "no DS 1 2 3"\n'
        'signed.example. 3600 IN NS ns2.other.net.\n'
        f'signed.example. 3600 IN DS 4719 15 2 {DIGEST}\n'
        f'signed.example. 3600 IN DS 60485 8 1 {"a1" * 20}\n'
        'xn--bcher-kva.example. 3600 IN NS ns.other.net.\n'
        'ns1.signed.example. 3600 IN A 192.0.2.1\n')
LAST = {'eventAction': 'last update of RDAP database', 'eventDate': '2024-03-04T00:00:00Z'}
REMARK = {'title': 'Contacts', 'type': 'object truncated due to authorization',
          'description': ['The contacts of this domain are not published here.']}
FIRST_REGISTRAR = {
    'objectClassName': 'entity',
    'handle': '1001',
    'roles': ['registrar'],
    'publicIds': [{'type': 'IANA Registrar ID', 'identifier': '1001'}],
    'vcardArray': ['vcard', [['version', {}, 'text', '4.0'],
                             ['fn', {}, 'text', 'Ember Oak, "Inc."']]],
}
SECOND_REGISTRAR = {
    'objectClassName': 'entity',
    'handle': 'RAR-2',
    'roles': ['registrar'],
    'vcardArray': ['vcard', [['version', {}, 'text', '4.0'], ['fn', {}, 'text', 'Zoë']]],
}


def registered(*events: tuple[str, str]) -> list[dict[str, str]]:
    """The events of an object of HISTORY (RFC 9083 4.5)."""
    created = {'eventAction': 'registration', 'eventDate': '2021-05-01T08:00:00.0Z'}
    return [created, *({'eventAction': action, 'eventDate': date} for action, date in events), LAST]


def links(path: str) -> list[dict[str, str]]:
    return [{'value': f'https://rdap.nic.example/{path}', 'rel': 'self',
             'href': f'https://rdap.nic.example/{path}', 'type': 'application/rdap+json'}]


SIGNED = {
    'rdapConformance': ['rdap_level_0'],
    'objectClassName': 'domain',
    'handle': 'D1-EXRY',
    'ldhName': 'signed.example',
    'nameservers': [{'objectClassName': 'nameserver', 'ldhName': 'ns1.signed.example'},
                    {'objectClassName': 'nameserver', 'ldhName': 'ns2.other.net'}],
    'secureDNS': {
        'delegationSigned': True,
        'dsData': [
            {'keyTag': 4719, 'algorithm': 15, 'digestType': 2, 'digest': DIGEST},
            {'keyTag': 60485, 'algorithm': 8, 'digestType': 1, 'digest': 'a1' * 20},
        ],
    },
    'entities': [FIRST_REGISTRAR],
    'status': ['add period', 'client update prohibited', 'server transfer prohibited'],
    'remarks': [REMARK],
    'events': registered(('expiration', '2031-05-01T08:00:00Z'),
                         ('last changed', '2022-01-01T00:00:00Z'),
                         ('transfer', '2023-01-01T00:00:00Z')),
    'links': links('domain/signed.example'),
}
HELD = {
    'rdapConformance': ['rdap_level_0'],
    'objectClassName': 'domain',
    'handle': 'D2-EXRY',
    'ldhName': 'held.example',
    'nameservers': [{'objectClassName': 'nameserver', 'ldhName': 'ns2.other.net'}],
    'secureDNS': {'delegationSigned': False},
    'entities': [SECOND_REGISTRAR],
    'status': ['server hold'],
    'remarks': [REMARK],
    'events': registered(),
    'links': links('domain/held.example'),
}
BOOKS = {
    'rdapConformance': ['rdap_level_0'],
    'objectClassName': 'domain',
    'handle': 'D3-EXRY',
    'ldhName': 'xn--bcher-kva.example',
    'unicodeName': 'bücher.example',
    'nameservers': [{'objectClassName': 'nameserver', 'ldhName': 'ns.bcher.example',
                     'ipAddresses': {'v4': ['192.0.2.3'], 'v6': ['2001:db8::3']}},
                    {'objectClassName': 'nameserver', 'ldhName': 'ns.other.net'}],
    'secureDNS': {'delegationSigned': False},
    'entities': [FIRST_REGISTRAR],
    'status': ['active'],
    'remarks': [REMARK],
    'events': registered(),
    'links': links('domain/xn--bcher-kva.example'),
}
FOREIGN_HOST = {
    'rdapConformance': ['rdap_level_0'],
    'objectClassName': 'nameserver',
    'ldhName': 'ns.xn--r8jz45g.net',
    'unicodeName': 'ns.例え.net',
    'events': registered(),
    'links': links('nameserver/ns.xn--r8jz45g.net'),
}
ANSWERS = {
    'domain/signed.example': SIGNED,
    'domain/held.example': HELD,
    'domain/xn--bcher-kva.example': BOOKS,
    'domain/bücher.example': BOOKS,
    'nameserver/ns1.signed.example': {
        'rdapConformance': ['rdap_level_0'],
        'objectClassName': 'nameserver',
        'handle': 'H1-EXRY',
        'ldhName': 'ns1.signed.example',
        'ipAddresses': {'v4': ['192.0.2.1'], 'v6': ['2001:db8::1']},
        'status': ['active', 'associated'],
        'events': registered(('last changed', '2022-05-01T08:00:00Z'),
                             ('transfer', '2023-05-01T08:00:00Z')),
        'links': links('nameserver/ns1.signed.example'),
    },
    'nameserver/ns.xn--r8jz45g.net': FOREIGN_HOST,
    'nameserver/ns.例え.net': FOREIGN_HOST,
    'entity/1001': {
        'rdapConformance': ['rdap_level_0'],
        **FIRST_REGISTRAR,
        'events': [{'eventAction': 'registration', 'eventDate': '2013-01-01T00:00:00Z'}, LAST],
        'links': links('entity/1001'),
    },
    'entity/RAR-2': {
        'rdapConformance': ['rdap_level_0'],
        **SECOND_REGISTRAR,
        'events': [{'eventAction': 'last changed', 'eventDate': '2014-01-01T00:00:00Z'}, LAST],
        'links': links('entity/RAR-2'),
    },
    'help': {
        'rdapConformance': ['rdap_level_0'],
        'notices': [{'title': 'Help', 'description': [
            'Answers to domain/NAME, nameserver/NAME and entity/HANDLE, of a registrar. There are '
            'no searches, and contacts are not published.']}],
    },
    '404.json': {
        'rdapConformance': ['rdap_level_0'],
        'errorCode': 404,
        'title': 'Not Found',
        'description': ['No such object is known here.'],
    },
}


def with_cells(table: str, cells: Cells, objects: Sequence[Object] = REGISTRY,
               at: int = 0) -> list[Object]:
    """The objects, of which the row of this number in a table has these cells, too."""
    found = copy.deepcopy(list(objects))
    rows = [(its, place) for its in found for place, row in enumerate(its) if row[0] == table]
    its, place = rows[at]
    its[place] = (table, {**its[place][1], **cells})
    return found


def run(*words: object) -> tuple[int, str, list[str]]:
    """The status of the program, its standard output, and its lines on standard error."""
    out, err = io.StringIO(), io.StringIO()
    try:
        with contextlib.redirect_stdout(out), contextlib.redirect_stderr(err):
            status = MAIN([*map(str, words)])
    except SystemExit as ended:
        status = ended.code
    return status, out.getvalue(), err.getvalue().splitlines()


def files_in(folder: str) -> dict[str, bytes]:
    """The bytes of all files in a folder, by their names."""
    return {os.path.relpath(os.path.join(top, it), folder): read(os.path.join(top, it))
            for top, _, names in os.walk(folder) for it in names}


class Made:
    """What the program makes of objects and a zone, in a folder of its own."""

    def __init__(self, folder: str, objects: Sequence[Object] = REGISTRY, zone: str = ZONE,
                 words: Sequence[str] = ()) -> None:
        self.folder, self.tables, self.zone = folder, f'{folder}/tables', f'{folder}/zone'
        self.out = f'{folder}/answers'
        write_tables(self.tables, objects)
        write(self.zone, zone.encode())
        self.run(*words)

    def run(self, *words: str) -> None:
        found = run(*WORDS, *words, self.tables, self.zone, self.out)
        self.status, self.printed, self.lines = found

    def answers(self) -> dict[str, dict[str, object]]:
        return {name: json.loads(text) for name, text in files_in(self.out).items()}


class Case(unittest.TestCase):
    maxDiff = None

    def folder(self) -> str:
        folder = tempfile.TemporaryDirectory(prefix='rdap-')
        self.addCleanup(folder.cleanup)
        return folder.name

    def made(self, objects: Sequence[Object] = REGISTRY, zone: str = ZONE,
             words: Sequence[str] = ()) -> Made:
        return Made(self.folder(), objects, zone, words)

    def check_files(self, found: Made) -> None:
        """All files are those that SQL finds."""
        answers, wanted = found.answers(), Expected(found.tables, found.zone, BASE, UPDATED).files()
        self.assertEqual(sorted(answers), sorted([*wanted, 'help', '404.json']))
        for name, members in wanted.items():
            self.assertEqual(answers[name], members, name)

    def check_refused(self, found: Made, words: str, status: int = 1) -> None:
        self.assertEqual((found.status, found.printed), (status, ''), found.lines)
        self.assertIn(words, found.lines[-1])
        self.assertEqual(sorted(os.listdir(found.folder)), ['tables', 'zone'])


class Answers(Case):
    def test_the_answers_by_hand_are_those_of_the_registry_and_there_are_no_others(self) -> None:
        found = self.made()
        self.assertEqual((found.status, found.lines), (0, []))
        self.assertEqual(found.printed, 'domain 3\nnameserver 2\nentity 2\n')
        answers = found.answers()
        for name, wanted in ANSWERS.items():
            with self.subTest(name):
                self.assertEqual(answers.get(name), wanted)
        self.assertEqual(sorted(answers), sorted(ANSWERS))

    def test_names_of_a_zone_are_compared_in_small_letters(self) -> None:
        zone = ZONE.replace('signed.example. 3600 IN DS', 'Signed.EXAMPLE. 3600 IN DS')
        zone = zone.replace('example. 3600 IN SOA', 'Example. 3600 IN SOA', 1)
        self.assertEqual(self.made(zone=zone).answers()['domain/signed.example'], SIGNED)

    def test_no_text_of_a_contact_is_in_a_file(self) -> None:
        texts = ('C1-EX', 'mail.example', 'Jan', 'Delft', 'client-7', 'client-8', 'court', '555',
                 'desk@', 'Springfield', 'reserved')
        for name, content in files_in(self.made().out).items():
            with self.subTest(name):
                self.assertEqual([it for it in texts if it in content.decode()], [])

    def test_the_same_input_makes_the_same_bytes(self) -> None:
        first, second = self.made(), self.made()
        self.assertEqual(files_in(first.out), files_in(second.out))

    def test_a_registry_without_objects_has_help_alone(self) -> None:
        found = self.made(())
        self.assertEqual((found.status, found.lines), (0, []))
        self.assertEqual(found.printed, 'domain 0\nnameserver 0\nentity 0\n')
        self.assertEqual(sorted(found.answers()), ['404.json', 'help'])
        self.assertEqual(sorted(os.listdir(found.out)),
                         ['404.json', 'domain', 'entity', 'help', 'nameserver'])

    def test_a_slash_at_the_end_of_its_name_changes_nothing(self) -> None:
        found = self.made()
        found.out = f'{found.folder}/other/'
        found.run()
        self.assertEqual((found.status, files_in(found.out)),
                         (0, files_in(f'{found.folder}/answers')))
        self.assertEqual(sorted(os.listdir(found.folder)), ['answers', 'other', 'tables', 'zone'])

    def test_the_base_may_have_a_path_and_needs_no_slash(self) -> None:
        found = self.made(words=('--base', 'http://a.example:8080/rdap'))
        self.assertEqual(found.answers()['entity/1001']['links'][0]['href'],
                         'http://a.example:8080/rdap/entity/1001')

    def test_notices_are_in_each_answer_with_links_of_that_answer(self) -> None:
        folder = self.folder()
        terms = {'title': 'Terms', 'description': ['Be kind.', 'Zoë'],
                 'links': [{'rel': 'terms-of-service', 'href': 'https://a.example/terms'}]}
        more = [{'description': ['x'], 'type': 'object truncated due to authorization'}]
        write(f'{folder}/terms', json.dumps(terms).encode())
        write(f'{folder}/more', json.dumps(more).encode())
        found = self.made(words=('--notice', f'{folder}/terms', '--notice', f'{folder}/more'))
        self.assertEqual((found.status, found.lines), (0, []))
        for name, answer in found.answers().items():
            with self.subTest(name):
                url = f'https://rdap.nic.example/{answer.get("objectClassName", "help")}'
                url = links(name)[0]['value'] if name.isascii() else answer['links'][0]['value']
                link = {'value': url, 'rel': 'terms-of-service', 'href': 'https://a.example/terms'}
                own = {'help': ANSWERS['help']['notices'], '404.json': []}.get(name, [])
                wanted = [*own, {**terms, 'links': [link]}, *more]
                self.assertEqual(answer.get('notices', []), [] if name == '404.json' else wanted)


# Cells that are odd, what is told of them, and what the answer is without.
ODD = (
    ('registrar', {'gurid': '10x1'}, "invalid: registrar.gurid of RAR-1: '10x1'"),
    ('registrar', {'gurid': 'RAR-2'}, "invalid: registrar.gurid of RAR-1: 'RAR-2'"),
    ('registrar', {'crDate': '2013-02-30T00:00:00Z'},
     "invalid: registrar.crDate of RAR-1: '2013-02-30T00:00:00Z'"),
    ('host', {'upDate': 'today'}, "invalid: host.upDate of ns1.signed.example: 'today'"),
    ('hostStatuses', {'status': 'OK'}, "invalid: hostStatuses.status of ns1.signed.example: 'OK'"),
    ('hostAddresses', {'addr': '192.000.002.001'},
     "invalid: hostAddresses.addr of ns1.signed.example: '192.000.002.001'"),
    ('hostAddresses', {'addr': 'fe80::1%eth0'},
     "invalid: hostAddresses.addr of ns1.signed.example: 'fe80::1%eth0'"),
    ('domain', {'exDate': '2031-05-01'}, "invalid: domain.exDate of signed.example: '2031-05-01'"),
    ('domain', {'clID': 'RAR-9'}, "missing: registrar of signed.example: 'RAR-9'"),
    ('domain', {'clID': ''}, "missing: registrar of signed.example: ''"),
    ('domainStatuses', {'status': 'gone <b>'},
     "invalid: domainStatuses.status of signed.example: 'gone <b>'"),
    ('domainStatuses', {'rgpStatus': 'x\ny'},
     "invalid: domainStatuses.rgpStatus of signed.example: 'x\\ny'"),
    ('domainNs', {'hostName': '../etc'}, "invalid: hostName of signed.example: '../etc'"),
    ('domainNs', {'hostName': ''}, "invalid: hostName of signed.example: ''"),
    ('domainHostAttr', {'addr': '::1::'},
     "invalid: domainHostAttr.addr of xn--bcher-kva.example: '::1::'"),
)
# Keys that are no names of files, or that a web server would take for something else.
ODD_NAMES = ('*.example', 'a/b.example', '../x.example', '.htaccess', 'a b.example',
             'bücher.example', 'x\0.example', 'a%2fb.example', 'a?b.example', '\\x.example', '')


class Odd(Case):
    def test_texts_of_another_form_are_left_out_and_told(self) -> None:
        for table, cells, line in ODD:
            with self.subTest(line):
                found = self.made(with_cells(table, cells))
                self.assertEqual((found.status, found.lines), (0, [line]))
                self.check_files(found)

    def test_names_that_are_none_of_files_are_left_out_and_told(self) -> None:
        for name in ODD_NAMES:
            for table, kind in (('domain', 'domain'), ('host', 'nameserver')):
                with self.subTest(name, kind=kind):
                    found = self.made(with_cells(table, {'name': name}, at=1))
                    told = f'{kind} {name}'
                    shown = told if told.isprintable() else repr(told)
                    self.assertEqual((found.status, found.lines),
                                     (0, [f'invalid: name of {shown}']))
                    self.assertEqual(len(found.answers()), len(ANSWERS) - (2 if table == 'host'
                                                                           else 1))
                    self.assertEqual(sorted(os.listdir(found.folder)),
                                     ['answers', 'tables', 'zone'])

    def test_a_name_has_at_most_255_bytes(self) -> None:
        for size, names in ((255, 4), (256, 3)):
            found = self.made(with_cells('domain', {'name': 'a' * size}, at=2))
            self.assertEqual(len(os.listdir(f'{found.out}/domain')), names - 1)
            self.assertEqual(found.lines, [f'invalid: name of domain {"a" * size}'] * (size > 255))

    def test_a_registrar_of_an_odd_id_has_no_file_and_its_domains_have_it(self) -> None:
        objects = with_cells('domain', {'clID': '../R'}, with_cells('registrar', {'id': '../R'},
                                                                    at=1), at=1)
        found = self.made(objects)
        self.assertEqual((found.status, found.lines), (0, ['invalid: name of entity ../R']))
        self.assertEqual(found.answers()['domain/held.example']['entities'],
                         [{**SECOND_REGISTRAR, 'handle': '../R'}])

    def test_registrars_of_one_gurid_go_by_their_ids(self) -> None:
        found = self.made(with_cells('registrar', {'gurid': '1001'}, at=1))
        self.assertEqual(found.lines, [f"invalid: registrar.gurid of {it}: '1001' of another"
                                       for it in ('RAR-1', 'RAR-2')])
        answers = found.answers()
        self.assertEqual(sorted(it for it in answers if it.startswith('entity')),
                         ['entity/RAR-1', 'entity/RAR-2'])
        for it in ('RAR-1', 'RAR-2'):
            self.assertEqual((answers[f'entity/{it}']['handle'],
                              answers[f'entity/{it}']['publicIds'][0]['identifier']), (it, '1001'))

    def test_a_gurid_that_is_the_id_of_another_is_no_handle(self) -> None:
        objects = with_cells('registrar', {'id': '1001'}, at=1)
        found = self.made(with_cells('domain', {'clID': '1001'}, objects, at=1))
        self.assertEqual(found.lines, ["invalid: registrar.gurid of RAR-1: '1001' of another"])
        self.assertEqual(sorted(it for it in found.answers() if it.startswith('entity')),
                         ['entity/1001', 'entity/RAR-1'])

    def test_rows_without_their_object_are_told(self) -> None:
        found = self.made()
        path = f'{found.tables}/domainStatuses.csv'
        write(path, read(path) + b'z.example,z.example,ok,,\n')
        found.out += '2'
        found.run()
        self.assertEqual((found.status, found.lines),
                         (0, ['orphan: rows of domainStatuses of no domain 1']))

    def test_a_labels_that_have_no_one_u_label_stay_alone(self) -> None:
        # A sign that stands for others, ASCII alone, a mark at the front, signs that no text has; a
        # capital, a sign in two pieces, and more bytes than a name of a file has.
        texts = ('bÜcher', 'bu\u0308cher', '漢' * 86)
        for label in ('xn--a-ecp', 'xn--abc-', 'xn--a-0bb', 'xn--\u007f', 'xn--99999999', 'xn--',
                      *(f'xn--{it.encode("punycode").decode()}' for it in texts)):
            with self.subTest(label):
                found = self.made(with_cells('domain', {'name': f'{label}.example', 'uName': 'ü'},
                                             at=2))
                names = [it for it in found.answers() if it.startswith('domain/')]
                self.assertEqual([it for it in names if not it.isascii()], [])


class Refusals(Case):
    def refused(self, name: str, text: str, words: str, zone: str = ZONE) -> None:
        """A folder of tables of which one file has this text, or is not there, is refused."""
        folder = self.folder()
        found = Made(folder, zone=zone)
        os.rename(found.out, f'{folder}.answers')
        self.addCleanup(lambda: shutil.rmtree(f'{folder}.answers'))
        path = f'{found.tables}/{name}'
        if text is None:
            os.remove(path)
        else:
            write(path, text.encode('utf-8', 'surrogateescape'))
        found.run()
        self.check_refused(found, words)

    def test_other_tables_are_refused(self) -> None:
        heading, row = 'key,name,roid,clID,crDate,exDate\n', 'a.example,a.example,D,RAR-1,,\n'
        for name, text, words in (
                ('domain.csv', None, 'it is no folder of handover tables'),
                ('nndn.csv', None, 'it is no folder of handover tables'),
                ('domain.csv', '', 'its first line is no heading'),
                ('domain.csv', 'name\nx\n', 'its first line is no heading'),
                ('domain.csv', heading.replace('roid', 'name') + row,
                 'its first line is no heading'),
                ('domain.csv', heading + 'a.example,b\n', '2 fields, and not the 6'),
                ('domain.csv', heading + 'a,"b', 'it cannot be read'),
                ('domain.csv', heading + '\udce9,,,,,\n', 'it cannot be read'),
                ('domain.csv', heading + row + row, 'a.example is there twice'),
                ('domain.csv', heading + row.replace('a', 'b') + row,
                 'domain.csv: its rows are not in the order of their keys'),
                ('domain.csv', heading.replace('clID', 'sponsor') + row, 'it has no clID'),
                ('domain.csv', 'key,name\na.example,a.example\n',
                 'it has no clID and no crDate and no exDate'),
                ('domain.csv', heading.replace('exDate', 'fExDate') + row,
                 'fExDate looks like exDate'),
                ('domain.csv', heading.replace('roid', 'ROID') + row, 'ROID looks like roid'),
                ('registrar.csv', 'key,id\nRAR-1,RAR-1\n', 'it has no name'),
                ('registrar.csv', 'key,id,name,fGurid\nRAR-1,RAR-1,x,1\n',
                 'fGurid looks like gurid'),
                ('domainStatuses.csv', 'key,name\nheld.example,held.example\n',
                 'it has no status'),
                ('domainStatuses.csv', 'key,status,rgp_status\nheld.example,ok,\n',
                 'rgp_status looks like rgpStatus'),
                ('domainNs.csv', 'key,host\nheld.example,ns.net\n', 'it has no hostName'),
                ('hostAddresses.csv', 'key,address\nns1.signed.example,192.0.2.1\n',
                 'it has no addr'),
                ('hostAddresses.csv', 'key,addr\nb,192.0.2.1\na,192.0.2.1\n',
                 'hostAddresses.csv: its rows are not in the order of their keys')):
            with self.subTest(name, words=words):
                self.refused(name, text, words)

    def test_a_table_under_another_name_is_refused(self) -> None:
        for table, other in (('domainNs', 'domainNameServers'), ('domainStatuses', 'domain_status'),
                             ('domainHostAttr', 'domainNameServersAddresses'),
                             ('hostAddresses', 'HostAddresses'), ('hostStatuses', 'fHostStatuses')):
            with self.subTest(other):
                found = self.made()
                shutil.rmtree(found.out)
                os.rename(f'{found.tables}/{table}.csv', f'{found.tables}/{other}.csv')
                found.run()
                if other == 'domain_status':
                    self.assertEqual(found.status, 0)
                else:
                    self.check_refused(found, f'{other} looks like {table}')

    def test_other_zones_are_refused(self) -> None:
        record = 'it is no record of the form NAME. TTL IN TYPE DATA'
        for zone, words in (
                ('', 'it has no record'),
                ('; nothing\n\n', 'it has no record'),
                ('signed.example. 3600 IN NS ns.net.\n', 'the first record of a zone is its SOA'),
                (f'$ORIGIN example.\n{SOA}', record),
                (f'{SOA}signed 3600 IN NS ns.net.\n', record),
                (f'{SOA}signed.example. IN NS ns.net.\n', record),
                (f'{SOA}signed.example. 3600 NS ns.net.\n', record),
                (f'{SOA} 3600 IN NS ns.net.\n', record),
                (f'{SOA}signed.example. 3600 IN DS 1 2 3\n', 'it is no DS record'),
                (f'{SOA}signed.example. 3600 IN DS 1 2 3 ABC\n', 'it is no DS record'),
                (f'{SOA}signed.example. 3600 IN DS x 2 3 AB\n', 'it is no DS record'),
                (ZONE[:-1], 'the line is cut off, or too long'),
                (SOA + 'x' * 200_000 + '\n', 'the line is cut off, or too long'),
                (SOA.replace('example.', 'other.'), 'no domain of the tables is below other')):
            with self.subTest(zone[-60:], words=words):
                self.check_refused(self.made(zone=zone), words)

    def test_a_zone_that_is_not_there_stops_it(self) -> None:
        for name in ('none', 'tables'):
            found = self.made()
            shutil.rmtree(found.out)
            found.zone = f'{found.folder}/{name}'
            found.run()
            self.assertEqual((found.status, len(found.lines)), (3 if name == 'none' else 1, 1))
            self.assertEqual(sorted(os.listdir(found.folder)), ['tables', 'zone'])

    def test_other_notices_are_refused(self) -> None:
        for text in ('', '{', '3', '[3]', '{}', '{"description":"x"}', '{"description":[]}',
                     '{"description":[3]}', '{"description":["x"],"title":3}',
                     '{"description":["x"],"links":{}}', '{"description":["x"],"links":[{}]}',
                     '{"description":["x"],"links":[{"rel":"a","href":3}]}',
                     '{"description":["x"],"text":"y"}', '[' * 100_000,
                     '{"description":["\udce9"]}'):
            with self.subTest(text[:40]):
                folder = self.folder()
                write(f'{folder}/notice', text.encode('utf-8', 'surrogateescape'))
                self.check_refused(self.made(words=('--notice', f'{folder}/notice')),
                                   f'{folder}/notice: ')

    def test_nothing_is_written_over(self) -> None:
        for taken in ('answers', 'answers.part'):
            with self.subTest(taken):
                folder = self.folder()
                write(f'{folder}/{taken}/mine', b'mine')
                found = Made(folder)
                self.assertEqual((found.status, len(found.lines)), (3, 1))
                self.assertEqual(files_in(f'{folder}/{taken}'), {'mine': b'mine'})
                self.assertEqual(sorted(os.listdir(folder)), sorted([taken, 'tables', 'zone']))

    def test_a_folder_of_its_place_has_to_be_there(self) -> None:
        found = self.made()
        found.out = f'{found.folder}/none/answers'
        found.run()
        self.assertEqual((found.status, len(found.lines)), (3, 1))

    def test_other_words_are_told_the_usage(self) -> None:
        for words in (('--base', 'rdap.nic.example'), ('--base', 'ftp://a.example/'),
                      ('--base', 'https://a.example/?x'), ('--base', 'https://a b/'),
                      ('--updated', '2024-03-04'), ('--updated', '2024-02-30T00:00:00Z'),
                      ('--updated', '2024-03-04T00:00:00+01:00'), ('--lenient',), ('more',)):
            with self.subTest(words):
                found = self.made(words=words)
                self.assertEqual((found.status, sorted(os.listdir(found.folder))),
                                 (2, ['tables', 'zone']))
        for at in (0, 2):
            self.assertEqual(run(*WORDS[at:at + 2], 'tables', 'zone', 'answers')[0], 2)

    def test_it_says_how_far_it_is_and_has_an_example(self) -> None:
        self.assertEqual(self.made(words=('--progress',)).status, 0)
        self.assertIn('Example:', run('--help')[1])


class AtRandom(Case):
    TOLD = ('invalid: name of domain ', 'invalid: name of nameserver ', 'invalid: name of ',
            'invalid: hostName of ', 'invalid: registrar.gurid of ', 'missing: registrar of ',
            *(f'invalid: {kind}.{field} of ' for kind in ('registrar', 'host', 'domain')
              for field in ('crDate', 'exDate', 'upDate', 'trDate')),
            'invalid: hostStatuses.status of ', 'invalid: domainStatuses.status of ',
            'invalid: domainStatuses.rgpStatus of ', 'invalid: hostAddresses.addr of ',
            'invalid: domainHostAttr.addr of ')

    def test_all_files_are_those_that_sql_finds_in_the_tables(self) -> None:
        for seed in range(10):
            with self.subTest(seed):
                found = self.made(*some_registry(seed, 60))
                self.assertEqual(found.status, 0, found.lines)
                self.check_files(found)
                self.assertEqual([it for it in found.lines if not it.startswith(self.TOLD)], [])

    def test_no_text_of_a_contact_is_in_a_file(self) -> None:
        objects, zone = some_registry(1, 60)
        contacts = {text for rows in objects if rows[0][0] == 'contact' for _, cells in rows
                    for name, text in cells.items()
                    if name in ('id', 'roid', 'email', 'voice', 'name', 'org', 'street.0', 'city')}
        for name, content in files_in(self.made(objects, zone).out).items():
            texts = content.decode()
            self.assertEqual([it for it in contacts if f'"{it}"' in texts or '@' in texts], [])


class Memory(Case):
    # Measures the most memory of the program, in KB.
    MEASURED = ('import resource, subprocess, sys\n'
                'subprocess.run(sys.argv[1:], check=True, stdout=subprocess.DEVNULL)\n'
                'print(resource.getrusage(resource.RUSAGE_CHILDREN).ru_maxrss)')

    def most_memory(self, count: int) -> int:
        folder = self.folder()
        write_tables(f'{folder}/tables', ())
        with open(f'{folder}/tables/domain.csv', 'w') as file, open(f'{folder}/zone', 'w') as zone:
            file.write('key,clID,crDate,exDate,note\n')
            zone.write(SOA)
            for at in range(count):
                name = f'd-{at:06}.example'
                file.write(f'{name},,,,{"x" * 2_000}\n')
                zone.writelines(f'{name}. 3600 IN DS {it} 13 2 {DIGEST}\n' for it in range(10))
        words = [sys.executable, '-c', self.MEASURED, sys.executable, PROGRAM, *WORDS,
                 f'{folder}/tables', f'{folder}/zone', f'{folder}/answers']
        return int(subprocess.run(words, check=True, capture_output=True, text=True).stdout)

    def test_memory_does_not_grow_with_the_registry(self) -> None:
        # The larger one has 8 MB of rows and 4 MB of DS records. Peaks differ by some hundred KB
        # from run to run.
        self.assertLess(self.most_memory(4_000) - self.most_memory(50), 7_000)

"""Tests of packaging/unpack_rde: what it writes of deposits of both models, and what it refuses."""
import gzip
import hashlib
import io
import os
import random
import shutil
import subprocess
import sys
import tempfile
import zlib
from collections.abc import Callable
from collections.abc import Mapping
from collections.abc import Sequence
from xml.etree import ElementTree

from tests.support.documents import URIS
from tests.support.documents import document
from tests.support.documents import element
from tests.support.escrow import as_written
from tests.support.escrow import description_in
from tests.support.escrow import objects_in
from tests.support.escrow import some_objects
from tests.support.files import read
from tests.support.files import write
from tests.support.unpacking import ADDRESSES
from tests.support.unpacking import DELETED_HOST
from tests.support.unpacking import DIFF
from tests.support.unpacking import HEADER
from tests.support.unpacking import HOST
from tests.support.unpacking import MENU
from tests.support.unpacking import PROGRAM
from tests.support.unpacking import WATERMARK
from tests.support.unpacking import Case
from tests.support.unpacking import Unpacked
from tests.support.unpacking import counted
from tests.support.unpacking import csv_definition
from tests.support.unpacking import deposit
from tests.support.unpacking import domain
from tests.support.unpacking import file_of
from tests.support.unpacking import idns
from tests.support.unpacking import in_files
from tests.support.unpacking import registrar

# A host that is deleted by its ROID.
GONE = element('rdeHost:delete', within=element('rdeHost:roid', 'H1'))
# Of each deposit that is refused what its last line begins with, and what it says; the document;
# and the files beside it.
OF_DOCUMENTS = {
    'it is cut off': ('d.xml:5:', 'unclosed token', deposit(registrar())[:-25], {}),
    'it ends between elements': ('d.xml:5:', 'no element found',
                                 deposit(registrar()).partition(b'</rde:contents>')[0], {}),
    'it is empty': ('d.xml:1:1:', 'no element found', b'', {}),
    'it is no XML': ('d.xml:1:1:', 'syntax error', b'hello', {}),
    'elements overlap': ('d.xml:5:', 'mismatched tag', deposit('<a><b></a></b>'), {}),
    'the root is another': ('d.xml:1:1:', 'no rde:deposit, but deposit', b'<deposit/>', {}),
    'it has entities that grow': ('d.xml:1:', 'DOCTYPE', b'<!DOCTYPE d [<!ENTITY a "aaaaaaaaaa">' +
                                  b''.join(b'<!ENTITY %c "%s">' % (it + 1, b'&%c;' % it * 10)
                                           for it in range(97, 107)) + b']><d>&k;</d>', {}),
    'it has an entity that is a file': (
        'd.xml:1:', 'DOCTYPE', b'<!DOCTYPE d [<!ENTITY a SYSTEM "/etc/passwd">]><d>&a;</d>', {}),
    'it has a document type behind a long comment': ('d.xml:2:', 'DOCTYPE', b'<!--' +
                                                     b'x' * 200_000 + b'-->\n<!DOCTYPE d []><d/>',
                                                     {}),
    'an entity is not declared': ('d.xml:5:', 'undefined entity', deposit('&a;'), {}),
    'Latin-1 is said to be UTF-8': ('d.xml:5:', 'not well-formed',
                                    deposit(registrar()).replace(b'One', b'Zo\xeb'), {}),
    'its encoding is not known': ('d.xml: ', 'unknown encoding',
                                  b'<?xml version="1.0" encoding="klingon"?><d/>', {}),
    'its encoding is not read': ('d.xml: ', 'multi-byte encodings',
                                 b'<?xml version="1.0" encoding="big5"?><d/>', {}),
    'elements are nested too deep': ('d.xml:5:', 'nested deeper than 64', deposit('<a>' * 100_000),
                                     {}),
    'it has no watermark': ('d.xml:', 'no rde:watermark', deposit(watermark=''), {}),
    'it has two watermarks': ('d.xml:2:', 'rde:watermark is there twice',
                              deposit(watermark=WATERMARK * 2), {}),
    'it has no id': ('d.xml:', 'no id', deposit(header={'type': 'FULL'}), {}),
    'its id has a space': ('d.xml:', 'id is not', deposit(header={'type': 'FULL', 'id': 'F 1'}),
                           {}),
    'its type is another': ('d.xml:', 'type is not FULL, INCR or DIFF',
                            deposit(header={'type': 'full', 'id': 'F1'}), {}),
    'its resend is no number': ('d.xml:', 'resend is no number',
                                deposit(header={**HEADER, 'resend': '-1'}), {}),
    'a count is no number': ('d.xml:5:', 'no number of objects', deposit(counted('many')), {}),
    'objects are counted twice': ('d.xml:5:', 'counted twice: 2 and 3',
                                  deposit(counted('2') + counted('3')), {}),
    'an object has no key': ('d.xml:5:', 'a domain without name', deposit(domain('')), {}),
    'a key is too long': ('d.xml:5:', 'longer than 255 bytes', deposit(domain('é' * 128)), {}),
    'an object is there twice': ('d.xml:5:', 'the registrar R1 is there twice',
                                 deposit(registrar() + registrar()), {}),
    'names differ in case alone': ('d.xml:5:', 'the domain A.example is there twice',
                                   deposit(domain('a.example') + domain('A.example')), {}),
    'an element is there twice': ('d.xml:5:', 'rdeRegistrar:gurid is there twice',
                                  deposit(registrar(element('rdeRegistrar:gurid', '1') * 2)), {}),
    'a deleted host has a ROID that is not known': ('d.xml:4:', 'has roid H1',
                                                    deposit(deletes=GONE, header=DIFF), {}),
}
OF_FILES = {
    'a file is not there': ('d.xml:5:', 'the file i.csv is not in', deposit(idns()), {}),
    'a file is a folder above': ('d.xml:5:', 'no name of a file',
                                 deposit(idns(file_of('../i.csv'))), {}),
    'a file has another CRC-32': ('i.csv:',
                                  f'its checksum is {zlib.crc32(b"L1,u"):08x}, and not DEADBEEF',
                                  deposit(idns(file_of('i.csv',
                                                       cksum='DEADBEEF'))), {'i.csv': b'L1,u'}),
    'a file has another SHA-256': ('i.csv:', 'and not 00ff',
                                   deposit(idns(file_of('i.csv', cksum='00ff',
                                                        cksumAlg='SHA256'))), {'i.csv': b'L1,u'}),
    'a checksum is of another kind': ('i.csv:', 'MD5, which is not known',
                                      deposit(idns(file_of('i.csv', cksum='00',
                                                           cksumAlg='MD5'))), {'i.csv': b''}),
    'a compression is not known': ('i.csv:', 'its compression xz is not known',
                                   deposit(idns(file_of('i.csv',
                                                        compression='xz'))), {'i.csv': b''}),
    'a file is not compressed': ('i.csv:', 'not compressed as',
                                 deposit(idns(file_of('i.csv',
                                                      compression='gzip'))), {'i.csv': b'L1,u'}),
    'a compressed file is cut off': ('i.csv:', 'not compressed as',
                                     deposit(idns(file_of('i.csv', compression='gzip'))),
                                     {'i.csv': gzip.compress(b'L1,u\n')[:-9]}),
    'the encoding of a file is not known': ('i.csv:', 'klingon is not known',
                                            deposit(idns(file_of('i.csv', encoding='klingon'))),
                                            {'i.csv': b'a'}),
    'a file is Latin-1': ('i.csv:2:', 'field 2 has bytes that are no text', deposit(idns()),
                          {'i.csv': b'L1,u\nL2,\xeb\n'}),
    'a file has half a character of UTF-16': ('i.csv:', 'is not UTF-16',
                                              deposit(idns(file_of('i.csv', encoding='UTF-16'))),
                                              {'i.csv': b'\xff\xfeL'}),
    'a row has too many fields': ('i.csv:3:', '3 fields, and not the 2', deposit(idns()),
                                  {'i.csv': b'L1,u\n\nL2,u,v\n'}),
    'a row has too few fields': ('i.csv:1:', '1 fields, and not the 2', deposit(idns(sep=';')),
                                 {'i.csv': b'L1,u\n'}),
    'a quote is open': ('i.csv:', 'no row of CSV', deposit(idns()), {'i.csv': b'L1,"u\n'}),
    'a separator is a word': ('d.xml:5:', 'the separator is not one character',
                              deposit(idns(sep='::')), {'i.csv': b''}),
    'a key is there twice': ('i.csv:2:', 'the idn L1 is there twice', deposit(idns()),
                             {'i.csv': b'L1,u\nL1,v\n'}),
    'a key is empty': ('i.csv:1:', 'a idn without idnTableId', deposit(idns()), {'i.csv': b',u\n'}),
    'no field is the key': ('d.xml:5:', 'no field of idn is its idnTableId',
                            deposit(idns(fields=['rdeCsv:fUrl'])), {'i.csv': b''}),
    'a field is there twice': ('d.xml:5:', 'two fields of idn are its url',
                               deposit(idns(fields=['rdeCsv:fIdnTableId'] + ['rdeCsv:fUrl'] * 2)),
                               {'i.csv': b''}),
    'a table comes in both models': ('d.xml:5:', 'idn comes both',
                                     deposit(element('rdeIDN:idnTableRef', id='L1') + idns()),
                                     {'i.csv': b''}),
    'a ROID is not known': ('a.csv:1:', 'no host is known, or more than one, that has roid H2',
                            deposit(in_files('csvHost', ADDRESSES, HOST)),
                            {'h.csv': b'ns.example,H1\n', 'a.csv': b'H2,192.0.2.1,v4\n'}),
    'two hosts have a ROID': ('a.csv:1:', 'or more than one',
                              deposit(in_files('csvHost', ADDRESSES, HOST)), {
                                  'h.csv': b'ns1.example,H1\nns2.example,H1\n',
                                  'a.csv': b'H1,192.0.2.1,v4\n'
                              }),
}


class Refusals(Case):
    def check(self, cases: Mapping[str, tuple[str, str, bytes, Mapping[str, bytes]]]) -> None:
        for name, (place, words, text, files) in cases.items():
            with self.subTest(name):
                found = self.unpacked(text, files)
                last = found.lines[-1] if found.lines else ''
                # (The path of a file beside the document is told from the root.)
                self.assertRegex(last, f'^unpack_rde: (/.*/)?{place}')
                self.assertIn(words, last)
                self.assertEqual((found.status, sorted(os.listdir(found.folder))),
                                 (1, sorted({'d.xml', *files})))

    def test_documents_are_refused_with_the_place_and_nothing_is_written(self) -> None:
        self.check(OF_DOCUMENTS)

    def test_files_are_refused_with_the_place_and_nothing_is_written(self) -> None:
        self.check(OF_FILES)

    def test_nothing_is_written_over(self) -> None:
        for taken in ('out', 'out.part'):
            with self.subTest(taken):
                found = self.unpacked(deposit(), {taken: b'mine'})
                self.assertEqual((found.status, read(os.path.join(found.folder, taken))),
                                 (3, b'mine'))

    def test_what_cannot_be_read_stops_it(self) -> None:
        found = self.unpacked(deposit())
        os.remove(os.path.join(found.folder, 'd.xml'))
        found.run(['--files', 'none'])
        self.assertEqual((found.status, len(found.lines)), (3, 1))

    def test_other_words_are_told_the_usage(self) -> None:
        self.assertEqual(self.unpacked(deposit(), words=['--lenient']).status, 2)


class Watermarks(Case):
    def test_they_are_told_in_utc(self) -> None:
        for word, wanted in (('2024-03-03T00:00:00Z', '2024-03-03T00:00:00Z'),
                             ('2024-03-03T00:00:00.0Z', '2024-03-03T00:00:00Z'),
                             ('2024-03-03T00:00:00.120Z', '2024-03-03T00:00:00.12Z'),
                             ('2024-03-03T01:30:00+01:30', '2024-03-03T00:00:00Z'),
                             ('2023-12-31T19:00:00.5-05:00', '2024-01-01T00:00:00.5Z'),
                             (' 2024-02-29T00:00:00+14:00\n', '2024-02-28T10:00:00Z')):
            with self.subTest(word):
                found = self.written(deposit(watermark=element('rde:watermark', word)))
                self.assertEqual(description_in(found.out)['watermark'], wanted)

    def test_others_are_refused(self) -> None:
        for word, words in (('2024-03-03T00:00:00', 'it has no time zone'),
                            ('2024-03-03', 'no date and time'), ('', 'no date and time'),
                            ('2024-02-30T00:00:00Z', 'day'), ('2024-03-03T24:00:00Z', 'hour'),
                            ('2024-03-03T00:00:60Z', 'second'), ('2024-03-03T00:00:00.1234567891Z',
                                                                 'no date and time'),
                            ('1969-12-31T23:59:59Z', 'year'), ('2261-12-31T23:59:59-00:01', 'year'),
                            ('٢٠٢٤-03-03T00:00:00Z', 'no date and time')):
            with self.subTest(word):
                found = self.unpacked(deposit(watermark=element('rde:watermark', word)))
                self.assertEqual(found.status, 1)
                self.assertRegex(found.lines[-1], f'^unpack_rde: d.xml:2:.*{words}')


class Both(Case):
    def test_objects_at_random_are_written_alike_from_both_models(self) -> None:
        for seed in range(12):
            objects = some_objects(random.Random(seed))
            deletes = {'domain': ['Gone.example', 'é.example'], 'registrar': ['R"0']
                       } if seed % 2 else {}
            for model, separator in (('XML', ','), ('CSV', ','), ('CSV', '|'), ('CSV', '\t')):
                with self.subTest(seed=seed, model=model,
                                  separator=separator), tempfile.TemporaryDirectory() as folder:
                    header = {
                        'type': 'DIFF', 'id': 'D1', 'prevId': 'F1', 'resend': '2',
                        'watermark': '2024-03-03T00:00:00Z'
                    }
                    path = document(folder, 'd.xml', header, objects, deletes, {'domain': 7}, model,
                                    separator=separator)
                    found = Unpacked(folder, read(path))
                    self.assertEqual((found.status, found.lines), (0, []))
                    self.assertEqual(objects_in(found.out), (as_written(objects), deletes))
                    described = description_in(found.out)
                    self.assertEqual(
                        {
                            it: described[it]
                            for it in ('id', 'type', 'prevId', 'resend', 'watermark', 'counts',
                                       'tld')
                        }, {
                            'id': 'D1', 'type': 'DIFF', 'prevId': 'F1', 'resend': 2,
                            'watermark': '2024-03-03T00:00:00Z', 'counts': {'domain': 7
                                                                            }, 'tld': 'example'
                        })


class Models(Case):
    def test_white_space_around_texts_is_left_out_and_what_is_inside_stays(self) -> None:
        found = self.written(
            deposit(
                element(
                    'rdeRegistrar:registrar', within=element('rdeRegistrar:id', '\n  R1\n ') +
                    element('rdeRegistrar:name', '\n A "b",\n\r c \n'))))
        self.assertEqual(self.rows(found, 'registrar'), [{'id': 'R1', 'name': 'A "b",\n\r c'}])

    def test_further_prefixes_stand_for_the_same_namespaces(self) -> None:
        found = self.written(
            deposit(registrar()).replace(b'rdeRegistrar:',
                                         b'x:').replace(b'xmlns:rdeRegistrar', b'xmlns:x'))
        self.assertEqual(self.rows(found, 'registrar'), [{'id': 'R1', 'name': 'One'}])

    def with_hosts(self) -> Unpacked:
        files = {
            'h.csv': b'ns1.example,H1\nns2.example,H2\n', 'a.csv': b'H2,192.0.2.2,v4\n',
            'n.csv': b'a.example,H1\n', 'd.csv': b'a.example\n'
        }
        domains = in_files(
            'csvDomain',
            csv_definition('domainNameServers', ['csvDomain:fName parent="true"', 'rdeCsv:fRoid'],
                           file_of('n.csv')),
            csv_definition('domain', ['csvDomain:fName'], file_of('d.csv')))
        return self.written(deposit(domains + in_files('csvHost', ADDRESSES, HOST)), files)

    def test_hosts_of_files_are_named_by_their_roids(self) -> None:
        found = self.with_hosts()
        self.assertEqual(self.rows(found, 'hostAddresses'),
                         [{'name': 'ns2.example', 'addr': '192.0.2.2', 'addrVersion': 'v4'}])
        self.assertEqual(self.rows(found, 'domainNs'),
                         [{'name': 'a.example', 'hostName': 'ns1.example'}])

    def test_hosts_of_earlier_deposits_are_known(self) -> None:
        first = self.with_hosts()
        for deletes, files in ((in_files('csvHost', DELETED_HOST, word='deletes'),
                                {'g.csv': b'H2\n'}), (element('rdeHost:delete',
                                                              within=element('rdeHost:roid',
                                                                             'H2')), {})):
            with self.subTest(deletes):
                found = self.written(deposit(deletes=deletes), files, words=['--known', first.out])
                self.assertEqual(objects_in(found.out), ({}, {'host': ['ns2.example']}))
        self.assertEqual(
            self.unpacked(deposit(), words=['--known', 'none']).lines,
            ['unpack_rde: none: it has no envelope.json'])

    def test_registrars_are_named_by_their_gurids(self) -> None:
        domains = csv_definition('domain', ['csvDomain:fName', 'csvRegistrar:fGurid'],
                                 file_of('d.csv'))
        for fields, rows, key in (('csvRegistrar:fId csvRegistrar:fGurid', b'R8,8\n', 'R8'),
                                  ('csvRegistrar:fName csvRegistrar:fGurid', b'Eight,8\n', '8')):
            with self.subTest(fields):
                registrars = csv_definition('registrar', fields.split(), file_of('r.csv'))
                found = self.written(
                    deposit(in_files('csvDomain', domains) + in_files('csvRegistrar', registrars)),
                    {'d.csv': b'a.example,8\n', 'r.csv': rows})
                self.assertEqual(self.rows(found, 'domain'), [{'name': 'a.example', 'clID': key}])
                self.assertEqual(self.rows(found, 'registrar')[0]['id'], key)

    def test_files_of_one_table_may_have_other_fields(self) -> None:
        life, ds, key = (['csvDomain:fName parent="true"',
                          'csvDomain:fMaxSigLife'], ['csvDomain:fKeyTag', 'csvDomain:fDigest'],
                         ['csvDomain:fFlags', 'csvDomain:fPubKey'])
        definitions = [
            csv_definition('dnssec', life + ds, file_of('ds.csv')),
            csv_definition('dnssec', life + key, file_of('key.csv')),
            csv_definition('domain', ['csvDomain:fName'], file_of('d.csv'))
        ]
        found = self.written(
            deposit(in_files('csvDomain', *definitions)), {
                'ds.csv': b'a.example,604800,30730,91C9\n',
                'key.csv': b'a.example,604800,257,AwEA\n', 'd.csv': b'a.example\n'
            })
        self.assertEqual(
            self.rows(found, 'secDNS'),
            [{'name': 'a.example', 'maxSigLife': '604800', 'keyTag': '30730', 'digest': '91C9'},
             {'name': 'a.example', 'maxSigLife': '604800', 'flags': '257', 'pubKey': 'AwEA'}])

    def test_custom_and_localized_fields_have_names_of_their_own(self) -> None:
        fields = [
            'rdeCsv:fIdnTableId', 'rdeCsv:fCustom name="note"', 'csvContact:fCity isLoc="true"',
            'csvContact:fStreet isLoc="false" index="2"'
        ]
        found = self.written(deposit(idns(fields=fields)), {'i.csv': b'L1,a,b,c\n'})
        self.assertEqual(
            self.rows(found, 'idn'),
            [{'idnTableId': 'L1', 'custom.note': 'a', 'loc.city': 'b', 'street.2': 'c'}])

    def test_checksums_are_those_of_the_standard(self) -> None:
        # These two are printed in RFC 9022, sections 5.5.2.2.1 and 5.4.2.2.1, of files without an
        # end of line.
        self.assertEqual([f'{zlib.crc32(it):08X}' for it in (b'LANG-2', b'registrarZ')],
                         ['4A28A569', '5CB20A52'])
        for data, said in ((b'LANG-2', {'cksum': '4A28A569'}), (b'LANG-2', {
                'cksum': hashlib.sha256(b'LANG-2').hexdigest().upper(), 'cksumAlg': 'SHA256'
        }), (gzip.compress(b'LANG-2'), {'cksum': '4a28a569', 'compression': 'gzip'})):
            with self.subTest(said):
                gone = in_files(
                    'csvIDN',
                    csv_definition('idnLanguage', ['rdeCsv:fIdnTableId'], file_of('g.csv', **said)),
                    word='deletes')
                self.assertEqual(
                    objects_in(self.written(deposit(deletes=gone), {'g.csv': data}).out),
                    ({}, {'idn': ['LANG-2']}))

    def test_files_are_read_in_their_encoding(self) -> None:
        for encoding, data in (
            ('ISO-8859-1', 'L1,é\n'.encode('latin-1')),
            ('UTF-16', 'L1,é\n'.encode('utf-16')),
            ('UTF-8', '\ufeffL1,é\n'.encode()),
            ('utf-8', b'L1,\xc3\xa9\r\n\r\n'),
        ):
            with self.subTest(encoding):
                found = self.written(deposit(idns(file_of('\n i.csv\n ', encoding=encoding))),
                                     {'i.csv': data})
                self.assertEqual(self.rows(found, 'idn'), [{'idnTableId': 'L1', 'url': 'é'}])

    def test_files_may_be_in_another_folder(self) -> None:
        found = self.unpacked(deposit(idns()))
        write(os.path.join(found.folder, 'files', 'i.csv'), b'L1,u\n')
        found.run(['--files', 'files'])
        self.assertEqual((found.status, self.rows(found, 'idn')),
                         (0, [{'idnTableId': 'L1', 'url': 'u'}]))


# Of each thing that is not carried the line that tells it, the document, and the files beside it.
TOLD = (
    ('unknown: element rde:deposit/rde:contents/{urn:x}thing 2',
     deposit('<thing xmlns="urn:x"><part/></thing><thing xmlns="urn:x"/>'), {}),
    ('unknown: element rde:deposit/rde:contents/rdeDomain:domain/rdeDomain:colour 1',
     deposit(domain('a.example', element('rdeDomain:colour', 'red'))), {}),
    ('unknown: element rde:deposit/rde:contents/rdeDomain:delete 1',
     deposit(element('rdeDomain:delete', within=element('rdeDomain:name', 'a'))), {}),
    ('unknown: element rde:deposit/rde:deletes/rdeDomain:domain 1',
     deposit(deletes=domain('a.example')), {}),
    ('unknown: element rde:deposit/rde:more 1', deposit(menu=MENU + element('rde:more')), {}),
    ('unknown: attribute rde:deposit/rde:contents/rdeDomain:domain/rdeDomain:name/@lang 1',
     deposit(element('rdeDomain:domain', within=element('rdeDomain:name', 'a.example',
                                                        lang='en'))), {}),
    ('unknown: attribute rde:deposit/@note 1', deposit(header={**HEADER, 'note': 'x'}), {}),
    ('unknown: namespace urn:example:own-1.0 1',
     deposit(menu=MENU.replace('</rde:rdeMenu>',
                               element('rde:objURI', 'urn:example:own-1.0') + '</rde:rdeMenu>')),
     {}),
    ('unknown: rde:deposit/rde:rdeMenu/rde:version 2.0 1',
     deposit(menu=element('rde:rdeMenu', within=element('rde:version', '2.0'))), {}),
    ('unknown: text in rde:deposit/rde:contents/rdeDomain:domain 1',
     deposit(domain('a.example', 'red')), {}),
    ('unknown: text in rde:deposit/rde:contents 1', deposit('red'), {}),
    ('unknown: rde:deposit/rde:contents/rdeHeader:header/rdeHeader:count of urn:x 1',
     deposit(element('rdeHeader:header', within=element('rdeHeader:count', '1', uri='urn:x'))), {}),
    ('unknown: element rde:deposit/rde:contents/rdeContact:contact/rdeContact:postalInfo/'
     'contact:addr/contact:street number 4 1',
     deposit(
         element(
             'rdeContact:contact', within=element('rdeContact:id', 'C1') +
             element('rdeContact:postalInfo', type='int', within=element(
                 'contact:addr', within=element('contact:street', 'x') * 4)))), {}),
    ('unknown: rde:deposit/rde:contents/csvIDN:contents/rdeCsv:csv of colours 1',
     deposit(in_files('csvIDN', csv_definition('colours', ['rdeCsv:fUrl'], file_of('i.csv')))), {}),
    ('unknown: field rdeCsv:fColour of idn 1',
     deposit(idns(fields=['rdeCsv:fIdnTableId', 'rdeCsv:fColour'])), {'i.csv': b'L1,red\n'}),
    ('unknown: attribute rde:deposit/rde:contents/csvIDN:contents/rdeCsv:csv/rdeCsv:files/'
     'rdeCsv:file/@owner 1',
     deposit(idns(file_of('i.csv', owner='me'))), {'i.csv': b''}),
)
LEFT_OUT = (
    ('left out: rde:deposit/rde:contents/rdePolicy:policy 1',
     deposit('<p:policy xmlns:p="urn:ietf:params:xml:ns:rdePolicy-1.0" scope="x"/>'), {}),
    ('left out: rde:deposit/rde:contents/rdeHeader:header/rdeHeader:count of rdeDomain by @rcdn 1',
     deposit(counted('7', rcdn='com.example')), {}),
    ('empty: idn.url, which the document requires 1',
     deposit(idns(fields=['rdeCsv:fIdnTableId', 'rdeCsv:fUrl isRequired="true"'])),
     {'i.csv': b'L1,\n'}),
    ('orphan: row of domainStatuses of a domain that is not in the deposit 2',
     deposit(
         in_files(
             'csvDomain',
             csv_definition('domainStatuses', ['csvDomain:fName', 'csvDomain:fStatus'],
                            file_of('s.csv')))), {'s.csv': b'a.example,ok\nb.example,ok\n'}),
)


class Notes(Case):
    def test_what_is_unknown_is_told_and_refused_where_that_is_asked(self) -> None:
        for line, text, files in TOLD:
            with self.subTest(line):
                found = self.unpacked(text, files)
                self.assertEqual((found.status, found.lines), (0, [line]))
                strict = self.unpacked(text, files, ['--strict'])
                self.assertEqual((strict.status, strict.lines[0], os.path.exists(strict.out)),
                                 (1, line, False))

    def test_what_the_desk_has_no_place_for_is_told(self) -> None:
        for line, text, files in LEFT_OUT:
            with self.subTest(line):
                found = self.unpacked(text, files, ['--strict'])
                self.assertEqual((found.status, found.lines), (0, [line]))

    def test_a_field_that_is_not_known_is_carried_under_its_own_name(self) -> None:
        found = self.unpacked(deposit(idns(fields=['rdeCsv:fIdnTableId', 'rdeCsv:fColour'])),
                              {'i.csv': b'L1,red\n'})
        self.assertEqual(self.rows(found, 'idn'), [{'idnTableId': 'L1', 'fColour': 'red'}])

    def test_more_than_a_bundle_takes_is_told(self) -> None:
        found = self.unpacked(deposit(idns()),
                              {'i.csv': b''.join(b'L%d,u\n' % it for it in range(100_001))})
        self.assertEqual(found.status, 0)
        self.assertIn('100001 rows', found.lines[-1])


class Maps(Case):
    HEAD = 'what,name,becomes,section\n'

    def test_lines_of_an_operator_take_the_place_of_its_own(self) -> None:
        own = (self.HEAD + 'namespace,own,urn:x,mine\n'
               'cell,rdeDomain:domain/own:colour,domain.colour,mine\n'
               'field,idn/rdeCsv:fUrl,address,mine\n')
        text = deposit(domain('a.example', '<colour xmlns="urn:x">red</colour>') + idns())
        found = self.written(text, {'i.csv': b'L1,u\n', 'own.csv': own.encode()},
                             ['--strict', '--map', 'own.csv'])
        self.assertEqual(self.rows(found, 'domain'), [{'name': 'a.example', 'colour': 'red'}])
        self.assertEqual(self.rows(found, 'idn'), [{'idnTableId': 'L1', 'address': 'u'}])

    def test_a_newer_namespace_can_be_named(self) -> None:
        own = self.HEAD + 'namespace,rdeDomain,urn:ietf:params:xml:ns:rdeDomain-1.1,mine\n'
        text = deposit(domain('a.example')).replace(b'rdeDomain-1.0', b'rdeDomain-1.1')
        found = self.written(text, {'own.csv': own.encode()}, ['--map', 'own.csv'])
        self.assertEqual(self.rows(found, 'domain'), [{'name': 'a.example'}])

    def test_other_lines_are_refused(self) -> None:
        for text, words in (('', 'own.csv: the first line is not'),
                            (self.HEAD + 'colour,red,blue,x\n', 'own.csv:2: no line'),
                            (self.HEAD + 'cell,a,b\n', 'own.csv:2: no line'),
                            (self.HEAD + 'cell,a,b,c\n', 'own.csv:2: no table and field')):
            with self.subTest(text):
                found = self.unpacked(deposit(), {'own.csv': text.encode()}, ['--map', 'own.csv'])
                self.assertEqual((found.status, found.lines[-1].startswith(f'unpack_rde: {words}')),
                                 (1, True), found.lines)


class Memory(Case):
    # Measures the most memory of the program, in KB.
    MEASURED = ('import resource,subprocess,sys;subprocess.run(sys.argv[1:],check=True);'
                'print(resource.getrusage(resource.RUSAGE_CHILDREN).ru_maxrss)')

    def most_memory(self, count: int) -> int:
        with tempfile.TemporaryDirectory() as folder:
            text = deposit('@').decode().split('@')
            with open(os.path.join(folder, 'd.xml'), 'w') as file:
                file.write(text[0])
                for at in range(count):
                    file.write(registrar(element('rdeRegistrar:url', 'x' * 1_000), id=f'R{at}'))
                file.write(text[1])
            return int(
                subprocess.run(
                    [sys.executable, '-c', self.MEASURED, sys.executable, PROGRAM, 'd.xml', 'out'],
                    cwd=folder, check=True, capture_output=True, text=True).stdout.splitlines()[-1])

    def test_memory_does_not_grow_with_the_document(self) -> None:
        # The second document has 30 MB.
        self.assertLess(self.most_memory(25_000) - self.most_memory(100), 6_000)


def host(name: str, roid: str, *addresses: str) -> str:
    its = ''.join(element('rdeHost:addr', it, ip='v4') for it in addresses)
    return element('rdeHost:host',
                   within=element('rdeHost:name', name) + element('rdeHost:roid', roid) + its)


HOSTS = in_files('csvHost', HOST, ADDRESSES)


class Roids(Case):
    """Hosts that have another name, or the name of another one, under their ROIDs."""

    def first(self) -> Unpacked:
        return self.written(deposit(host('ns1.a.test', 'H1') + host('ns2.a.test', 'H2')))

    def changed(self, files: Mapping[str, bytes] | None, deletes: str = '',
                known: Sequence[Unpacked] = (), header: Mapping[str, str] = DIFF) -> Unpacked:
        words = [word for it in (known or [self.first()]) for word in ('--known', it.out)]
        return self.unpacked(deposit(HOSTS, deletes, header=header), files, words)

    def test_this_deposits_roids_go_before_those_of_earlier_ones(self) -> None:
        found = self.changed(
            {'h.csv': b'ns9.a.test,H1\n', 'a.csv': b'H1,192.0.2.9,v4\nH2,192.0.2.2,v4\n'})
        self.assertEqual([it['name'] for it in self.rows(found, 'hostAddresses')],
                         ['ns9.a.test', 'ns2.a.test'])
        self.assertIn('renamed: host that had another name under its roid in an earlier deposit 1',
                      found.lines)

    def test_a_deleted_roid_is_that_of_the_earlier_name(self) -> None:
        gone = in_files('csvHost', DELETED_HOST, word='deletes')
        found = self.changed(
            {'h.csv': b'ns9.a.test,H1\n', 'a.csv': b'H1,192.0.2.9,v4\n', 'g.csv': b'H1\n'}, gone)
        self.assertEqual((found.status, objects_in(found.out)[1]), (0, {'host': ['ns1.a.test']}))

    def test_later_deposits_go_before_earlier_ones_in_whatever_order(self) -> None:
        first = self.first()
        second = self.changed({'h.csv': b'ns9.a.test,H1\n', 'a.csv': b''}, known=[first])
        later = WATERMARK.replace('03T', '04T')
        write(os.path.join(second.out, 'envelope.json'),
              read(os.path.join(second.out, 'envelope.json')).replace(b'03T', b'04T'))
        for known in ([first, second], [second, first]):
            words = [word for it in known for word in ('--known', it.out)]
            found = self.unpacked(
                deposit(HOSTS, header={**DIFF, 'id': 'D3', 'prevId': 'D2'},
                        watermark=later.replace('04T', '05T')),
                {'h.csv': b'', 'a.csv': b'H1,192.0.2.9,v4\n'}, words)
            self.assertEqual(self.rows(found, 'hostAddresses'),
                             [{'name': 'ns9.a.test', 'addr': '192.0.2.9', 'addrVersion': 'v4'}])

    TWO = 'left out: host of a name that another one has 1'

    def test_of_two_hosts_of_one_name_the_second_is_left_out_and_told(self) -> None:
        found = self.unpacked(
            deposit(host('ns.a.test', 'H1', '192.0.2.1') + host('NS.a.test', 'H2', '192.0.2.2')))
        self.assertEqual((found.status, found.lines), (0, [self.TWO]))
        self.assertEqual([it['roid'] for it in self.rows(found, 'host')], ['H1'])
        self.assertEqual([it['addr'] for it in self.rows(found, 'hostAddresses')], ['192.0.2.1'])

    def test_rows_of_files_of_the_second_are_left_out_and_what_names_it_has_the_name(self) -> None:
        files = {
            'h.csv': b'ns.a.test,H1\nns.a.test,H2\n',
            'a.csv': b'H1,192.0.2.1,v4\nH2,192.0.2.2,v4\n', 'n.csv': b'a.example,H2\n',
            'd.csv': b'a.example\n'
        }
        domains = in_files(
            'csvDomain', csv_definition('domain', ['csvDomain:fName'], file_of('d.csv')),
            csv_definition('domainNameServers', ['csvDomain:fName parent="true"', 'rdeCsv:fRoid'],
                           file_of('n.csv')))
        found = self.unpacked(deposit(HOSTS + domains), files)
        self.assertEqual(
            (found.status, found.lines),
            (0, [self.TWO, 'left out: row of hostAddresses of a host that is left out 1']))
        self.assertEqual([it['addr'] for it in self.rows(found, 'hostAddresses')], ['192.0.2.1'])
        self.assertEqual(self.rows(found, 'domainNs'),
                         [{'name': 'a.example', 'hostName': 'ns.a.test'}])
        # A later deposit knows it, and deletes it alone.
        later = self.unpacked(
            deposit(deletes=in_files('csvHost', DELETED_HOST, word='deletes'), header=DIFF),
            {'g.csv': b'H2\n'}, ['--known', found.out])
        self.assertEqual((later.status, later.lines),
                         (0, ['left out: delete of a host that is left out 1']))
        self.assertEqual(objects_in(later.out), ({}, {}))

    def test_one_host_twice_is_refused(self) -> None:
        found = self.unpacked(deposit(host('ns.a.test', 'H1') * 2))
        self.assertIn('the host ns.a.test is there twice', found.lines[-1])

    def test_what_a_full_deletes_counts_for_nothing(self) -> None:
        for deletes, files in ((GONE, {}), (in_files('csvHost', DELETED_HOST,
                                                     word='deletes'), {'g.csv': b'H1\n'})):
            found = self.unpacked(deposit(deletes=deletes), files)
            self.assertEqual(
                (found.status, found.lines),
                (0, ['left out: delete in a Full of a host whose roid is not known 1']))


class Columns(Case):
    def test_a_table_has_the_same_columns_in_each_deposit(self) -> None:
        ds = csv_definition('dnssec', ['csvDomain:fName', 'csvDomain:fKeyTag'], file_of('ds.csv'))
        life = csv_definition(
            'dnssec', ['csvDomain:fMaxSigLife', 'csvDomain:fName', 'rdeCsv:fCustom name="x"'],
            file_of('ds.csv'))
        domains = csv_definition('domain', ['csvDomain:fName'], file_of('d.csv'))
        found = {}
        for definition, row in ((ds, b'a.example,1\n'), (life, b'604800,a.example,y\n')):
            made = self.written(deposit(in_files('csvDomain', definition, domains)),
                                {'ds.csv': row, 'd.csv': b'a.example\n'})
            found[row] = {it['name']: it['fields'] for it in description_in(made.out)['contents']}
        of_xml = self.written(
            deposit(
                domain('a.example',
                       element('rdeDomain:secDNS', within=element('secDNS:maxSigLife', '1')))))
        wanted = {it['name']: it['fields'] for it in description_in(of_xml.out)['contents']}
        self.assertEqual(found[b'a.example,1\n'], wanted)
        self.assertEqual(found[b'604800,a.example,y\n'],
                         {**wanted, 'secDNS': [*wanted['secDNS'], 'custom.x']})

    def test_names_of_a_registrys_own_fields_may_have_any_signs(self) -> None:
        fields = [
            'rdeCsv:fIdnTableId', 'rdeCsv:fCustom name="trade mark"', 'rdeCsv:fCustom name="é_.-1"'
        ]
        found = self.unpacked(deposit(idns(fields=fields)), {'i.csv': b'L1,a,b\n'})
        self.assertEqual(
            self.rows(found, 'idn'),
            [{'idnTableId': 'L1', 'custom.trade_20mark': 'a', 'custom._c3_a9_.-1': 'b'}])
        self.assertEqual(found.lines, [
            'renamed: field trade mark of idn, to custom.trade_20mark 1',
            'renamed: field é_.-1 of idn, to custom._c3_a9_.-1 1'
        ])

    def test_a_line_of_an_operator_names_such_a_field(self) -> None:
        own = 'what,name,becomes,section\nfield,idn/rdeCsv:fCustom[trade mark],mark,ours\n'
        found = self.written(
            deposit(idns(fields=['rdeCsv:fIdnTableId', 'rdeCsv:fCustom name="trade mark"'])),
            {'i.csv': b'L1,a\n', 'own.csv': own.encode()}, ['--map', 'own.csv'])
        self.assertEqual(self.rows(found, 'idn'), [{'idnTableId': 'L1', 'mark': 'a'}])


class Silence(Case):
    """Nothing is left out silently."""

    def lines(self, text: bytes, files: Mapping[str, bytes] | None = None,
              words: Sequence[str] = ()) -> list[str]:
        found = self.unpacked(text, files, words)
        self.assertEqual(found.status, 0)
        return found.lines

    def test_a_file_beside_the_document_that_it_does_not_name(self) -> None:
        files = {
            'i.csv': b'L1,u\n', 'more.CSV': b'', 'more.csv.gz': b'', 'notes.txt': b'',
            'own.csv': b'what,name,becomes,section\n'
        }
        told = [
            f'unknown: file {it} beside the document, which does not name it 1'
            for it in ('more.CSV', 'more.csv.gz')
        ]
        self.assertEqual(self.lines(deposit(idns()), files, ['--map', 'own.csv']), told)
        self.assertEqual(
            self.unpacked(deposit(idns()), files, ['--strict', '--map', 'own.csv']).status, 1)

    def test_a_field_that_is_required_by_itself(self) -> None:
        fields = ['csvDomain:fName', 'rdeCsv:fRoid', 'rdeCsv:fClID', 'rdeCsv:fCrDate']
        told = [f'empty: domain.{it}, which the document requires 1' for it in ('clID', 'roid')]
        files = {'d.csv': b'a.example,,,\n'}
        self.assertEqual(
            self.lines(
                deposit(in_files('csvDomain', csv_definition('domain', fields, file_of('d.csv')))),
                files), told)
        fields[1:3] = [f'{it} isRequired="false"' for it in fields[1:3]]
        self.assertEqual(
            self.lines(
                deposit(in_files('csvDomain', csv_definition('domain', fields, file_of('d.csv')))),
                files), [])

    def test_an_element_that_would_be_a_row_and_is_empty(self) -> None:
        front = 'empty: element rde:deposit/rde:contents/rdeDomain:domain'
        for more, told in ((element('rdeDomain:ns', within=element('domain:hostObj')),
                            'rdeDomain:ns/domain:hostObj'), (element('rdeDomain:status'),
                                                             'rdeDomain:status'),
                           ('<rdeDomain:status s=""/>',
                            'rdeDomain:status'), (element('rdeDomain:secDNS'), 'rdeDomain:secDNS')):
            self.assertEqual(self.lines(deposit(domain('a.example', more))), [f'{front}/{told} 1'])

    def test_cells_with_control_characters(self) -> None:
        found = self.unpacked(deposit(idns()), {'i.csv': b'L1,a\x1b[2Jb\nL2,c\x00\nL3,"d\n\te"\n'})
        if found.status == 0:
            self.assertEqual(found.lines,
                             ['control: cell of idn.url with control characters, as they are 2'])
            self.assertEqual([it['url'] for it in self.rows(found, 'idn')],
                             ['a\x1b[2Jb', 'c\0', 'd\n\te'])
        else:
            # (The reader of Python 3.10 refuses NUL.)
            self.assertIn('NUL', found.lines[-1])

    def test_what_is_told_changes_nothing_at_a_terminal(self) -> None:
        lines = self.lines(
            deposit(
                in_files(
                    'csvIDN',
                    csv_definition('a&#10;b&#x9b;2J', ['rdeCsv:fUrl'],
                                   file_of('i.csv')).replace('&amp;', '&'))))
        self.assertEqual(
            lines,
            ['unknown: rde:deposit/rde:contents/csvIDN:contents/rdeCsv:csv of a\\u{a}b\\u{9b}2J 1'])

    def test_the_counts_of_the_deposits_own_domain_are_those_of_all(self) -> None:
        tld = element('rdeHeader:tld', 'Example')
        own = counted('7', rcdn='example').replace('</rdeHeader:header>',
                                                   f'{tld}</rdeHeader:header>')
        self.assertEqual(description_in(self.written(deposit(own)).out)['counts'], {'domain': 7})
        both = own.replace(
            '<rdeHeader:count',
            element('rdeHeader:count', '8', uri='urn:ietf:params:xml:ns:rdeDomain-1.0') +
            '<rdeHeader:count', 1)
        found = self.unpacked(deposit(both))
        self.assertEqual((description_in(found.out)['counts'], len(found.lines)),
                         ({'domain': 8}, 1))

    def test_what_is_told_is_in_the_envelope(self) -> None:
        found = self.unpacked(deposit('<thing xmlns="urn:x"/>' * 2))
        self.assertEqual(description_in(found.out)['notes'], found.lines)
        many = self.unpacked(
            deposit(''.join(f'<a{at:04} xmlns="urn:x"/>' for at in range(1_100)) +
                    f'<{"b" * 300} xmlns="urn:x"/>'))
        notes = description_in(many.out)['notes']
        self.assertEqual((len(many.lines), len(notes), notes[:100], notes[100]),
                         (1_001, 101, many.lines[:100], 'and 901 lines more'))
        self.assertIn('unknown: others, which are not told one by one 101', many.lines)
        self.assertLess(max(map(len, notes)), 250)
        self.assertNotIn('notes', description_in(self.written(deposit()).out))


class Hostile(Case):
    """What an archive may have beside a document."""
    FILE = {'compression': 'gzip'}

    def refused(self, found: Unpacked, words: str) -> None:
        self.assertEqual(found.status, 1, found.lines)
        self.assertIn(words, found.lines[-1])
        self.assertFalse(os.path.exists(found.out))

    def test_a_line_without_end_is_refused_before_it_fills_memory(self) -> None:
        bomb = gzip.compress(b'L1,' + b'u' * (1 << 27), 1)
        self.assertLess(len(bomb), 1 << 20)
        self.refused(self.unpacked(deposit(idns(file_of('i.csv', **self.FILE))), {'i.csv': bomb}),
                     'no row of CSV: longer than 16777216 characters')
        quoted = gzip.compress(b'L1,"' + b'u\n' * (1 << 25), 1)
        self.refused(self.unpacked(deposit(idns(file_of('i.csv', **self.FILE))), {'i.csv': quoted}),
                     'no row of CSV')

    def beside(self, put: Callable[[str], object]) -> Unpacked:
        """What is unpacked where something else than a file is beside the document."""
        found = self.unpacked(deposit(idns()), {'k.csv': b'L1,u\n'})
        put(os.path.join(found.folder, 'i.csv'))
        found.run([])
        return found

    def test_a_pipe_is_not_waited_for(self) -> None:
        self.refused(self.beside(os.mkfifo), 'it is no plain file')
        found = self.unpacked(deposit())
        shutil.rmtree(found.out)
        os.remove(os.path.join(found.folder, 'd.xml'))
        os.mkfifo(os.path.join(found.folder, 'd.xml'))
        found.run([])
        self.refused(found, 'it is no plain file')

    def test_a_link_out_of_the_folder_is_not_read(self) -> None:
        self.refused(self.beside(lambda path: os.symlink('/etc/passwd', path)),
                     'the file i.csv is a link out of')
        self.refused(self.beside(lambda path: os.symlink('nothing', path)),
                     'the file i.csv is not in')
        self.assertEqual(self.beside(lambda path: os.symlink('k.csv', path)).status, 0)


class Rest(Case):
    """What no table has is kept in a file, as it stood."""
    POLICY = ('<p:policy xmlns:p="urn:ietf:params:xml:ns:rdePolicy-1.0" '
              'scope="//rde:deposit/rde:contents/rdeDomain:domain" element="rdeDomain:name"/>')
    PARAMS = (
        '<rdeEppParams:eppParams xmlns:rdeEppParams="urn:ietf:params:xml:ns:rdeEppParams-1.0" '
        'xmlns:e="urn:e"><e:version a="&lt;&quot;&#10;">1.0</e:version>'
        '<e:b xml:lang="en">a &amp; b&#13;<![CDATA[<c>]]></e:b></rdeEppParams:eppParams>')
    OWN = '<thing xmlns="urn:x"><part z="1"/><x:y xmlns:x="urn:y" x:a="2">t</x:y></thing>'

    def kept(self, *objects: str, encoding: str = 'utf-8') -> tuple[bytes, str]:
        text = deposit(''.join(objects)).decode().replace(
            '<?xml version="1.0"?>', f'<?xml version="1.0" encoding="{encoding}"?>')
        found = self.unpacked(text.encode(encoding))
        self.assertEqual(found.status, 0)
        return read(os.path.join(found.out, 'rest.xml')), text

    def test_its_objects_are_those_of_the_document(self) -> None:
        for objects in ((self.POLICY,), (self.PARAMS,), (self.OWN,),
                        (self.OWN, registrar(), self.POLICY, self.PARAMS, self.OWN)):
            for encoding in ('utf-8', 'utf-16', 'latin-1'):
                data, text = self.kept(*objects, encoding=encoding)
                wanted = [
                    it for it in ElementTree.fromstring(text).find('{*}contents')
                    if not it.tag.endswith('registrar')
                ]
                root = ElementTree.fromstring(data)
                self.assertEqual(root.tag, '{urn:restore-desk:rest-1.0}rest')
                self.assertEqual([ElementTree.tostring(it).strip() for it in root],
                                 [ElementTree.tostring(it).strip() for it in wanted])

    def test_prefixes_that_its_texts_name_are_declared(self) -> None:
        data, _ = self.kept(self.POLICY)
        spaces = dict(
            it for _, it in ElementTree.iterparse(io.BytesIO(data), events=('start-ns',)))
        self.assertEqual({it: spaces.get(it)
                          for it in ('rde', 'rdeDomain')},
                         {it: URIS[it]
                          for it in ('rde', 'rdeDomain')})
        self.assertIn(self.POLICY.partition(' scope=')[2].encode()[:-2], data)

    def test_there_is_none_where_nothing_is_left_over(self) -> None:
        self.assertFalse(
            os.path.exists(os.path.join(self.written(deposit(registrar())).out, 'rest.xml')))
        inner = self.unpacked(deposit(domain('a.example', element('rdeDomain:colour', 'red'))))
        self.assertFalse(os.path.exists(os.path.join(inner.out, 'rest.xml')))


class Progress(Case):
    def test_how_far_it_is_is_told_where_it_is_asked(self) -> None:
        found = self.unpacked(deposit(registrar()), words=['--progress'])
        self.assertRegex(found.lines[0], r'^unpack_rde: 0 of 0 MB, 0 objects')
        self.assertEqual(self.rows(found, 'registrar'), [{'id': 'R1', 'name': 'One'}])

"""Tests of `unpack_rde --described`: bare CSV files with their description, of any size. What they
are is said by the plain model of a desk."""
import collections
import json
import os
import random
import tempfile
from collections.abc import Mapping
from collections.abc import Sequence

from tests.support.described import Files
from tests.support.escrow import description_in
from tests.support.escrow import folders_in
from tests.support.formats import Deposit
from tests.support.formats import deposit as deposit_in
from tests.support.formats import key as key_of
from tests.support.unpacking import Case
from tests.support.unpacking import Described
from tests.support.unpacking import desk

FULL = {'id': 'F1', 'type': 'FULL', 'watermark': '2024-03-03T00:00:00Z'}
DIFF = {'id': 'D2', 'type': 'DIFF', 'prevId': 'F1', 'watermark': '2024-03-04T00:00:00Z'}
INCR = {'id': 'I3', 'type': 'INCR', 'watermark': '2024-03-05T00:00:00Z'}
# Each kind after those that its objects name.
ORDER = ('registrar', 'idn', 'contact', 'host', 'domain', 'nndn')
DOMAIN = {
    'name': 'domain', 'kind': 'domain', 'role': 'parent', 'key': 'name',
    'fields': ['name', 'clID'], 'file': 'd.csv', 'heading': True
}
STATUSES = {
    'name': 'domainStatuses', 'kind': 'domain', 'role': 'child', 'key': 'name',
    'fields': ['name', 'status'], 'file': 's.csv', 'heading': True
}
GONE = {**DOMAIN, 'file': 'g.csv', 'from': ['gone.csv']}
DOMAINS = {
    'd.csv': b'name,clID\na.example,R1\nB.example,R1\n',
    's.csv': b'name,status\na.example,ok\nb.example,ok\n'
}
FILES = {**FULL, 'contents': [DOMAIN, STATUSES]}
# A table, its fields, the heading of its file, and whether that names them.
HEADINGS = (
    ('domain', 'name,clID,registrant,idnTableId', 'name,fClID,fRegistrant,fIdnTableId', True),
    ('domain', 'name,crDate,exDate,status', 'name,fCrDate,fExDate,fStatus', True),
    ('domainContacts', 'name,contactId', 'name,fId', True),
    ('domainNs', 'name,hostName', 'name,fHostName', True),
    ('domainNs', 'name,contactId', 'name,fId', False),
    ('domain', 'name,clID', 'fName,clID', False),
    ('domain', 'name,fClID', 'name,clID', False),
    ('domain', 'name,clID,status', 'name,status,clID', False),
)
# Where a file is wrong, and how, and the file.
NOT_AS_DESCRIBED = {
    ': it does not begin with the fields of domain: name,clID': b'\n',
    ':1: 1 fields, and not the 2 that are declared': b'name\n',
    ':4: 3 fields, and not the 2 that are declared': b'name,clID\na,R1\n\nb,R1,\n',
    ':2: field 2 has bytes that are no text': b'name,clID\na,\xff\n',
    ':2: a domain without name': b'name,clID\n,R1\n',
    ':2: the name of a domain is longer than 255 bytes': b'name,clID\n' + b'x' * 256 + b',R1\n',
    ':3: a row begins with a byte order mark': b'name,clID\na,R1\n\xef\xbb\xbfb,R1\n',
    ':2: no row of CSV: unexpected end of data': b'name,clID\n"a,R1\n',
    ":2: no row of CSV: ',' expected after '\"'": b'name,clID\n"a"b,R1\n',
}


def of_table(**members: object) -> dict[str, object]:
    return {**FULL, 'contents': [{**DOMAIN, **members}]}


def of_header(**members: object) -> dict[str, object]:
    return {**FILES, **members}


# What is said of a description, and the description.
NO_DESCRIPTIONS = (
    ('it is no JSON', b'{'),
    ('it is no JSON', b'\xff'),
    ('it is no JSON', b'[' * 100_000),
    ('it is no JSON', json.dumps({**FILES, 'x': float('nan')}).encode()),
    ('it is no JSON', json.dumps({**FILES, 'x': '\ud800'}).encode()),
    ('it is no JSON', json.dumps(FILES).encode()[:-1] + b',"x":1e999}'),
    ('it is no JSON object', b'[]'),
    ('id: missing', of_header(id='a b')),
    ('type: missing', of_header(type='full')),
    ('watermark: missing', of_header(watermark=1)),
    ('watermark 2024-03-03: no date and time', of_header(watermark='2024-03-03')),
    ('watermark 2024-02-30T00:00:00Z: day is', of_header(watermark='2024-02-30T00:00:00Z')),
    ('watermark 2300-01-01T00:00:00Z: its year', of_header(watermark='2300-01-01T00:00:00Z')),
    ('prevId: missing, and it is a Differential', of_header(type='DIFF')),
    ('prevId: missing', of_header(prevId=0)),
    ('resend: missing', of_header(resend='1')),
    ('resend: missing', of_header(resend=1_000_000)),
    ('resend: missing', of_header(resend=True)),
    ('counts: missing', of_header(counts=[])),
    ('counts: missing', of_header(counts={'domain': -1})),
    ('counts: missing', of_header(counts={'host': 1.5})),
    ('contents: missing', of_header(contents={})),
    ('deletes: missing', of_header(deletes=None)),
    ('contents table 1, name: missing', of_header(contents=[0])),
    ('contents table 1, name: missing', of_table(name='a-b')),
    ('contents table 1, kind: missing', of_table(kind=[])),
    ('contents table 1, role: missing', of_table(role='Parent')),
    ('deletes table 1, role: missing', of_header(deletes=[{**GONE, 'role': 'child'}])),
    ('contents table 1, fields: missing', of_table(fields=[])),
    ('contents table 1, fields: missing', of_table(fields=['name', 'name'])),
    ('contents table 1, fields: missing', of_table(fields=['name', ['a']])),
    ('contents table 1, fields: missing', of_table(fields=['name', *map(str, range(64))])),
    ('contents table 1, key: missing', of_table(key='id')),
    ('contents table 1, file: missing', of_table(file='D.csv')),
    ('contents table 1, file: missing', of_table(file='envelope.json')),
    ('contents table 1, from: missing', of_table(**{'from': None})),
    ('contents table 1, from: missing', of_table(**{'from': [1]})),
    ('contents table 1, heading: missing', of_table(heading=1)),
    ('contents table 2, name: that of an earlier', of_header(contents=[DOMAIN, DOMAIN])),
    ('contents table 2, kind: that of', of_header(contents=[DOMAIN, {**DOMAIN, 'name': 'x'}])),
    ('section d.csv is named', of_header(contents=[DOMAIN, {**STATUSES, 'file': 'd.csv'}])),
    ('the file d.csv is named twice', of_table(**{'from': ['d.csv', 's.csv', 'd.csv']})),
    ('the file d.csv is named twice', of_header(deletes=[{**GONE, 'from': ['d.csv']}])),
    ('the table second has the name of a file', of_table(name='second')),
)


def rows_at_most(number: int) -> list[str]:
    return ['--part-rows', f'{number}']


class DescribedFiles(Case):
    def taken(self, description: object, files: Mapping[str, bytes], words: Sequence[str] = (),
              status: int = 0) -> Described:
        folder = tempfile.TemporaryDirectory(prefix='case-')
        self.addCleanup(folder.cleanup)
        found = Described(folder.name, description, files, words)
        self.assertEqual(found.status, status, found.lines)
        return found

    def refused(self, wanted: str, description: object = None, files: Mapping[str, bytes] = None,
                words: Sequence[str] = (), status: int = 1) -> None:
        found = self.taken(description or FILES, files or DOMAINS, words, status)
        self.assertIn(wanted, found.lines[-1])
        self.assertEqual(sorted(os.listdir(found.folder)), ['d.xml', 'files'])

    # ---- at random

    def test_at_random_the_parts_make_what_one_bundle_makes(self) -> None:
        seen = collections.Counter()
        for seed in range(40):
            chance = random.Random(f'described {seed}')
            base = Files(chance, FULL)
            header = chance.choice((FULL, DIFF, INCR))
            files = base if header is FULL else Files(chance, header)
            with self.subTest(seed=seed, type=header['type']):
                seen[self.check_files(chance, base, files)] += 1
        self.assertGreater(min(seen[it] for it in (False, True)), 5)

    def check_files(self, chance: random.Random, base: Files, files: Files) -> bool:
        """Compares what the parts of files make with what one bundle does, each on a Full. Whether
        they are a series."""
        before = self.taken(base.description, base.files).given()
        whole = deposit_in(self.taken(files.description, files.files).given())
        sizes = collections.Counter(
            key_of(*it) for it in whole.rows(whole.contents))
        most = chance.randint(max(sizes.values(), default=1), 40)
        found = self.taken(files.description, files.files, rows_at_most(most))
        parts = found.bundles()
        if len(parts) > 1:
            names = [f'part-{at:03}' for at in range(1, len(parts) + 1)]
            self.assertEqual(sorted(os.listdir(found.out)), names)
        first = [] if files is base else [before]
        self.assertEqual(
            desk([*first, *parts]).objects, desk([*first, found.given()]).objects)
        self.check_parts(whole, [deposit_in(it) for it in parts], most)
        told = dict(it.rsplit(' ', 1) for it in found.lines if it.startswith('orphan'))
        self.assertEqual(sum(map(int, told.values())), whole.orphans)
        self.assertEqual('one bundle takes them' in found.lines[-1], len(parts) == 1)
        return len(parts) > 1

    def check_parts(self, whole: Deposit, parts: Sequence[Deposit], most: int) -> None:
        """No part has more rows than it may, each row is in one, those of a key are together, and
        none is lost; deletes are before contents, and kinds in their order."""
        self.assertEqual(sum(it.orphans for it in parts), whole.orphans)
        for member in ('contents', 'deletes'):
            rows = [[(table['name'], *row) for table, row in it.rows(getattr(it, member))]
                    for it in (whole, *parts)]
            self.assertEqual(sorted(rows[0]), sorted(sum(rows[1:], [])))
        where = collections.defaultdict(set)
        order = []
        for at, part in enumerate(parts):
            its = [key_of(*it) for it in part.rows(part.contents)]
            for key in its:
                where[key].add(at)
            order += [(0, 0)] * bool(part.rows(part.deletes)) + sorted(
                {(1, ORDER.index(kind)) for kind, _ in its})
            self.assertLessEqual(len(part.rows([*part.contents, *part.deletes])), most)
        self.assertEqual(set(map(len, where.values())) - {1}, set())
        self.assertEqual(order, sorted(order))
        declared = {(it['name'], *it['fields']) for part in parts for it in part.contents}
        self.assertEqual(declared, {(it['name'], *it['fields']) for it in whole.contents})

    # ---- what it makes

    def test_the_parts_of_a_deposit(self) -> None:
        given = {
            **FULL, 'resend': 2, 'prevId': '', 'tld': 'example', 'counts': {'domain': 9},
            'notes': ['before 1'], 'contents': [STATUSES, DOMAIN],
            'deletes': [{**GONE, 'heading': False}]
        }
        rows = {'gone.csv': b'c.example,x\n', 's.csv': b'b.example,ok\nnobody,ok\n'}
        files = {**DOMAINS, **rows, 's.csv': b'name,status\n' + rows['s.csv'], 'more.csv': b''}
        found = self.taken(given, files, rows_at_most(2))
        told = [description_in(it) for it in folders_in(found.out)]
        members = ('id', 'type', 'prevId', 'resend', 'tld', 'counts')
        self.assertEqual([tuple(map(it.get, members)) for it in told],
                         [('F1.r2.1of3', 'FULL', None, None, 'example', None),
                          ('F1.r2.2of3', 'DIFF', 'F1.r2.1of3', None, 'example', None),
                          ('F1', 'DIFF', 'F1.r2.2of3', 2, 'example', {'domain': 9})])
        lines = [
            'orphan: row of domainStatuses of a domain that is not in the deposit 1',
            'unknown: file more.csv beside the description, which does not name it 1'
        ]
        self.assertEqual([it.get('notes') for it in told], [None, None, ['before 1', *lines]])
        self.assertEqual(found.printed.splitlines(), [
            'part-001/domain.csv 1', 'part-001/domain-delete.csv 1', 'part-002/domain.csv 1',
            'part-002/domainStatuses.csv 1', 'part-003/domainStatuses.csv 1'
        ])
        size = sum(map(len, rows.values())) + len('a.example,R1\nB.example,R1\n')
        self.assertEqual(found.lines, [
            *lines, f'unpack_rde: 5 rows and {size} bytes: a series of 3 bundles, '
            'part-001 to part-003'
        ])

    def test_files_that_one_bundle_takes(self) -> None:
        found = self.taken(FILES, DOMAINS)
        command = 'pack bundle --envelope out/envelope.json out BUNDLE'
        self.assertEqual(found.lines, [f'unpack_rde: one bundle takes them: {command}'])
        self.assertEqual(desk(found.bundles()).objects, desk([found.given()]).objects)
        self.assertEqual(len(self.taken(FILES, DOMAINS, ['--series']).bundles()), 2)

    def test_of_several_rows_of_one_key_the_last_counts(self) -> None:
        files = {**DOMAINS, 'd.csv': b'name,clID\na.example,R1\nb.example,R1\nA.example,R2\n'}
        found = self.taken(FILES, files, rows_at_most(3))
        self.assertEqual(len(found.bundles()), 2)
        self.assertEqual(
            found.lines[0], 'twice: row of domain of a domain that an earlier row has: '
            'of several the desk takes the last 1')
        self.assertEqual(desk(found.bundles()).objects, desk([found.given()]).objects)

    def test_headings_may_have_the_names_of_rfc_9022(self) -> None:
        for table, fields, heading, is_right in HEADINGS:
            names = fields.split(',')
            given = {**FULL, 'contents': [{**DOMAIN, 'name': table, 'fields': names}]}
            files = {'d.csv': heading.encode()}
            with self.subTest(table=table, heading=heading):
                if is_right:
                    told = description_in(self.taken(given, files).out)
                    self.assertEqual(told['contents'][0]['fields'], names)
                else:
                    self.refused(f'does not begin with the fields of {table}: ', given, files)

    def test_what_is_known_of_earlier_deposits(self) -> None:
        full = self.taken(FILES, DOMAINS, rows_at_most(2))
        on = self.taken({**INCR, 'contents': [DOMAIN]}, DOMAINS, ['--known', full.out])
        told = description_in(on.out)
        self.assertEqual((told['type'], told['prevId']), ('DIFF', 'F1'))
        self.assertEqual(len(desk([*full.bundles(), *on.bundles()]).steps), 3)
        again = self.taken({**FILES, 'resend': 1}, DOMAINS, ['--known', full.out])
        told = [description_in(it)['id'] for it in folders_in(again.out)]
        self.assertEqual(told, ['F1.r1.1of2', 'F1'])

    # ---- what is refused

    def test_what_no_bundle_takes_is_refused_by_kind_and_key(self) -> None:
        wanted = 'a.example alone has more rows or bytes than one bundle takes'
        for words in (rows_at_most(1), ['--part-bytes', '20']):
            self.refused(f'files/envelope.json: the domain {wanted}', words=words)
        deletes = {**FULL, 'deletes': [GONE]}
        files = {'gone.csv': b'name,clID\na.example,R1\n'}
        self.refused(f'files/gone.csv:2: the domain {wanted}', deletes, files,
                     ['--part-bytes', '12'])

    def test_files_that_are_not_as_described(self) -> None:
        for wanted, text in NOT_AS_DESCRIBED.items():
            with self.subTest(wanted):
                self.refused(f'd.csv{wanted}', files={**DOMAINS, 'd.csv': text})

    def test_files_that_are_not_there(self) -> None:
        self.refused('the file s.csv is not in', files={'d.csv': DOMAINS['d.csv']})
        for name in ('', '.', '..', '../d.xml', '/etc/passwd', 'a/d.csv'):
            given = {**FULL, 'contents': [{**DOMAIN, 'from': [name]}]}
            with self.subTest(name):
                self.refused('no name of a file', given)

    def test_links_and_pipes(self) -> None:
        for target, wanted in (('../d.xml', 'is a link out of'), ('pipe', 'it is no plain file')):
            with self.subTest(target), tempfile.TemporaryDirectory(prefix='case-') as folder:
                os.mkdir(f'{folder}/files')
                os.mkfifo(f'{folder}/files/pipe')
                os.symlink(target, f'{folder}/files/d.csv')
                found = Described(folder, {**FULL, 'contents': [DOMAIN]}, {})
                self.assertEqual(found.status, 1)
                self.assertIn(wanted, found.lines[-1])

    def test_descriptions_of_another_form(self) -> None:
        for wanted, description in NO_DESCRIPTIONS:
            with self.subTest(wanted, description=f'{description}'[:90]):
                self.refused(wanted, description)

    def test_usage_and_what_is_unknown(self) -> None:
        self.refused('it has what is unknown, and --strict was given',
                     files={**DOMAINS, 'more.CSV': b''}, words=['--strict'])
        self.refused('--map is for documents', words=['--map', 'names.csv'], status=2)
        found = self.taken(FILES, DOMAINS)
        found.run(['--described'])
        self.assertEqual(found.status, 3)
        self.assertIn('something is at its place', found.lines[-1])
        os.rename(found.out, f'{found.out}-1')
        os.remove(f'{found.folder}/files/envelope.json')
        found.run(['--described'])
        self.assertEqual(found.status, 3)
        self.assertIn("'files/envelope.json'", found.lines[-1])

"""Tests of packaging/unpack_rde: deposits that are larger than one bundle. What their bundles make
is asked of the plain model of a desk."""
import csv
import io
import os
import random
import re
import shutil
import tempfile
from collections.abc import Mapping
from collections.abc import Sequence

from tests.support.documents import KEYS
from tests.support.documents import Object
from tests.support.documents import csv_text
from tests.support.documents import document
from tests.support.documents import element
from tests.support.escrow import as_written
from tests.support.escrow import description_in
from tests.support.escrow import folders_in
from tests.support.escrow import objects_in
from tests.support.escrow import some_objects
from tests.support.files import read
from tests.support.formats import Named
from tests.support.formats import deposit as deposit_in
from tests.support.formats import place_text
from tests.support.unpacking import ADDRESSES
from tests.support.unpacking import HOST
from tests.support.unpacking import WATERMARK
from tests.support.unpacking import Case
from tests.support.unpacking import Unpacked
from tests.support.unpacking import counted
from tests.support.unpacking import deposit
from tests.support.unpacking import desk
from tests.support.unpacking import in_files
from tests.support.unpacking import registrar
from tests.support.unpacking import row_of

FULL = {'type': 'FULL', 'id': 'F1', 'watermark': '2024-03-03T00:00:00Z'}
DIFF = {'type': 'DIFF', 'id': 'D2', 'prevId': 'F1', 'watermark': '2024-03-04T00:00:00.5Z'}
INCR = {'type': 'INCR', 'id': 'I4', 'watermark': '2024-03-05T00:00:00Z'}
KINDS = ('registrar', 'idn', 'contact', 'host', 'domain', 'nndn')
# The bundles of two revisions of a Full and of a Differential on it, and the objects that are left.
Revisions = tuple[list[bytes], list[bytes], list[bytes], dict[Named, bytes]]


def rows_at_most(number: int) -> list[str]:
    return ['--part-rows', f'{number}']


def largest(objects: Sequence[Object]) -> int:
    return max(map(len, objects))


class Series(Case):
    def made(self, header: Mapping[str, str], objects: Sequence[Object], words: Sequence[str] = (),
             deletes: Mapping[str, Sequence[str]] | None = None, model: str = 'XML',
             status: int = 0, **more: object) -> Unpacked:
        """What is unpacked of a deposit of these objects."""
        folder = tempfile.TemporaryDirectory(prefix='case-')
        self.addCleanup(folder.cleanup)
        path = document(folder.name, 'd.xml', header, objects, deletes or {},
                        {it: 9
                         for it in KEYS}, model, **more)
        found = Unpacked(folder.name, read(path), words=words)
        self.assertEqual(found.status, status, found.lines)
        return found

    def headers(self, found: Unpacked) -> list[tuple[object, ...]]:
        told = [description_in(it) for it in folders_in(found.out)]
        return [
            tuple(it.get(name)
                  for name in ('id', 'type', 'watermark', 'prevId', 'resend'))
            for it in told
        ]

    def full(self, seed: object, most: int = 5) -> list[Object]:
        return some_objects(random.Random(f'series {seed}'), most)

    # ---- what a series is

    def test_its_headers_are_those_of_differentials_on_each_other(self) -> None:
        text = deposit(
            counted('9', kind='Registrar') + ''.join(registrar(id=f'R{at}') for at in range(5)))
        found = self.unpacked(text, words=rows_at_most(2))
        self.assertEqual(self.headers(found),
                         [('F1.1of3', 'FULL', '2024-03-02T23:59:59.999999998Z', None, None),
                          ('F1.2of3', 'DIFF', '2024-03-02T23:59:59.999999999Z', 'F1.1of3', None),
                          ('F1', 'DIFF', '2024-03-03T00:00:00Z', 'F1.2of3', None)])
        told = [description_in(it) for it in folders_in(found.out)]
        self.assertEqual([os.path.basename(it) for it in folders_in(found.out)],
                         ['part-001', 'part-002', 'part-003'])
        self.assertEqual([it['series'] for it in told],
                         [{'deposit': 'F1', 'part': at, 'of': 3} for at in (1, 2, 3)])
        self.assertEqual([it.get('counts') for it in told], [None, None, {'registrar': 9}])
        size = 5 * len('R0,One' + ',' * (len(told[0]['contents'][0]['fields']) - 2) + '\n')
        self.assertEqual(
            found.lines,
            [f'unpack_rde: 5 rows and {size} bytes: a series of 3 bundles, part-001 to part-003'])
        self.assertEqual(
            found.printed.splitlines(),
            ['part-001/registrar.csv 2', 'part-002/registrar.csv 2', 'part-003/registrar.csv 1'])

    def test_a_differential_and_a_resend_have_places_of_their_own(self) -> None:
        objects = [[('registrar', {'id': f'R{at}', 'name': 'One'})] for at in range(3)]
        self.assertEqual(self.headers(self.made({**DIFF, 'resend': '2'}, objects, rows_at_most(2))),
                         [('D2.r2.1of2', 'DIFF', '2024-03-04T00:00:00.499991807Z', 'F1', None),
                          ('D2', 'DIFF', '2024-03-04T00:00:00.5Z', 'D2.r2.1of2', 2)])
        self.assertEqual(
            self.headers(self.made({**INCR, 'prevId': 'F1'}, objects, rows_at_most(2))),
            [('I4.1of2', 'INCR', '2024-03-04T23:59:59.999999999Z', 'F1', None),
             ('I4', 'DIFF', '2024-03-05T00:00:00Z', 'I4.1of2', None)])

    def test_at_random_its_bundles_make_what_the_whole_deposit_makes(self) -> None:
        for seed in range(16):
            objects = self.full(seed)
            deletes = {
                'domain': ['Gone.example', 'é.example'], 'registrar': ['R"0', 'R1'], 'idn': ['L0']
            } if seed % 2 else {}
            for model in ('XML', 'CSV'):
                most = random.Random(seed).randint(max(3, largest(objects)), 30)
                with self.subTest(seed=seed, model=model, most=most):
                    whole = self.made(FULL, objects, deletes=deletes, model=model)
                    found = self.made(FULL, objects, rows_at_most(most), deletes, model)
                    self.check_parts(found.bundles(), most)
                    self.assertEqual(desk(found.bundles()).objects, desk(whole.bundles()).objects)
                    on, more = desk([*found.bundles(), *self.changed(seed, whole, [], model)
                                     ]), self.changed(seed, found, rows_at_most(most), model)
                    self.assertEqual(desk([*found.bundles(), *more]).objects, on.objects)

    def changed(self, seed: object, full: Unpacked, words: Sequence[str],
                model: str) -> list[bytes]:
        """The bundles of a Differential on a Full, which deletes and changes some of its
        objects."""
        objects = self.full(seed)
        gone = [it for it in objects if it[0][0] != 'host'][::3]
        deletes = {
            kind: [it[0][1][KEYS[kind]] for it in gone if it[0][0] == kind]
            for kind in KINDS
        }
        changed = [[(table, {**cells, 'uName': 'new'} if table in ('domain', 'nndn') else cells)
                    for table, cells in rows]
                   for rows in objects[1::2]]
        roids = {rows[0][1]['name']: rows[0][1]['roid'] for rows in objects if rows[0][0] == 'host'}
        return self.made(DIFF, changed, ['--known', full.out, *words],
                         {kind: keys
                          for kind, keys in deletes.items()
                          if keys}, model, roids=roids).bundles()

    def check_parts(self, bundles: Sequence[bytes], most: int) -> None:
        """No bundle has more than it may; an object is whole in one; deletes are before contents,
        and each kind after those it names."""
        seen: set[Named] = set()
        order = []
        for bundle in bundles:
            part = deposit_in(bundle)
            tables = [*part.contents, *part.deletes]
            self.assertLessEqual(sum(len(part.files[it['file']]) for it in tables), most)
            self.assertEqual(part.orphans, 0)
            keys = {key for key, record in part.says.items() if record is not None}
            self.assertFalse(keys & seen)
            seen |= keys
            order += [(0, 0)] * bool(part.deletes) + sorted({(1, KINDS.index(kind))
                                                             for kind, _ in keys})
        self.assertEqual(order, sorted(order))

    def test_rows_of_files_in_any_order_come_to_their_objects(self) -> None:
        objects = self.full('shuffled', 40)
        found = self.made(FULL, objects, model='CSV')
        wanted = desk(found.bundles()).objects
        # The rows of child tables are turned round, object by object: those of one stay in their
        # order.
        files = {
            it: read(os.path.join(found.folder, it))
            for it in os.listdir(found.folder)
            if it.endswith('.csv')
        }
        for name in ('domainContacts-20240303.csv', 'contactPostal-20240303.csv',
                     'hostAddresses-20240303.csv'):
            rows = list(csv.reader(io.StringIO(files[name].decode(), newline='')))
            self.assertGreater(len(rows), 5)
            rows.sort(key=lambda it: it[0], reverse=True)
            files[name] = csv_text(rows, ',')
        text = re.sub(rb' cksum="[0-9A-F]+"', b'', read(os.path.join(found.folder, 'd.xml')))
        again = self.unpacked(text, files, words=rows_at_most(largest(objects)))
        self.assertEqual(desk(again.bundles()).objects, wanted)
        self.assertEqual(objects_in(found.out)[0], as_written(objects))

    def test_bytes_are_limited_as_rows_are(self) -> None:
        objects = self.full('bytes', 9)
        found = self.made(FULL, objects, ['--part-bytes', '3000'])
        sizes = [
            sum(
                os.path.getsize(os.path.join(it, name))
                for name in os.listdir(it)
                if name.endswith('.csv'))
            for it in folders_in(found.out)
        ]
        self.assertGreater(len(sizes), 2)
        self.assertEqual(
            desk(found.bundles()).objects,
            desk(self.made(FULL, objects).bundles()).objects)

    def test_an_object_that_no_bundle_takes_is_refused_by_its_key(self) -> None:
        rows = [[('domain', {'name': 'A.example'}),
                 *(('domainStatuses', {'status': f's{at}'}) for at in range(4))]]
        for model in ('XML', 'CSV'):
            for words in (rows_at_most(4), ['--part-bytes', '60']):
                with self.subTest(model=model, words=words):
                    found = self.made(FULL, rows, words, model=model, status=1)
                    self.assertRegex(
                        found.lines[-1],
                        r'the domain [Aa]\.example alone has more rows or bytes than one bundle '
                        r'takes$'
                    )
                    self.assertFalse(os.path.exists(found.out))

    def test_a_deposit_that_fits_is_a_series_where_that_is_asked(self) -> None:
        found = self.made(FULL, self.full('asked'), ['--series'])
        self.assertEqual([it[:2] for it in self.headers(found)], [('F1.1of2', 'FULL'),
                                                                  ('F1', 'DIFF')])
        self.assertEqual(
            desk(found.bundles()).objects,
            desk(self.made(FULL, self.full('asked')).bundles()).objects)

    def test_ids_and_watermarks_without_room_are_refused(self) -> None:
        objects = self.full('no room')
        found = self.made({**FULL, 'id': 'F' * 60}, objects, rows_at_most(15), status=1)
        self.assertIn('longer than 64 characters', found.lines[-1])
        found = self.made({**FULL, 'watermark': '1970-01-01T00:00:00.000000001Z'}, objects,
                          rows_at_most(15), status=1)
        self.assertIn('before 1970', found.lines[-1])
        near = self.made({**DIFF, 'watermark': '2024-03-02T23:59:59.999999999Z'}, [])
        found = self.made(FULL, objects, ['--known', near.out, *rows_at_most(15)], status=1)
        self.assertRegex(
            found.lines[-1],
            r'no room for its series of \d+: D2 in .* has the place '
            r'2024-03-02T23:59:59.999999999Z DIFF$'
        )
        # The other way round: among the bundles of a known one, or of its resend.
        full = self.made({**FULL, 'resend': '1'}, objects, rows_at_most(15))
        for moment in ('2024-03-02T23:59:59.999999999Z', '2024-03-02T23:59:59.9999959Z'):
            found = self.made({**DIFF, 'watermark': moment}, [], ['--known', full.out], status=1)
            self.assertRegex(found.lines[-1], 'there is no room for it: F1 in .* has the place '
                             '2024-03-03T00:00:00Z DIFF$')

    # ---- revisions

    def revisions(self, first: int, second: int,
                  seed: object = 'revisions') -> Revisions:
        """The bundles of two revisions of a Full, of so many rows at most, and of a Differential on
        it."""
        one, other = self.full(seed, 8), self.full(f'{seed} again', 8)
        before = self.made(FULL, one, rows_at_most(first))
        after = self.made({**FULL, 'resend': '1'}, other,
                          ['--known', before.out, *rows_at_most(second)])
        return before.bundles(), after.bundles(), self.made(DIFF, [],
                                                            ['--known', after.out]).bundles(), desk(
                                                                self.made(FULL,
                                                                          other).bundles()).objects

    def test_a_resend_of_more_or_fewer_bundles_takes_the_place_of_all(self) -> None:
        for first, second in ((12, 40), (40, 12), (12, 12), (12, 1000)):
            with self.subTest(first=first, second=second):
                before, after, on, wanted = self.revisions(first, second)
                arrivals = [*before, *after, *on]
                for _ in range(4):
                    random.Random(f'{first} {second}').shuffle(arrivals)
                    found = desk([*before, *after, *on], arrivals)
                    self.assertEqual(found.objects, wanted)
                    self.assertEqual([found.listed[it][4] for it in found.steps],
                                     [row_of(it)[-65:-1] for it in [*after, *on]])
                # The former bundles are held, and stand outside the chain; the place of the last
                # one is that of the new last one.
                states = {it.place: (it.state, it.resend) for it in found.gaps()}
                self.assertEqual([states[deposit_in(it).place] for it in before],
                                 [('standing', 0)] * (len(before) - 1) + [('chain', 1)])

    def test_without_one_of_its_bundles_a_resend_blocks_what_is_on_it(self) -> None:
        before, after, on, wanted = self.revisions(15, 12)
        for missing in range(len(after)):
            with self.subTest(missing=missing):
                arrived = [it for it in [*before, *on, *after] if it is not after[missing]]
                found = desk([*before, *after, *on], arrived)
                states = {it.place: it for it in found.gaps()}
                # (The last one has the place of the former revision's last, which is used then.)
                if missing < len(after) - 1:
                    place = deposit_in(after[missing]).place
                    self.assertEqual(states[place].state, 'missing')
                    for it in [*after[missing + 1:], *on]:
                        self.assertEqual(states[deposit_in(it).place].state, 'blocked')
                else:
                    self.assertEqual(states[deposit_in(after[-1]).place].awaited, 1)
                self.assertEqual(
                    desk([*before, *after, *on], [*arrived, after[missing]]).objects, wanted)

    def test_in_any_order_its_bundles_make_the_same(self) -> None:
        bundles = self.made(FULL, self.full('orders', 8), rows_at_most(20)).bundles()
        wanted = desk(bundles).objects
        for seed in range(6):
            arrivals = random.Random(seed).sample(bundles, len(bundles))
            for count in range(len(arrivals)):
                # Until all are there the chain has the first ones, up to one that is missing.
                front = [it in arrivals[:count] for it in bundles].index(False)
                self.assertEqual(desk(bundles, arrivals[:count]).steps, [*range(front)])
            self.assertEqual(desk(bundles, arrivals).objects, wanted)

    def test_without_a_bundle_in_its_middle_those_after_it_are_blocked(self) -> None:
        bundles = self.made(FULL, self.full('middle', 8), rows_at_most(20)).bundles()
        on = self.made(DIFF, []).bundles()
        self.assertGreater(len(bundles), 3)
        for missing in range(1, len(bundles) - 1):
            listed = [*bundles, *on]
            found = desk(listed, [it for it in listed if it is not bundles[missing]])
            place = found.listed[missing][1]
            self.assertEqual([(it.state, it.blocker) for it in found.gaps()],
                             [('chain', None)] * missing + [('missing', None)] +
                             [('blocked', place_text(place))] * (len(listed) - missing - 1))

    def test_a_bundle_that_comes_twice_changes_nothing(self) -> None:
        bundles = self.made(FULL, self.full('twice'), rows_at_most(15)).bundles()
        found = desk(bundles, [*bundles, *bundles, bundles[1]])
        self.assertEqual(found.objects, desk(bundles).objects)
        self.assertEqual([it.again for it in found.receipts.values()],
                         [0] * len(bundles) + [1] * (len(bundles) + 1))

    def test_one_bundle_and_a_series_of_one_id_are_told_apart(self) -> None:
        objects = self.full('apart')
        whole, parts = self.made(FULL, objects), self.made(FULL, objects, rows_at_most(15))
        found = self.made({**FULL, 'resend': '1'}, objects,
                          ['--known', whole.out, *rows_at_most(15)], status=1)
        self.assertIn('is one bundle, and this is a series: one deposit has one place',
                      found.lines[-1])
        found = self.made({**FULL, 'id': 'F2', 'resend': '1'}, objects,
                          ['--known', whole.out, *rows_at_most(15)], status=1)
        self.assertIn('F1 in', found.lines[-1])
        again = self.made({**FULL, 'resend': '1'}, objects, ['--known', parts.out])
        self.assertEqual([it[0] for it in self.headers(again)], ['F1.r1.1of2', 'F1'])
        self.assertEqual(
            desk([*parts.bundles(), *again.bundles()]).objects,
            desk(whole.bundles()).objects)
        # A Differential has one place in both forms.
        one, more = self.made(DIFF, objects), self.made({**DIFF, 'resend': '1'}, objects,
                                                        rows_at_most(15))
        self.assertEqual(
            desk([*parts.bundles(), *one.bundles(), *more.bundles()]).objects,
            desk(whole.bundles()).objects)

    # ---- what is based on a series

    def test_an_incremental_on_a_series_is_a_differential_on_the_whole(self) -> None:
        objects = self.full('based', 8)
        full = self.made(FULL, objects, rows_at_most(15))
        later = self.full('later')
        whole = desk([*self.made(FULL, objects).bundles(),
                      *self.made(INCR, later).bundles()]).objects
        for words in ([], rows_at_most(15)):
            with self.subTest(words=words):
                found = self.made(INCR, later, ['--known', full.out, *words])
                self.assertEqual((self.headers(found)[0][1], self.headers(found)[0][3]),
                                 ('DIFF', 'F1'))
                self.assertEqual(found.lines[0],
                                 'given: as a Differential on F1, since this Full is a series 1')
                self.assertEqual(desk([*full.bundles(), *found.bundles()]).objects, whole)

    def test_an_incremental_on_one_bundle_stays_one(self) -> None:
        full = self.made(FULL, self.full('based'))
        found = self.made(INCR, self.full('later'), ['--known', full.out])
        self.assertEqual((self.headers(found), found.lines),
                         ([('I4', 'INCR', '2024-03-05T00:00:00Z', None, None)], []))
        self.assertEqual(len(self.made(INCR, []).lines), 1)

    def test_two_differentials_of_one_watermark_are_refused(self) -> None:
        full = self.made(FULL, self.full('based', 8), rows_at_most(15))
        on = self.made({**DIFF, 'watermark': INCR['watermark']}, [])
        found = self.made(INCR, [], ['--known', full.out, '--known', on.out], status=1)
        self.assertIn('has the place 2024-03-05T00:00:00Z DIFF', found.lines[-1])
        # A Full that is a series ends with a Differential: one of the same watermark has its place.
        same = self.made({**DIFF, 'watermark': FULL['watermark'], 'prevId': 'F0'}, [])
        found = self.made(FULL, self.full('based', 8), ['--known', same.out, *rows_at_most(15)],
                          status=1)
        self.assertIn('has the place 2024-03-03T00:00:00Z DIFF', found.lines[-1])
        found = self.made({**DIFF, 'watermark': FULL['watermark'], 'resend': '1'}, [],
                          ['--known', full.out], status=1)
        self.assertRegex(
            found.lines[-1],
            'there is no room for it: F1 in .* has the place 2024-03-03T00:00:00Z DIFF$')

    def test_an_incremental_is_not_based_on_the_first_part_of_a_full(self) -> None:
        objects = self.full('based', 8)
        at_once = {**INCR, 'watermark': FULL['watermark']}
        full = self.made(FULL, objects, rows_at_most(15))
        found = self.made(at_once, [], ['--known', full.out], status=1)
        self.assertRegex(
            found.lines[-1],
            'there is no room for it: F1 in .* has the place 2024-03-03T00:00:00Z DIFF$')
        for header, wanted in ((at_once, 'has the place 2024-03-03T00:00:00Z INCR'),
                               (INCR, 'has to be based on this Full: unpack this without it')):
            on = self.made(header, [])
            self.made(FULL, objects, ['--known', on.out])
            found = self.made(FULL, objects, ['--known', on.out, *rows_at_most(15)], status=1)
            self.assertRegex(found.lines[-1], f'I4 in {on.out} {wanted}')
        # One that builds on a later Full has nothing to do with it.
        later = {**FULL, 'id': 'F3', 'watermark': '2024-03-04T00:00:00Z'}
        between = self.made(later, [])
        self.made(FULL, objects, ['--known', on.out, '--known', between.out, *rows_at_most(15)])

    def test_a_full_that_comes_after_its_incremental_is_refused_until_that_is_given_on_it(
            self) -> None:
        full = self.made(FULL, self.full('based', 8), rows_at_most(15))
        later = {**FULL, 'id': 'F3', 'watermark': '2024-03-04T00:00:00Z'}
        for words in ([], ['--series']):
            on = self.made(INCR, [], ['--known', full.out, *words])
            known = ['--known', full.out, '--known', on.out]
            found = self.made(later, [], known, status=1)
            self.assertIn(f'the Incremental I4 in {on.out} has to be based on this Full',
                          found.lines[-1])
            late = self.made(later, [], known[:2])
            again = self.made(INCR, [], [*known[:2], '--known', late.out, *words])
            self.assertEqual(self.headers(again)[0][1], 'INCR')
            # A revision of the Full that it is given on, and a Full after it.
            self.made({**FULL, 'resend': '1'}, [], known)
            self.made({**later, 'watermark': '2024-03-06T00:00:00Z'}, [], known)

    def test_an_incremental_that_is_given_as_a_differential_is_no_revision_of_one(self) -> None:
        full = self.made(FULL, self.full('based', 8), rows_at_most(15))
        known = ['--known', full.out]
        on = self.made(INCR, [], known)
        for resend in ('0', '1'):
            header = {**DIFF, 'watermark': INCR['watermark'], 'resend': resend}
            found = self.made(header, [], [*known, '--known', on.out], status=1)
            self.assertRegex(
                found.lines[-1],
                'there is no room for it: I4 in .* has the place 2024-03-05T00:00:00Z DIFF$')
        # Its own revisions are such, and have its form.
        self.made({**INCR, 'resend': '1'}, [], [*known, '--known', on.out])
        alone = self.made(INCR, [])
        found = self.made({**INCR, 'resend': '1'}, [], [*known, '--known', alone.out], status=1)
        self.assertIn('is INCR, and this is DIFF: one deposit has one place', found.lines[-1])

    def test_a_resend_may_have_another_id(self) -> None:
        one, other = self.full('one', 8), self.full('other', 8)
        full = self.made(FULL, one, rows_at_most(20))
        before = self.made(DIFF, one, rows_at_most(15))
        after = self.made({**DIFF, 'id': 'D2b', 'resend': '1'}, other,
                          ['--known', before.out, '--known', full.out, *rows_at_most(12)])
        found = desk([*full.bundles(), *before.bundles(), *after.bundles()])
        self.assertEqual(found.objects, desk([*full.bundles(), *after.bundles()]).objects)
        self.assertEqual(len(found.steps), len(full.bundles()) + len(after.bundles()))

    def test_parts_that_are_not_all_those_of_one_deposit_are_refused(self) -> None:
        objects = self.full('mixed', 8)
        one, other = (self.made({**FULL, 'id': it}, objects, rows_at_most(30)).out
                      for it in ('F1', 'F2'))
        names = sorted(os.listdir(one))
        of = len(names)
        self.assertGreater(of, 2)
        # A part of another deposit, and a part that is gone.
        os.rename(f'{one}/{names[1]}', f'{one}/was')
        shutil.copytree(f'{other}/{names[1]}', f'{one}/{names[1]}')
        shutil.rmtree(f'{other}/{names[0]}')
        for folder, place in ((one, f'part 2 of {of} of F1'), (other, f'part 1 of {of - 1} of F2')):
            found = self.made(DIFF, [], ['--known', folder], status=1)
            wanted = f'in the place of {place} it has F2.2of{of}'
            self.assertEqual(found.lines[-1], f'unpack_rde: {folder}: {wanted}')
        shutil.rmtree(f'{one}/{names[1]}')
        os.rename(f'{one}/was', f'{one}/{names[1]}')
        self.made(DIFF, [], ['--known', one])

    def test_a_table_without_rows_stays_declared(self) -> None:
        rows = ''.join(f'ns{at}.example,H{at}\n' for at in range(5))
        found = self.unpacked(
            deposit(in_files('csvHost', HOST, ADDRESSES)), {
                'h.csv': rows.encode(), 'a.csv': b''
            }, words=rows_at_most(2))
        told = [description_in(it)['contents'] for it in folders_in(found.out)]
        self.assertEqual([[it['name'] for it in its] for its in told],
                         [['host', 'hostAddresses'], ['host'], ['host']])

    def test_what_no_table_has_is_in_the_last_part(self) -> None:
        text = deposit(
            ''.join(registrar(id=f'R{at}') for at in range(5)) +
            element('p:policy', **{'xmlns:p': 'urn:ietf:params:xml:ns:rdePolicy-1.0'}),
            watermark=WATERMARK)
        found = self.unpacked(text, words=rows_at_most(2))
        self.assertEqual(
            [os.path.exists(os.path.join(it, 'rest.xml')) for it in folders_in(found.out)],
            [False, False, True])
        self.assertEqual([description_in(it).get('notes') for it in folders_in(found.out)],
                         [None, None, ['left out: rde:deposit/rde:contents/rdePolicy:policy 1']])

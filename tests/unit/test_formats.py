"""Tests of the plain readers of the formats, from which tests and trials take what the program has
to say."""
import unittest

from tests.support import formats
from tests.support.bundles import ENVELOPE
from tests.support.bundles import SAMPLE
from tests.support.bundles import bundle_of
from tests.support.bundles import section
from tests.support.formats import ENVELOPE as PLACE


class Formats(unittest.TestCase):
    def test_a_watermark_is_nanoseconds_since_1970(self) -> None:
        for text, nanoseconds in (('1970-01-01T00:00:00Z', 0), ('2024-03-03T00:00:00.5Z',
                                                                1_709_424_000_500_000_000)):
            self.assertEqual((formats.moment(text), formats.moment_text(nanoseconds)),
                             (nanoseconds, text))

    def test_a_day_that_is_not_in_the_calendar_is_no_watermark(self) -> None:
        for text in ('2023-02-29T00:00:00Z', '2024-13-01T00:00:00Z', '2262-01-01T00:00:00Z',
                     '2024-03-03T24:00:00Z', '2024-03-03'):
            with self.subTest(text):
                self.assertIsNone(formats.moment(text))

    def test_quotes_hold_commas_line_ends_and_quotes_and_a_mark_at_the_front_is_no_text(
            self) -> None:
        self.assertEqual(formats.records(b'\xef\xbb\xbfa,"b,\n""c"""\r\n\n1,2\n'),
                         [[b'a', b'b,\n"c"'], [b'1', b'2']])

    def test_a_deposit_has_its_header_its_objects_and_its_orphans(self) -> None:
        it = formats.deposit(SAMPLE)
        self.assertEqual((it.name, it.place, it.prev, it.resend, it.orphans),
                         ('F1', (1_709_424_000_000_000_000, 'FULL'), None, 0, 0))
        self.assertEqual({key: formats.read_record(record) for key, record in it.says.items()},
                         {('contact', b'C1'): [('contact', [('id', 'C1'), ('clID', 'R1')])]})

    def test_a_body_is_refused_by_its_first_fault_with_its_place(self) -> None:
        for code, body, where in ((1, SAMPLE[:-1], 'section 3: no line with a name and a length'),
                                  (5, bundle_of(b'{'), f'{PLACE}: no JSON'),
                                  (6, bundle_of(b'{}'),
                                   f'{PLACE}, id: missing, or not of its form'),
                                  (8, bundle_of(ENVELOPE),
                                   f'{PLACE}, contents table 1, file: no section "c.csv"'),
                                  (9, bundle_of(ENVELOPE, section('c.csv', b'C1\n')),
                                   'section 2 c.csv, row 1: the number of fields is 1, declared 2'),
                                  (10, bundle_of(ENVELOPE, section('c.csv', b',R1\n')),
                                   'section 2 c.csv, row 1, column id: an empty key')):
            with self.subTest(code), self.assertRaises(formats.Refused) as refused:
                formats.deposit(body)
            self.assertEqual((refused.exception.code, refused.exception.where), (code, where))

    def test_a_record_has_its_texts_with_their_lengths(self) -> None:
        self.assertEqual(
            formats.record([('idn', [('id', 'I1')])]), b'\0\0\0\x01'
            b'\0\0\0\x03idn'
            b'\0\0\0\x01'
            b'\0\0\0\x02id'
            b'\0\0\0\x02I1')

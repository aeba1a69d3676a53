"""Tests of how transcripts are read: what each line means, and what is refused as none of the
form."""
import tempfile
import unittest

from tests.support.stage import Got
from tests.support.stage import Wanted
from tests.support.stage import faults
from tests.support.steps import Copy
from tests.support.steps import Manifest
from tests.support.steps import Text
from tests.support.transcripts import Misread
from tests.support.transcripts import Transcript
from tests.support.transcripts import exchanges_of
from tests.support.transcripts import read_transcripts
from tests.support.transcripts import step_of
from tests.support.transcripts import wanted_of
from tests.support.transcripts import words_of

HARNESS = '$ desk_harness'


def read(text: str) -> list[Transcript]:
    with tempfile.NamedTemporaryFile('w', suffix='.txt') as file:
        file.write(text)
        file.flush()
        return read_transcripts(file.name)


class Steps(unittest.TestCase):
    def test_words_stand_apart_from_texts_in_quotes(self) -> None:
        self.assertEqual(words_of('take --store "a b" ""'), ['take', '--store', '"a b"', '""'])

    def test_a_file_is_a_copy_or_a_text(self) -> None:
        self.assertEqual(step_of('file n1 = f1.bundle'), Copy('n1', 'f1.bundle'))
        self.assertEqual(step_of('file "a b" = "x\\n"'), Text('a b', 'x\n'))

    def test_a_manifest_may_have_further_rows(self) -> None:
        self.assertEqual(step_of('manifest m.csv = F1 D2 "row\\n"'),
                         Manifest('m.csv', ('F1', 'D2'), 'row\n'))

    def test_a_step_of_another_form_is_refused(self) -> None:
        for line in ('file n1 = no-such-file', 'bodies NoBody', 'zeros z = many', 'copy a b',
                     'file n1 = "open'):
            with self.subTest(line), self.assertRaises(Misread):
                step_of(line)


class Runs(unittest.TestCase):
    def test_lines_without_a_mark_are_standard_output(self) -> None:
        self.assertEqual(wanted_of(['one', '\\', '\\$ two']), Wanted(0, 'one\n\n$ two\n', ''))

    def test_marks_are_of_the_status_a_part_and_standard_error(self) -> None:
        self.assertEqual(wanted_of(['~ some', '? 3', '! E1 x']), Wanted(3, '', 'E1 x\n', 'some'))
        self.assertEqual(wanted_of(['! ...']), Wanted(0, '', None))

    def test_marks_that_contradict_each_other_are_refused(self) -> None:
        for lines in (['? 1', '? 2'], ['~ a', 'a'], ['~ a', '~ b'], ['!E1'], ['! ...',
                                                                              '! E1'], ['? one']):
            with self.subTest(lines), self.assertRaises(Misread):
                wanted_of(lines)

    def test_a_run_fails_by_its_status_its_output_or_its_error(self) -> None:
        wanted = Wanted(1, 'out\n', 'err\n')
        self.assertEqual(faults(wanted, Got(1, b'out\n', b'err\n')), [])
        for got in (Got(0, b'out\n', b'err\n'), Got(1, b'out', b'err\n'), Got(1, b'out\n', b'')):
            with self.subTest(got):
                self.assertNotEqual(faults(wanted, got), [])

    def test_a_part_and_any_error_are_enough_where_these_are_asked_for(self) -> None:
        wanted = Wanted(0, '', None, 'some')
        self.assertEqual(faults(wanted, Got(0, b'there is some', b'words')), [])
        self.assertNotEqual(faults(wanted, Got(0, b'there is none', b'words')), [])
        self.assertNotEqual(faults(wanted, Got(0, b'there is some', b'')), [])


class Exchanges(unittest.TestCase):
    def test_a_line_has_the_answer_below_it(self) -> None:
        found = exchanges_of([('1', '> status'), ('2', 'listed 1'), ('3', '> close')])
        self.assertEqual([(it.told, it.answer) for it in found], [(['status'], ['listed 1']),
                                                                  (['close'], [])])

    def test_a_run_has_its_events_before_the_answer(self) -> None:
        found = exchanges_of([('1', '> run 2'), ('2', '> comes 1 F1'), ('3', '> as-of latest'),
                              ('4', 'answer')])
        self.assertEqual([(it.told, it.answer) for it in found],
                         [(['run 2', 'comes 1 F1', 'as-of latest'], ['answer'])])

    def test_an_answer_before_the_last_event_is_refused(self) -> None:
        for lines in ([], ['answer'], ['> run 2', '> comes 1 F1', 'answer'], ['> run 1']):
            with self.subTest(lines), self.assertRaises(Misread):
                exchanges_of([(f'{at}', it) for at, it in enumerate(lines)])


class Cases(unittest.TestCase):
    def test_each_case_has_its_title_and_its_steps(self) -> None:
        first, second = read(
            f'# words\n== One\nfolder a\n$ restore --help\n~ Usage\n\n== Two\n{HARNESS}\n> close\n')
        self.assertEqual((first.title, len(first.steps), second.title, len(second.steps)),
                         ('One', 2, 'Two', 1))
        self.assertEqual(first.steps[1].wanted, Wanted(0, '', '', 'Usage'))

    def test_a_text_of_another_form_is_refused_at_its_place(self) -> None:
        texts = {
            'folder a\n': ':1: ',
            '== One\nfolder a\n': 'nothing is run: One',
            '': 'nothing is run',
            '== One\n$ other\n': ':2: ',
            '== One\n\n$ pack --help\n? one\n': ':3: '
        }
        for text, told in texts.items():
            with self.subTest(text), self.assertRaisesRegex(Misread, told):
                read(text)

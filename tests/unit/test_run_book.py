"""Tests of samples/run_book: which blocks of a page it runs, and that it tells what a page has else
than is printed."""
import contextlib
import io
import pathlib
import runpy
import subprocess
import tempfile
import unittest

from tests.support import TOP

RUN_BOOK = runpy.run_path(f'{TOP}/samples/run_book')
PAGE = '''# A page
```
$ echo one; echo two >&2
one
two
$ seq 4
1
...
4
```
```sh
touch made
```
```sh by hand
false
```
```python
import sys
print(sys.argv[1])
```
```text
$$ no command
```
'''


def run_page(text: str) -> tuple[tuple[bool, int, int], str]:
    """Whether a page has what is printed, how many of its blocks are run, and how many are for
    hands; and what is told."""
    with tempfile.TemporaryDirectory() as folder, contextlib.redirect_stdout(io.StringIO()) as told:
        path = pathlib.Path(folder, 'PAGE.md')
        path.write_text(text)
        return RUN_BOOK['run_page'](path, {}, writes=False), told.getvalue()


class Pages(unittest.TestCase):
    def test_blocks_are_run_and_those_for_hands_counted(self) -> None:
        self.assertEqual(run_page(PAGE)[0], (True, 3, 1))

    def test_another_output_is_told(self) -> None:
        for text in (PAGE.replace('\ntwo', '\nthree'), PAGE.replace('\n4\n', '\n5\n'),
                     PAGE.replace('touch made', 'touch no/folder'), PAGE.replace('print',
                                                                                 'raise ')):
            with self.subTest(text):
                ends, told = run_page(text)
                self.assertEqual(ends[0], False)
                self.assertIn('something else', told)

    def test_what_stands_for_gpg_makes_no_key_and_copies(self) -> None:
        with tempfile.TemporaryDirectory() as folder:
            text, sent = pathlib.Path(folder, 'text'), pathlib.Path(folder, 'sent')
            text.write_text('sent\n')
            for words, printed in ((('--quick-generate-key', 'KEY', 'default', 'default', 'never'),
                                    ''), (('--output', sent, '--encrypt', text), ''),
                                   (('--decrypt', sent), 'sent\n')):
                gpg = subprocess.run(['sh', '-c', RUN_BOOK['NO_GPG'], 'gpg', '--batch', *words],
                                     check=True, capture_output=True, text=True)
                self.assertEqual(gpg.stdout, printed)

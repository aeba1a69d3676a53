"""The documents: links that lead somewhere, lines that fit, and how many words there are."""
import pathlib
import re
import unittest
from collections.abc import Iterator

from tests.support.crates import listed

TOP = pathlib.Path(__file__).resolve().parents[2]
DOCUMENTS = [
    TOP / 'README.md', TOP / 'CONTRIBUTING.md', TOP / 'CHANGELOG.md', *sorted(TOP.glob('docs/*.md'))
]

# How many codes there are of each letter, and which of them FORMATS.md has in tables.
CODES = {'E': 3, 'N': 1, 'M': 13, 'A': 5, 'U': 11, 'S': 5, 'V': 7}
LISTED = 'UMAV'

MOST_COLUMNS = 100
# Of all documents together, outside of fenced code.
MOST_WORDS = 24_000

# What has a letter or a digit: the bars and rules of tables are no words.
WORD = re.compile(r'\S*[^\W_]\S*')
FENCE = re.compile(r' {0,3}(`{3,}|~{3,})')
HEADING = re.compile(r'#{1,6} +(.*?) *#* *$')
CODE_SPAN = re.compile(r'(?<!`)(`+)(?!`)(?:(?!\n\s*\n).)+?(?<!`)\1(?!`)', re.S)
# [text](target), also where the text goes on in the next line, and [name]: target.
LINK = re.compile(r'\[(?:[^\[\]]|\[[^\[\]]*\])*\]\(<?([^\s()<>]+)>?\)|^\[[^\[\]]+\]: *(\S+)', re.M)
SCHEME = re.compile(r'[a-z][a-z0-9+.-]*:', re.I)

# The crates that a page names, and the files of this checkout: `tests/run.py`. A name in capitals,
# or a star, stands for others; what is built is not there yet.
CRATE = re.compile(r'\b(?:esc_\w+|(?:core|desk|store)_(?:tests|lines|harness))\b')
FILE = re.compile(r'`((?:crates|tests|trials|bench|samples|packaging|docs)/[a-z0-9_./-]+)')


def prose(text: str) -> list[str]:
    """The lines of a document, those of fenced code left empty."""
    fence, lines = None, []
    for line in text.splitlines():
        found = FENCE.match(line)
        lines.append('' if fence or found else line)
        if not fence:
            fence = found and found[1]
        elif found and found[1].startswith(fence):
            fence = None
    return lines


def anchors(text: str) -> set[str]:
    """The anchors of a document's headings, as GitHub makes them: in lower case, without
    punctuation, dashes for spaces, and a number after one that was there before."""
    found: dict[str, int] = {}
    for heading in filter(None, map(HEADING.match, prose(text))):
        title = re.sub(r'\[([^\]]*)\]\([^)]*\)', r'\1', heading[1])
        name = re.sub(r'[^\w\- ]', '', title.lower()).replace(' ', '-')
        found[name] = found.get(name, -1) + 1
        if found[name]:
            found[f'{name}-{found[name]}'] = 0
    return set(found)


def links(text: str) -> Iterator[tuple[int, str]]:
    """The targets of a document's links to other files and to headings, each with its line."""
    text = CODE_SPAN.sub(lambda span: re.sub(r'[^\n]', ' ', span[0]), '\n'.join(prose(text)))
    for found in LINK.finditer(text):
        target = found[1] or found[2]
        if not SCHEME.match(target):
            yield text.count('\n', 0, found.end()) + 1, target


def fault_of(document: pathlib.Path, target: str) -> str | None:
    """What is wrong with a link of a document, or None."""
    path, _, anchor = target.partition('#')
    file = (document.parent / path).resolve() if path else document
    if not file.exists():
        return 'there is no such file'
    if anchor and (file.suffix != '.md' or anchor not in anchors(file.read_text('utf-8'))):
        return 'there is no such heading'
    return None


class Documents(unittest.TestCase):
    maxDiff = None

    def test_links_lead_somewhere(self) -> None:
        self.assertEqual([], [
            f'{document.name}:{number}: {target}: {fault}' for document in DOCUMENTS
            for number, target in links(document.read_text('utf-8'))
            if (fault := fault_of(document, target))
        ])

    def test_readme_fits(self) -> None:
        lines = prose((TOP / 'README.md').read_text('utf-8'))
        self.assertEqual([], [
            f'{number}: {len(line)} columns' for number, line in enumerate(lines, 1)
            if not line.startswith('|') and len(line) > MOST_COLUMNS
        ])

    def test_each_code_has_its_place(self) -> None:
        operating = (TOP / 'docs/OPERATING.md').read_text('utf-8').splitlines()
        formats = (TOP / 'docs/FORMATS.md').read_text('utf-8').splitlines()
        for letter, most in CODES.items():
            for code in (f'{letter}{number}' for number in range(1, most + 1)):
                with self.subTest(code=code):
                    self.assertEqual(operating.count(f'### {code}'), 1, code)
                    self.assertEqual(sum(it.startswith(f'| {code} |') for it in formats),
                                     int(letter in LISTED), code)

    def test_crates_are_there(self) -> None:
        named = {(it.name, crate)
                 for it in DOCUMENTS for crate in CRATE.findall(it.read_text('utf-8'))}
        self.assertEqual({it for it in named if it[1] not in listed()}, set())

    def test_files_are_there(self) -> None:
        named = {(it.name, file)
                 for it in DOCUMENTS for file in FILE.findall(it.read_text('utf-8'))}
        self.assertEqual({it
                          for it in named if '/out' not in it[1] and not (TOP / it[1]).exists()},
                         set())

    def test_words(self) -> None:
        counts = {
            it.name: len(WORD.findall('\n'.join(prose(it.read_text('utf-8')))))
            for it in DOCUMENTS
        }
        listed = ', '.join(f'{name} {count}' for name, count in counts.items())
        self.assertLessEqual(sum(counts.values()), MOST_WORDS, listed)


class Reading(unittest.TestCase):
    """What the tests above read in a document."""

    TEXT = '\n'.join([
        '# What to do, when', '## `S1` and [S2](#a)', '## Twice', '## Twice', '```sh',
        '# no heading', '[no](link.md)', '```', 'A [link](a.md#b), `[no](code.md)`, [two',
        '`words`](<c.md>) and [out](https://example.org).', '[word]: d.md'
    ])

    def test_anchors(self) -> None:
        self.assertEqual(anchors(self.TEXT), {'what-to-do-when', 's1-and-s2', 'twice', 'twice-1'})

    def test_links(self) -> None:
        self.assertEqual(list(links(self.TEXT)), [(2, '#a'), (9, 'a.md#b'), (10, 'c.md'),
                                                  (11, 'd.md')])

    def test_faults(self) -> None:
        readme = TOP / 'README.md'
        self.assertIsNone(fault_of(readme, 'docs'))
        self.assertEqual(fault_of(readme, 'docs/no-such-page.md'), 'there is no such file')
        self.assertEqual(fault_of(readme, '#no-such-heading'), 'there is no such heading')

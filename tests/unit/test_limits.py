"""Each limit has one figure: the definitions of the programs, the scripts, the tests' models and
the pages have the same one."""
import ast
import pathlib
import re
import unittest
from collections.abc import Iterator
from typing import NamedTuple

from tests.support import TOP
from tests.support import limits

# The modules of Python that have the figures, each all that it needs.
UNPACK, THICK = 'packaging/unpack_rde/limits.py', 'samples/making/thick.py'
MODELS = 'tests/support/limits.py'
# A definition in specs/, and one in src/.
SPEC = r'^{} = ([0-9_]+)$'
SOURCE = r'^pub const {}: \w+ = ([0-9_]+);$|^const {}: \w+ = ([0-9_]+);$'


class Limit(NamedTuple):
    """A limit by its name in the tests' models: the name of its definition in files of the
    programs, its name in the scripts, and sentences of pages, in which it stands for `{}`."""
    name: str
    programs: tuple[tuple[str, str], ...]
    scripts: tuple[tuple[str, str], ...] = ()
    pages: tuple[tuple[str, str], ...] = ()


LIMITS = (
    Limit('MOST_BYTES',
          (('esc_bundle/specs/Bundle.antt', 'limit'), ('esc_bundle/src/reading.rt', 'MOST_BYTES')),
          ((UNPACK, 'MOST_BYTES'), (THICK, 'MOST_BYTES')),
          (('FORMATS', 'A bundle has at most {} bytes, and so has a section.'),
           ('FORMATS', 'the bundle or a section is over {} bytes; a 65th section'),
           ('DEFINITIONS', 'U4 if it is over {} bytes'), ('HTTP', '| over {} bytes |'),
           ('OPERATING', 'the file is over {} bytes'), ('HANDOVER', 'it would have over {} bytes'),
           ('OPERATING', '| bundle, and a section of it | {} bytes |'),
           ('PACK', 'the file has over {} bytes'), ('PACK', 'a row over {} characters'))),
    Limit('MOST_SECTIONS', (('esc_bundle/src/reading.rt', 'MOST_SECTIONS'),),
          ((UNPACK, 'MOST_SECTIONS'),),
          (('FORMATS', 'Between them are 1 to {} sections.'),
           ('OPERATING', '| rows in a bundle; sections | 100,000; {} |'))),
    Limit('MOST_ROWS',
          (('esc_tables/specs/Reading.antt', 'most_rows'), ('esc_tables/src/survey.rt',
                                                            'MOST_ROWS')),
          ((UNPACK, 'MOST_ROWS'), (THICK, 'MOST_ROWS')),
          (('FORMATS', '| more than {} rows |'), ('HANDOVER', 'it would have over {} rows'),
           ('OPERATING', '| rows in a bundle; sections | {}; 64 |'),
           ('OPERATING', 'There are over {} rows'), ('PACK', 'If a deposit has over {} rows'),
           ('ARCHITECTURE', 'a bundle has at most {}.'), ('FROM_ESCROW', '16 MiB and {} rows'),
           ('EVIDENCE', '{} rows of a bundle'), ('README', '(16 MiB, {} rows)'))),
    Limit('MOST_FIELDS', (('esc_envelope/src/texts.rt', 'MOST_FIELDS'),),
          ((UNPACK, 'MOST_FIELDS'),),
          (('FORMATS', '| `fields` | 1 to {} names of 1 to 64 of'),
           ('PACK', 'a heading: 1 to {} names of fields'))),
    Limit('MOST_KEY', (('esc_tables/src/row.rt', 'LONGEST_KEY'),), ((UNPACK, 'MOST_KEY'),),
          (('FORMATS', 'a key is empty, or over {} bytes'),
           ('OPERATING', 'A key is empty or longer than {} bytes.'))),
    Limit('MOST_ID', (('esc_envelope/src/id.rt', 'LONGEST_ID'),), ((UNPACK, 'MOST_ID'),),
          (('FORMATS', '| `id` | 1 to {} of `A-Z a-z 0-9 . _ -`'),
           ('FORMATS', 'The number of an arrival is 1 to {} of `A-Z a-z 0-9 . _ -`'),
           ('OPERATING', '`id` is not 1 to {} of `A-Z a-z 0-9 . _ -`'),
           ('OPERATING', 'the name is not 1 to {} of `A-Z a-z 0-9 . _ -`'),
           ('HANDOVER', 'the id is not 1 to {} of `A-Z a-z 0-9 . _ -`'))),
    Limit('MOST_TABLE', (('esc_envelope/src/tables.rt', 'LONGEST_TABLE_NAME'),),
          ((UNPACK, 'MOST_TABLE'),), (('FORMATS', '| `name` | 1 to {} of `A-Z a-z 0-9 _`'),)),
    Limit('MOST_SECTION', (('esc_bundle/src/reading.rt', 'LONGEST_NAME'),),
          ((UNPACK, 'MOST_SECTION'),)),
    Limit('MOST_RESEND',
          (('esc_envelope/specs/Members.antt', 'most_resend'), ('esc_envelope/src/members.rt',
                                                                'MOST_RESEND')),
          ((UNPACK, 'MOST_RESEND'),),
          (('FORMATS', '| `resend` | a whole number from 0 to {}'),)),
    Limit('MOST_COUNT', (), ((UNPACK, 'MOST_COUNT'),)),
    Limit('MOST_LISTED',
          (('esc_manifest/specs/RowFaults.antt', 'most_manifest_rows'),
           ('esc_manifest/src/rows.rt', 'MOST_LISTED_ROWS'),
           ('esc_deposit/src/cut.rt', 'MOST_PARTS')), ((UNPACK, 'MOST_PARTS'),),
          (('FORMATS', 'more than {} rows, or 4,194,304 bytes'),
           ('OPERATING', '| manifest | {} rows, 4,194,304 bytes |'),
           ('OPERATING', 'Over {} rows or 4,194,304 bytes'), ('PACK', 'over {} parts'),
           ('PACK', '`manifest`: over {} bundles'), ('PACK', 'all but the last one 2 × {} ns'),
           ('OPERATING', 'each of which is one of the {} rows'),
           ('ARCHITECTURE', 'It lists at most {} rows'), ('EVIDENCE', '{} rows of a manifest'))),
    Limit('MOST_MANIFEST',
          (('esc_manifest/specs/Manifest.antt', 'most_bytes'),
           ('esc_manifest/src/reading.rt', 'MOST_MANIFEST_BYTES')), (),
          (('FORMATS', 'more than 4,096 rows, or {} bytes'),
           ('OPERATING', '| manifest | 4,096 rows, {} bytes |'),
           ('OPERATING', 'Over 4,096 rows or {} bytes'))),
    Limit('MOST_PARKED', (('esc_store/src/parked.rt', 'MOST_PARKED'),), (),
          (('OPERATING', '| parked bodies; receipts | {}; 1,000,000,000 |'),
           ('OPERATING', '{} bodies are parked.'), ('HTTP', 'each may park {} bodies of 16 MiB'),
           ('EVIDENCE', '{} parked bodies and one less'),
           ('DEFINITIONS', 'the body is to be parked and {} oth'))),
    Limit('MOST_RECEIPTS', (('esc_store/src/books.rt', 'MOST_RECEIPTS'),), (),
          (('OPERATING', '| parked bodies; receipts | 1,024; {} |'),
           ('DEFINITIONS', 'there are {} receipts'))),
    Limit('MOST_HEAD', (('esc_request/src/head.rt', 'MOST_HEAD_BYTES'),), (),
          (('HTTP', 'cut off, over {} bytes, or has over 32 lines'),)),
    Limit('MOST_LINES', (('esc_request/src/head.rt', 'MOST_LINES'),), (),
          (('HTTP', 'over 8,192 bytes, or has over {} lines'),)),
    Limit('FIRST_SECONDS', (('esc_client/src/budget.rt', 'FIRST_SECONDS'),), (),
          (('HTTP', '`serve` waits {} seconds in all for a request'),)),
    Limit('BYTES_A_SECOND', (('esc_client/src/budget.rt', 'BYTES_A_SECOND'),), (),
          (('HTTP', 'and one more for each {} bytes that came'),)),
    Limit('MOST_SECONDS', (('esc_client/src/budget.rt', 'MOST_REQUEST_SECONDS'),), (),
          (('HTTP', 'that came ({} at most'),)),
)
# The limits whose figures mean nothing else: each stands in one module of the scripts, and of the
# models.
ALONE = ('MOST_BYTES', 'MOST_ROWS', 'MOST_RESEND', 'MOST_LISTED', 'MOST_MANIFEST')
# A limit of another thing that has such a figure: the file of a zone's apex.
OTHERS = (('handover/src/zone.rt', 'MOST_BYTES'),)
DEFINED = re.compile(r'^(?:pub )?(?:const )?(\w+)(?:: \w+)? = ([0-9_]+);?$', re.M)


def text_of(path: str) -> str:
    return pathlib.Path(TOP, path).read_text('utf-8')


def page_of(name: str) -> str:
    """A page in one line."""
    return ' '.join(text_of(f'{name}.md' if name == 'README' else f'docs/{name}.md').split())


def in_program(path: str, name: str) -> list[int]:
    """The figures of the definitions of a name."""
    form = (SPEC if path.endswith('.antt') else SOURCE).replace('{}', name)
    found = re.findall(form, text_of(f'crates/{path}'), re.M)
    return [int(it if isinstance(it, str) else ''.join(it)) for it in found]


def assigned(path: str) -> dict[str, int]:
    """The numbers that a module of Python gives names to."""
    found: dict[str, int] = {}
    for it in ast.parse(text_of(path)).body:
        if isinstance(it, ast.Assign) and len(it.targets) == 1:
            target, value = it.targets[0], it.value
            names = target.elts if isinstance(target, ast.Tuple) else [target]
            values = value.elts if isinstance(value, ast.Tuple) else [value]
            if len(names) == len(values):
                found.update({name.id: number for name, one in zip(names, values)
                              for number in numbers(one) if isinstance(name, ast.Name)})
    return found


def numbers(node: ast.expr) -> list[int]:
    """The number that an expression of numbers alone is."""
    allowed = (ast.Constant, ast.BinOp, ast.operator)
    if not all(isinstance(it, allowed) for it in ast.walk(node)):
        return []
    value = eval(compile(ast.Expression(node), 'limits', 'eval'), {})
    return [value] if type(value) is int else []


def places(folder: str) -> Iterator[tuple[str, int]]:
    """The numbers in the Python files of a folder."""
    for path in sorted(pathlib.Path(TOP, folder).rglob('*.py')):
        its = str(path.relative_to(TOP))
        for node in ast.walk(ast.parse(text_of(its))):
            if isinstance(node, (ast.Constant, ast.BinOp)):
                yield from ((its, it) for it in numbers(node))


def defined(figures: set[int]) -> set[tuple[str, str]]:
    """The definitions of the programs, in specs/ and src/, that are one of these figures."""
    found = set()
    for path in pathlib.Path(TOP, 'crates').glob('*/s*/**/*'):
        if path.suffix in ('.rt', '.antt') and '_tests' not in path.parts[-3]:
            its = str(path.relative_to(f'{TOP}/crates'))
            found |= {(its, name) for name, figure in DEFINED.findall(path.read_text('utf-8'))
                      if int(figure) in figures}
    return found


class Limits(unittest.TestCase):
    def test_the_models_have_the_figures_of_the_programs(self) -> None:
        for it in LIMITS:
            for path, name in it.programs:
                with self.subTest(it.name, path=path):
                    self.assertEqual(in_program(path, name), [getattr(limits, it.name)])

    def test_no_other_definition_has_such_a_figure(self) -> None:
        known = {place for it in LIMITS if it.name in ALONE for place in it.programs}
        self.assertEqual(defined({getattr(limits, it) for it in ALONE}), known | set(OTHERS))

    def test_the_scripts_have_them(self) -> None:
        for it in LIMITS:
            for path, name in it.scripts:
                with self.subTest(it.name, path=path):
                    self.assertEqual(assigned(path)[name], getattr(limits, it.name))

    def test_the_pages_have_them(self) -> None:
        for it in LIMITS:
            for page, words in it.pages:
                with self.subTest(it.name, page=page):
                    self.assertIn(words.replace('{}', f'{getattr(limits, it.name):,}'),
                                  page_of(page))

    def test_each_figure_of_the_models_is_compared(self) -> None:
        self.assertEqual(set(assigned(MODELS)), {it.name for it in LIMITS})

    def test_each_figure_of_unpack_rde_is_compared(self) -> None:
        compared = {name for it in LIMITS for path, name in it.scripts if path == UNPACK}
        # How much of a bundle is left to the description is its own.
        self.assertEqual(set(assigned(UNPACK)), compared | {'OF_DESCRIPTION'})

    def test_a_figure_stands_in_one_module_alone(self) -> None:
        figures = {getattr(limits, it): it for it in ALONE}
        for folder, module in (('packaging', UNPACK), ('samples', THICK),
                               ('tests/support', MODELS)):
            others = [(path, figures[number]) for path, number in places(folder)
                      if number in figures and path != module]
            with self.subTest(folder):
                self.assertEqual(others, [])

    def test_the_bytes_of_a_bundle_are_16_mib(self) -> None:
        self.assertEqual(limits.MOST_BYTES, 16 * 2**20)

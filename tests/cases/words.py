"""The words of manifests and envelopes: the moments of watermarks, places, types, kinds and ids."""
from collections.abc import Sequence

from tests.support.bundles import bundle_of
from tests.support.bundles import envelope_of
from tests.support.bundles import row_of
from tests.support.bundles import section
from tests.support.clients import new_desk
from tests.support.formats import KINDS
from tests.support.reports import report
from tests.support.stage import Stage
from tests.support.stage import Wanted
from tests.support.stage import case
from tests.support.stage import compare
from tests.support.stage import text_of
from tests.support.verdicts import F1
from tests.support.verdicts import desk_over
from tests.support.verdicts import reply_to
from tests.support.verdicts import said_of
from tests.support.verdicts import text_of_rows

# Texts, and the nanoseconds of their moments.
MOMENTS = (
    ('1970-01-01T00:00:00Z', 0),
    ('2024-03-03T00:00:00Z', 1_709_424_000_000_000_000),
    ('2024-02-29T23:59:59.5Z', 1_709_251_199_500_000_000),
    ('2000-02-29T00:00:00.000000001Z', 951_782_400_000_000_001),
    ('2261-12-31T23:59:59.999999999Z', 9_214_646_399_999_999_999),
    ('2024-03-03T00:00:00.100Z', 1_709_424_000_100_000_000),
)
NO_MOMENTS = (
    '2023-02-29T00:00:00Z',
    '2100-02-29T00:00:00Z',
    '2024-04-31T00:00:00Z',
    '2024-13-01T00:00:00Z',
    '2024-00-01T00:00:00Z',
    '2024-01-00T00:00:00Z',
    '2024-01-01T24:00:00Z',
    '2024-01-01T00:60:00Z',
    '2016-12-31T23:59:60Z',
    '1969-12-31T23:59:59Z',
    '2262-01-01T00:00:00Z',
    '2024-03-03T00:00:00.Z',
    '2024-03-03T00:00:00.1234567890Z',
    '2024-03-03T00:00:00,5Z',
    '2024-03-03t00:00:00Z',
    '2024-03-03T00:00:00z',
    '2024-03-03 00:00:00Z',
    '2024-03-03T00:00:00',
    '2024-03-03T00:00:00+00:00',
    '2024-03-03T00:00Z',
    '2024-3-03T00:00:00Z',
    '02024-03-03T00:00:00Z',
    '+2024-03-03T00:00:00Z',
    ' 2024-03-03T00:00:00Z',
    '2024-03-03T00:00:00Z ',
    '2024-03-03T00:00:00ZZ',
    '2024-03-03',
    '',
)
# The fractions of moments: their nanoseconds and their texts, in order.
FRACTIONS = (
    (0, ''),
    (1, '.000000001'),
    (10, '.00000001'),
    (10_000_000, '.01'),
    (100_000_000, '.1'),
    (100_000_100, '.1000001'),
    (120_000_000, '.12'),
    (123_000_000, '.123'),
    (123_400_000, '.1234'),
    (123_450_000, '.12345'),
    (123_456_000, '.123456'),
    (123_456_700, '.1234567'),
    (123_456_780, '.12345678'),
    (123_456_789, '.123456789'),
)
LAST = '2261-12-31T23:59:59.999999999Z'
# Words of a program of which one has a byte that is no UTF-8, and what `clap` says of it.
NO_TEXTS = (('restore', 'report --store a\udcff status'), ('restore', '\udcc3'),
            ('pack', 'manifest n1 \udcff'), ('pack', '\udc80bundle'))
INVALID = ("error: invalid UTF-8 was detected in one or more arguments\n\nFor more information, "
           "try '--help'.\n")
# A moment, and the one after it.
FIFTH, SIXTH = '1970-01-01T00:00:00.000000005Z', '1970-01-01T00:00:00.000000006Z'
# Places, in their order.
PLACES = ((FIFTH, 'DIFF'), (FIFTH, 'INCR'), (FIFTH, 'FULL'), (SIXTH, 'DIFF'))
# Words for an id and for a type, and what is said of a manifest whose row has them.
WORDS = (
    ('F1', 'FULL', 'listed 1'),
    ('F1', 'INCR', 'listed 1'),
    ('F1', 'DIFF', 'listed 1'),
    ('F1', 'diff', 'M5 row 1'),
    ('a.B_9-', 'FULL', 'listed 1'),
    ('a b', 'FULL', 'M4 row 1'),
    ('a' * 64, 'FULL', 'listed 1'),
    ('a' * 65, 'FULL', 'M4 row 1'),
)


def row_at(name: str, kind: str, watermark: str) -> str:
    """What a row says of a deposit on another one that is not listed. A watermark may have a
    comma."""
    return f'{name},{kind},"{watermark}",X9,' if ',' in watermark else (f'{name},{kind},'
                                                                        f'{watermark},X9,')


def test_moments_that_are_read(stage: Stage) -> None:
    """Texts that are moments."""
    stage.write(
        'listed.csv',
        text_of_rows((row_at(f'F{at}', 'FULL', text), at) for at, (text, _) in enumerate(MOMENTS)))
    with new_desk(stage) as desk:
        desk.check('close', '')
        desk.check('query SELECT watermark FROM listed ORDER BY row',
                   text_of(f'{moment}' for _, moment in MOMENTS))
    stage.check('init --store a.db --manifest listed.csv', Wanted(0, f'listed {len(MOMENTS)}\n'))
    for text, _ in MOMENTS:
        stage.check(f'as-of --store a.db {text}', Wanted(0, 'end none\n'))


def test_texts_that_are_no_moments(stage: Stage) -> None:
    """Texts that are no moments: of a row, and of a command."""
    for text in NO_MOMENTS:
        with case(f'the text {text!r}'):
            compare('what is said of its row', 'M6 row 1',
                    said_of(stage, text_of_rows([(row_at('F1', 'FULL', text), 1)])))
            wanted = Wanted(1, '', f'E3 {text or "(an empty moment)"}\n')
            stage.check(f'as-of --store a.db {text!r}', wanted, ['as-of', '--store', 'a.db', text])


def check_gaps(stage: Stage, rows: Sequence[str], places: Sequence[tuple[str, str]]) -> None:
    """Compares the report of a store that lists rows, of which none is held."""
    stage.write('listed.csv', text_of_rows((said, at) for at, said in enumerate(rows)))
    stage.check('init --store a.db --manifest listed.csv', Wanted(0, f'listed {len(rows)}\n'))
    lines = [f'{watermark},{kind},,missing,,0' for watermark, kind in places]
    stage.check('report --store a.db gaps', Wanted(0, report('gaps', lines)))


def test_moments_that_are_printed(stage: Stage) -> None:
    """The texts of moments."""
    listed = [*(f'2024-03-03T00:00:00.{nanoseconds:09}Z' for nanoseconds, _ in FRACTIONS), LAST]
    printed = [*(f'2024-03-03T00:00:00{text}Z' for _, text in FRACTIONS), LAST]
    check_gaps(stage, [row_at(f'F{at}', 'FULL', it) for at, it in enumerate(listed)],
               [(it, 'FULL') for it in printed])


def test_places_in_their_order(stage: Stage) -> None:
    """Places are in the order of moments, and at one moment in that of types."""
    rows = [row_at(f'{kind}{at}', kind, watermark) for at, (watermark, kind) in enumerate(PLACES)]
    check_gaps(stage, [rows[at] for at in (2, 3, 1, 0)], PLACES)


def test_types_and_ids(stage: Stage) -> None:
    """Words that are types and ids."""
    for name, kind, said in WORDS:
        compare(f'what is said of {name} {kind}', said,
                said_of(stage, text_of_rows([(row_at(name, kind, FIFTH), 1)])))


def test_kinds_in_their_order(stage: Stage) -> None:
    """The words of kinds, and their order."""
    files = {kind: (kind, 'parent', ('key',)) for kind in reversed(KINDS)}
    body = bundle_of(envelope_of(files),
                     b''.join(section(it, f'of-{it}\n'.encode()) for it in files))
    # (The table t0 is that of the last kind.)
    lines = [f'{kind} of-{kind}: t{5 - at} key=of-{kind}' for at, kind in enumerate(KINDS)]
    with desk_over(stage, [row_of(F1, body)]) as desk:
        compare('reply to a Full of all kinds', 'A1,,F1,0,new,0', reply_to(stage, desk, 1, body))
        desk.check('tables', text_of(lines))


def test_words_that_are_no_text(stage: Stage) -> None:
    """Words of both programs that are no UTF-8."""
    for program, line in NO_TEXTS:
        stage.check(ascii(line), Wanted(2, '', INVALID), line.split(), program)

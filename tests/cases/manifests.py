"""Manifests: the least fault of a text, the values of its rows, how many rows and bytes it may
have, and the union of two."""
from tests.support.bundles import HEADING
from tests.support.clients import new_desk
from tests.support.harness import Harness
from tests.support.stage import Stage
from tests.support.stage import case
from tests.support.stage import compare
from tests.support.stage import text_of
from tests.support.verdicts import said_of
from tests.support.verdicts import text_of_rows

# Texts that begin with another line than the heading, or with the heading in another form, and what
# is said of them.
FIRST_LINES = (
    (b'', 'M3 row 0'),
    (b'id,type,watermark,prevId,resend\n', 'M2 row 0'),
    (b'id,type,watermark,previd,resend,sha256\n', 'M3 row 0'),
    (b'"id",type,watermark,prevId,resend,sha256', 'listed 0'),
    (b'\xef\xbb\xbfid,type,watermark,prevId,resend,sha256\n', 'listed 0'),
)
# Worked manifests, each fault alone, and the least of two: for each case what is said of it, and
# its rows: the first five fields, and the digest as a number. Where that is `-`, the row has no
# further field.
FULL = 'F1,FULL,2024-03-03T00:00:00Z,,'
TEXTS = (
    ('M12 row 2', f'{FULL} 1', 'D2,DIFF,2024-03-03T00:00:00Z,F1, 2'),
    ('M10 row 2', f'{FULL} 1', f'{FULL}0 2'),
    ('M4 row 2', f'{FULL},xy -', 'a b,DIFF,2024-03-04T00:00:00Z,F1, 2'),
    ('listed 0',),
    ('M2 row 1', f'{FULL}0 -'),
    ('M2 row 1', f'{FULL}0,, 1'),
    ('M4 row 1', ',FULL,2024-03-03T00:00:00Z,,0 1'),
    ('M4 row 1', 'Fä,FULL,2024-03-03T00:00:00Z,,0 1'),
    ('M4 row 1', 'F1,FULL,2024-03-03T00:00:00Z,a b,0 1'),
    ('M5 row 1', 'F1,full,2024-03-03T00:00:00Z,,0 1'),
    ('M6 row 1', 'F1,FULL,2024-02-30T00:00:00Z,,0 1'),
    ('M6 row 1', 'F1,FULL,2262-01-01T00:00:00Z,,0 1'),
    ('M7 row 1', 'F1,DIFF,2024-03-03T00:00:00Z,,0 1'),
    ('M8 row 1', f'{FULL}0000000 1'),
    ('M8 row 1', f'{FULL}+1 1'),
    ('M9 row 1', f'{FULL}0,0g -'),
    ('M12 row 1', 'F1,DIFF,2024-03-03T00:00:00Z,F1,0 1'),
    ('listed 1', 'F1,DIFF,2024-03-03T00:00:00Z,F2,0 1'),
    ('listed 1', f'{FULL}999999 1'),
    ('M8 row 1', f'{FULL}1000000 1'),
    ('listed 2', f'{FULL}999998 1', f'{FULL}999999 2'),
    ('M11 row 2', f'{FULL}0 1', 'F1,INCR,2024-03-03T00:00:00Z,,0 2'),
    ('M13 row 2', f'{FULL}0 1', 'F2,FULL,2024-03-04T00:00:00Z,,0 1'),
    ('M10 row 2', f'{FULL}0 1', 'F2,FULL,2024-03-03T00:00:00.0Z,, 2'),
    ('M12 row 1', 'D1,DIFF,2024-03-03T00:00:00Z,F2,0 1', 'F2,FULL,2024-03-03T00:00:00Z,,0 2'),
    ('M4 row 2', 'F1,full,2024-03-03T00:00:00Z,,0 1', 'F 2,FULL,2024-03-03T00:00:00Z,,0 1'),
    ('M5 row 2', 'F1,FULL,2024-03-03,,0 1', 'F1,,2024-03-03T00:00:00Z,,0 1'),
    ('M6 row 2', 'F1,DIFF,2024-03-03T00:00:00Z,,0 1', 'F1,FULL,2024-03-03,,0 1'),
    ('M7 row 2', f'{FULL}x 1', 'F1,DIFF,2024-03-03T00:00:00Z,,0 1'),
    ('M8 row 2', f'{FULL}0,1 -', f'{FULL}x 1'),
    ('M9 row 2', f'{FULL}0 1', f'{FULL}0,1 -'),
    ('M10 row 2', f'{FULL}0 1', f'{FULL}0 1'),
    ('M11 row 2', f'{FULL}0 1', 'F1,DIFF,2024-03-03T00:00:00Z,F1,0 1'),
    ('M12 row 2', f'{FULL}0 1', 'D2,DIFF,2024-03-03T00:00:00Z,F1,0 1'),
)
# A manifest whose rows have the published digests of the empty text and of `abc` (FIPS 180-4), and
# one more.
WORKED = '''id,type,watermark,prevId,resend,sha256
F1,FULL,2024-03-03T00:00:00Z,X9,007,e3b0c44298fc1c149afbf4c8996fb92427ae41e4649b934ca495991b7852b855
D2,DIFF,2024-03-04T00:00:00.0Z,F1,,BA7816BF8F01CFEA414140DE5DAE2223B00361A396177A9CB410FF61F20015AD
F3,FULL,2024-03-05T00:00:00Z,,999999,\
00000000000000000000000000000000000000000000000000000000000000fF
'''
# Its rows in the store: id, type (0 is a Differential, 2 a Full), watermark, previous id, resend
# and digest.
WORKED_ROWS = '''\
F1 2 1709424000000000000 X9 7 xe3b0c44298fc1c149afbf4c8996fb92427ae41e4649b934ca495991b7852b855
D2 0 1709510400000000000 F1 0 xba7816bf8f01cfea414140de5dae2223b00361a396177a9cb410ff61f20015ad
F3 2 1709596800000000000 none 999999 \
x00000000000000000000000000000000000000000000000000000000000000ff
'''
# Bodies, and the replies by the rows with their digests: a body that no row lists is parked.
ARRIVALS = ((b'abc', '1,n1,A3,U1,D2,0,,'), (b'abd', '2,n2,A5,,,,,'), (b'', '3,n3,A3,U1,F1,7,,'))

# Rows of two manifests, without their digests as numbers.
F1 = (FULL, 1)
F1_IN_OTHER_WORDS = ('F1,FULL,2024-03-03T00:00:00.0Z,,000', 1)
D2 = ('D2,DIFF,2024-03-04T00:00:00Z,F1,', 2)
D2_AGAIN = ('D2,DIFF,2024-03-04T00:00:00Z,F1,1', 3)
D2_MOVED = ('D2,DIFF,2024-03-06T00:00:00Z,F1,', 6)
D2_ON_X9 = ('D2,DIFF,2024-03-04T00:00:00Z,X9,', 2)
I4_ON_D2 = ('I4,INCR,2024-03-06T00:00:00Z,D2,', 4)
I4_ON_D3 = ('I4,INCR,2024-03-06T00:00:00Z,D3,', 4)
F5_WITH_BYTES_OF_F1 = ('F5,FULL,2024-03-07T00:00:00Z,,', 1)
F7 = ('F7,FULL,2024-03-11T00:00:00Z,,', 7)
D8_AT_D2 = ('D8,DIFF,2024-03-04T00:00:00Z,F1,', 8)
X9 = ('X9,FULL,2024-03-05T00:00:00Z,,', 9)
# The rows of two manifests, what an amendment of the first by the second is answered, and the ids
# that are listed then.
UNIONS = (
    ((F1,), (F1, D2), 'added 1', 'F1 D2'),
    ((F1, D2), (F1_IN_OTHER_WORDS,), 'added 0', 'F1 D2'),
    ((F1, D2), (), 'added 0', 'F1 D2'),
    ((), (F1, D2), 'added 2', 'F1 D2'),
    ((D2,), (F7, D2_AGAIN, D2, F1), 'added 3', 'D2 F7 D2 F1'),
    ((F1, D2_ON_X9), (X9,), 'M12 row 1', 'F1 D2'),
    ((F1, D2_ON_X9), (F1, F7, X9), 'M12 row 3', 'F1 D2'),
    ((F1, X9), (F7, D2_ON_X9), 'M12 row 2', 'F1 X9'),
    ((F1, D2), (F1, F7, D8_AT_D2), 'M10 row 3', 'F1 D2'),
    # Equal but for the previous id.
    ((F1, I4_ON_D2), (F7, I4_ON_D3), 'M10 row 2', 'F1 I4'),
    ((F1, D2), (F7, D2_MOVED), 'M11 row 2', 'F1 D2'),
    ((F1, D2), (F5_WITH_BYTES_OF_F1,), 'M13 row 1', 'F1 D2'),
    # The least number, of faults at two rows.
    ((F1, D2), (F5_WITH_BYTES_OF_F1, D8_AT_D2), 'M10 row 2', 'F1 D2'),
)


def test_the_first_line(stage: Stage) -> None:
    """The heading, and first lines that are none."""
    for text, said in FIRST_LINES:
        compare(f'what is said of {text}', said, said_of(stage, text))


def test_the_least_fault_of_a_text(stage: Stage) -> None:
    """The least fault of a text."""
    for said, *rows in TEXTS:
        compare(f'what is said of {rows}', said,
                said_of(stage, text_of_rows(it.rsplit(' ', 1) for it in rows)))


def test_the_values_of_rows(stage: Stage) -> None:
    """The values of rows, and the rows that digests name."""
    stage.write('listed.csv', WORKED.encode())
    with new_desk(stage) as desk:
        for at, (body, reply) in enumerate(ARRIVALS, 1):
            stage.write('body', body)
            compare(f'reply to {body}', reply, desk.ask(f'comes n{at} body').partition(';')[0])
        desk.check('close', '')
        desk.check(
            'query SELECT id, type, watermark, prev, resend, digest FROM listed ORDER BY row',
            WORKED_ROWS)


def fulls(count: int) -> bytes:
    """Fulls, one nanosecond apart."""
    return text_of_rows(
        (f'F{at},FULL,2024-03-03T00:00:00.{at:09}Z,,', at) for at in range(1, count + 1))


def test_how_many_rows_and_bytes_there_may_be(stage: Stage) -> None:
    """As many rows and bytes as a manifest may have, and more."""
    heading, row = HEADING.encode(), f'F1,FULL,2024-03-03T00:00:00Z,,0,{"01" * 32}\n'.encode()
    sizes = (
        ('4,096 rows', fulls(4_096), 'listed 4096'),
        ('4,097 rows', fulls(4_097), 'M1 row 0'),
        ('a row that occurs 4,097 times', heading + row * 4_097, 'M1 row 0'),
        ('4,194,304 bytes', heading.ljust(4_194_304, b'\n'), 'listed 0'),
        ('4,194,305 bytes', heading.ljust(4_194_305, b'\n'), 'M1 row 0'),
    )
    for name, text, said in sizes:
        compare(f'what is said of {name}', said, said_of(stage, text))


def test_the_union_of_two(stage: Stage) -> None:
    """The union of two manifests, or its fault."""
    for first, second, said, ids in UNIONS:
        stage.write('first.csv', text_of_rows(first))
        stage.write('second.csv', text_of_rows(second))
        with case(f'{first} and then {second}'), Harness(stage) as desk:
            desk.check('create first.csv', 'created\n')
            compare('amendment', said,
                    desk.ask('amend second.csv').partition(';')[0].removesuffix('\n'))
            desk.check('close', '')
            desk.check('query SELECT id FROM listed ORDER BY row', text_of(ids.split()))

"""The worked rows: bodies that arrive at a desk in some order, and the chain that it has in the
end; all else is by the plain model. Each is played in a new store, and in one that is opened again.
And what stood before each step of a chain."""
import contextlib
from collections.abc import Iterator
from collections.abc import Sequence
from typing import NamedTuple

from tests.support.bodies import bytes_of
from tests.support.bodies import line_of
from tests.support.bodies import manifest_text
from tests.support.clients import RequestDesk
from tests.support.clients import Wire
from tests.support.clients import new_desk
from tests.support.clients import table
from tests.support.events import query
from tests.support.first_store import literal
from tests.support.first_store import undo_of
from tests.support.formats import record
from tests.support.messages import get
from tests.support.model import Desk
from tests.support.stage import Stage
from tests.support.stage import case
from tests.support.stage import compare
from tests.support.stage import text_of
from tests.support.telling import answer
from tests.support.telling import rows_told
from tests.support.telling import state
from tests.support.verdicts import DOMAIN_A
from tests.support.verdicts import DOMAIN_B
from tests.support.verdicts import R1

B = ('F1', 'D2', 'D3', 'I4', 'F5', 'D6', 'D2Resent')
# Manifests with a revision whose base isn't listed, and with two types at one watermark, not in the
# order of places.
WITH_X9, TIES = (*B, 'D3Unlisted'), ('F2', 'D2', 'F1', 'I2', 'I0')


class Row(NamedTuple):
    """Arrivals, each a number and a body, and the rows of the manifest that are the latest chain
    after them."""
    name: str
    arrivals: str
    chain: tuple = ()
    listed: tuple = B


ROWS = (
    Row('no arrivals', ''),
    Row('a Full', '1:F1', (0,)),
    Row('in order', '1:F1 2:D2 3:D3', (0, 1, 2)),
    Row('the last first', '3:D3 2:D2 1:F1', (0, 1, 2)),
    Row('no Full', '1:D3 2:D2'),
    Row('an Incremental', '1:F1 2:D2 3:D3 4:I4', (0, 3)),
    Row('a Full and a blocked Differential', '1:F1 3:D3', (0,)),
    Row('a blocked Differential', '1:F1 2:D2 3:D6', (0, 1)),
    Row('a higher resend', '1:F1 2:D2 3:D3 4:D2Resent', (0, 6, 2)),
    Row('a lower resend', '1:F1 2:D2Resent 3:D2', (0, 6)),
    Row('a higher resend that is blocked', '1:F1 2:D2 3:D3 4:D3Unlisted', (0, 1), WITH_X9),
    Row('repeats', '1:F1 1:F1 2:D2 1:F1 1:F1', (0, 1)),
    Row('another number', '1:F1 9:F1', (0,)),
    Row('another body', '1:F1 1:D2', (0, 1)),
    Row('a key that is deleted and has contents', '1:F1 2:Both', (0, 1), ('F1', 'Both')),
    Row('a Full at the watermark of a Differential', '1:F1 2:D2 3:F2', (2,), ('F1', 'D2', 'F2')),
    Row('a Differential at the watermark of a Full', '3:F2 1:F1 2:D2', (2,), ('F1', 'D2', 'F2')),
    Row('a later Full', '1:F5', (4,)),
    # A chain whose last deposit declares how many objects there are.
    Row('a Full with its Differential', '1:F5 2:D6', (4, 5)),
    Row('all', '1:F1 2:D2 3:D3 4:I4 5:F5 6:D6 7:D2Resent', (4, 5)),
    Row('an Incremental twice', '1:I4 2:I4 3:D2Resent'),
    # Of D2 the later revision alone is held, so the earlier one is not awaited.
    Row('a later revision alone', '1:F5 2:D6 3:D2Resent', (4, 5)),
    Row('ties, the first Full first', '1:F1 2:D2 3:F2', (0,), TIES),
    Row('ties, the first Full last', '1:F2 2:D2 3:F1', (0,), TIES),
    Row('ties with an Incremental of that moment', '1:D2 2:F1 3:I2', (2, 3), TIES),
    Row('an Incremental of the moment of its Full', '1:F2 2:I2', (0,), TIES),
    Row('an Incremental before its Full', '1:I0', (), TIES),
    Row('an Incremental before all Fulls', '1:I0 2:D2 3:F2', (0,), TIES),
    Row('an Incremental after a Full that is missing', '1:F1 2:D2 3:D3 4:I7', (0, 1, 2),
        (*B, 'I7')),
    Row('an Incremental after a Full, whose previous id is another', '1:F1 2:D2 3:D3 4:F5 5:I7',
        (4, 7), (*B, 'I7')),
    Row('an Incremental whose Full is missing', '1:F1 2:I4', (0,), (*B, 'F4')),
    Row('each kind of blocker', '1:EarlyI0 2:EarlyD2 3:EarlyD3', (),
        ('EarlyI0', 'EarlyF1', 'EarlyD2', 'EarlyD3')),
    # The later revisions of D2 and D3 are used, and none of F5; and each row by itself.
    Row('later revisions', '1:D2 2:D2Resent 3:D3 4:D3Unlisted 5:F1', (0, 6), WITH_X9),
    Row('F1 alone', '1:F1', (0,), WITH_X9),
    *(Row(f'{it} alone', f'1:{it}', (), WITH_X9) for it in ('D2', 'D3', 'I4', 'D6', 'D3Unlisted')),
    Row('bodies that are no bundle', 'n1:Empty n2:Cut n3:Long n2:Abc', (),
        ('Empty', 'Cut', 'Long')),
    Row('a child row without a parent row', '1:Orphan', (0,), ('Orphan',)),
    Row('another resend than listed', '1:Unequal', (), ('Unequal',)),
    Row('bodies of which some are held', '1:Empty 2:D2 3:Unequal 4:Abc 5:F2 6:D2 6:D2', (2,),
        ('Empty', 'Unequal', 'F2', 'D2')),
)


@contextlib.contextmanager
def desk_of(stage: Stage, listed: Sequence[str]) -> Iterator[tuple[RequestDesk, Desk]]:
    """A desk over a new store that lists worked bodies, and the plain model, in a `with`
    statement."""
    stage.write('listed.csv', manifest_text(listed).encode())
    with new_desk(stage) as desk:
        yield desk, Desk(manifest_text(listed).encode())


def open_again(desk: RequestDesk, closing: str) -> None:
    """Closes the desk, or its files with it, and opens it again."""
    desk.check(closing, '')
    desk.check('open', 'opened\n')


def check_state(desk: RequestDesk, model: Desk) -> None:
    """Compares what a desk tells of itself with the model, and its gaps over HTTP."""
    for line, wanted in state(model).items():
        desk.check(line, wanted)
    desk.check_served(Wire(get('/gaps')), table('gaps', *model.gap_rows()))


def check_rows(stage: Stage, closing: str, *closings: str) -> None:
    """Each row in a new store that is closed so and opened again before each arrival, if it is; and
    so in the end."""
    for row in ROWS:
        with case(row.name), desk_of(stage, row.listed) as (desk, model):
            for it in row.arrivals.split():
                if closing:
                    open_again(desk, closing)
                number, name = it.split(':')
                stage.write(name, bytes_of(name))
                desk.check(f'comes {number} {name}',
                           answer(stage, model, f'comes {number} {name}').whole())
            compare('the rows of the chain', f'{row.chain}', f'{tuple(model.steps)}')
            check_state(desk, model)
            for it in closings:
                open_again(desk, it)
                check_state(desk, model)
            desk.check('close', '')
            desk.check(query('undo'), rows_told(undo_of(model)))


# (Files are closed as a crash of the program leaves them, and as the program does.)
CASES = {
    'Each row in a new store': lambda stage: check_rows(stage, None),
    'Each row in a store that is closed and opened again before each arrival': lambda stage:
    check_rows(stage, 'close'),
    'Each row in files that are closed and opened again before each arrival, and at the end': lambda
    stage: check_rows(stage, 'reopen', 'crash written', 'reopen'),
}


def test_tables_are_moved_and_not_read_again(stage: Stage) -> None:
    """Tables are moved, and not read again."""
    # F1's contact has another registrar since, in the store alone.
    moved = record([('contact', [('id', 'C1'), ('clID', 'R7')])])
    stage.write('moved.sql',
                f'UPDATE object SET record = {literal(moved)} WHERE kind = 1;\n'.encode())
    for name in ('F1', 'D2'):
        stage.write(name, bytes_of(name))
    with desk_of(stage, B) as (desk, model):
        desk.check('comes 1 F1', answer(stage, model, 'comes 1 F1').whole())
        for line, wanted in (('close', ''), ('script moved.sql', ''), ('open', 'opened\n')):
            desk.check(line, wanted)
        desk.check('comes 2 D2', answer(stage, model, 'comes 2 D2').whole())
        desk.check('tables', text_of([R1, 'contact C1: contact id=C1 clID=R7', DOMAIN_A, DOMAIN_B]))


def test_the_empty_body(_: Stage) -> None:
    """The empty body is listed by its published digest."""
    compare(
        'row',
        'E0,FULL,2024-03-01T00:00:00Z,,0,'
        'e3b0c44298fc1c149afbf4c8996fb92427ae41e4649b934ca495991b7852b855\n',
        line_of('Empty'))

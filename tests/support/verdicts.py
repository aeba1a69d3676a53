"""What a desk says of bodies that its manifest lists: those that are refused, in one store, and
those that are held, each in a new one."""
from collections.abc import Iterable
from collections.abc import Sequence
from contextlib import AbstractContextManager

from tests.support.bundles import HEADING
from tests.support.bundles import row_of
from tests.support.clients import RequestDesk
from tests.support.clients import new_desk
from tests.support.harness import Harness
from tests.support.stage import Stage
from tests.support.stage import case
from tests.support.stage import compare
from tests.support.stage import text_of

# What a row says of a Full, without the digest of its body.
F1 = 'F1,FULL,2024-03-03T00:00:00Z,,0'
# How a desk tells objects.
R1, C1 = 'registrar R1: registrar id=R1', 'contact C1: contact id=C1 clID=R1'
DOMAIN_A, DOMAIN_B = (f'domain {it}.example: domain name={it}.example clID=R1 registrant=C1'
                      for it in 'ab')


def desk_over(stage: Stage, rows: Iterable[str]) -> AbstractContextManager[RequestDesk]:
    """A desk over a new store of a manifest with these lines, in a `with` statement."""
    stage.write('listed.csv', (HEADING + ''.join(rows)).encode())
    return new_desk(stage)


def reply_to(stage: Stage, desk: Harness, number: object, body: bytes) -> str:
    """The reply to a body that arrives, without its receipt and its number."""
    stage.write('body', body)
    return desk.ask(f'comes {number} body').partition(';')[0].split(',', 2)[-1]


def check_faults(stage: Stage, cases: Sequence[tuple[str, bytes, str]]) -> None:
    """Compares the faults of bodies, which one store lists, each at a watermark of its own. A case
    is a name, a body and a fault."""
    said = [f'B{at},FULL,2024-03-03T00:00:00.{at:09}Z,,0' for at in range(len(cases))]
    with desk_over(stage, [row_of(it, body) for it, (_, body, _) in zip(said, cases)]) as desk:
        for at, (name, body, fault) in enumerate(cases):
            compare(f'reply to {name}', f'A3,{fault},B{at},0,,', reply_to(stage, desk, at, body))


def check_held(stage: Stage, name: str, body: bytes, tables: Iterable[str], said: str = F1,
               orphans: int = 0, counts: Iterable[str] = ()) -> None:
    """Compares what a new store says of a body that is the deposit of its row: the reply, the
    objects, and the watermark and the counts of its envelope."""
    listed, _, watermark, _, resend = said.split(',')
    with case(name), desk_over(stage, [row_of(said, body)]) as desk:
        compare('reply', f'A1,,{listed},{resend},new,{orphans}', reply_to(stage, desk, 1, body))
        compare('objects', text_of(tables), desk.ask('tables'))
        compare('end', text_of([watermark, *counts]), desk.ask('end'))


def text_of_rows(rows: Iterable[tuple[str, object]]) -> bytes:
    """A manifest of rows: what comes before the digest of each, and that as a number, or `-` where
    there is none."""
    return (HEADING + ''.join(f'{said}\n' if digest == '-' else f'{said},{digest:0>64}\n'
                              for said, digest in rows)).encode()


def said_of(stage: Stage, text: bytes) -> str:
    """What is said of a manifest: how many rows are listed, or its fault."""
    stage.write('listed.csv', text)
    with Harness(stage) as desk:
        answer = desk.ask('create listed.csv')
        return (desk.ask('status') if answer == 'created\n' else answer).split('\n')[0]

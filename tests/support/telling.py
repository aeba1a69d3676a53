"""What a desk answers and tells, by the plain model."""
from collections.abc import Iterable
from collections.abc import Sequence
from typing import NamedTuple

from tests.support.files import read
from tests.support.formats import KINDS
from tests.support.formats import Deposit
from tests.support.formats import Refused
from tests.support.formats import held_in
from tests.support.formats import moment
from tests.support.formats import moment_text
from tests.support.formats import place_text
from tests.support.formats import read_record
from tests.support.model import Desk
from tests.support.reports import report
from tests.support.reports import status
from tests.support.stage import Stage
from tests.support.stage import text_of


class Answer(NamedTuple):
    """An answer, and what it cost: whether all is cleared, how many steps are undone and applied,
    and the writes."""
    text: str
    cost: str = ''
    writes: int = 0

    def whole(self) -> str:
        return f'{self.text}{self.cost}\n'


def answer(stage: Stage, model: Desk, line: str) -> Answer:
    """The answer to a line, whose file is in the folder: a body that comes, a manifest that amends,
    or a moment."""
    old, held = model.steps, model.held
    try:
        match line.split():
            case ['comes', number, file]:
                text = model.row_text(model.arrive(number, read(stage.at(file))))
            case ['amend', file]:
                text = f'added {model.amend(read(stage.at(file)))}'
            case ['as-of', word]:
                model.moment = None if word == 'latest' else moment(word)
                text = f'as of {word}'
    except Refused as refused:
        return Answer(f'M{refused.code} row {refused.where}')
    model.settle()
    front = max(count for count in range(len(old) + 1) if old[:count] == model.steps[:count])
    cleared = front == 0 and old != []
    undone: list[bytes] = [] if cleared else [held[it] for it in old[front:]]
    applied = [model.held[it] for it in model.steps[front:]]
    writes = sum(len(held_in(it).says) for it in undone + applied)
    cost = (f'; cleared {str(cleared).lower()}, {len(undone)} undone, {len(applied)} applied, '
            f'{writes} written, {writes} counted')
    return Answer(text, cost, writes)


def object_text(kind: str, key: bytes, record: bytes) -> str:
    rows = [' '.join([table, *(f'{field}={text}' for field, text in cells)])
            for table, cells in read_record(record)]
    return f'{kind} {key.decode()}: ' + '; '.join(rows)


def end_lines(end: Deposit) -> list[str]:
    counts = (f'{it} {end.counts[it]}' for it in KINDS if it in end.counts)
    return [moment_text(end.place[0]), *counts]


def state(model: Desk) -> dict[str, str]:
    """All that a desk tells of itself: its answer to each question."""
    places = [f'{place_text(model.place(it))} {model.listed[it][3]}' for it in model.steps]
    end = held_in(model.held[model.steps[-1]]) if places else None
    objects = sorted(model.objects.items(), key=lambda it: (KINDS.index(it[0][0]), it[0][1]))
    kinds = [kind for (kind, _), _ in objects]
    return {
        'status': status(len(model.listed), len(model.held), len(model.receipts), len(places),
                         places[-1] if places else 'none',
                         **{it: kinds.count(it) for it in KINDS}),
        'end': text_of(end_lines(end) if end else ['none']),
        'moment': text_of(['latest' if model.moment is None else moment_text(model.moment)]),
        'parked': report('parked', model.parked_rows()),
        'receipts': report('receipts', model.receipt_rows()),
        'held': text_of([' '.join([f'lists {len(model.listed)}, holds', *map(str, model.held)])]),
        'tables': text_of(object_text(*name, record) for name, record in objects),
        'chain': text_of(f'step {row} {place}' for row, place in zip(model.steps, places)),
    }


def shown(value: object) -> str:
    """A value as a query tells it."""
    if value is None:
        return 'none'
    return f'x{value.hex()}' if isinstance(value, bytes) else str(value)


def rows_told(rows: Iterable[Sequence[object]]) -> str:
    """Rows of a table as a query tells them."""
    return text_of(' '.join(map(shown, it)) for it in rows)

"""An agent's bare CSV files at random, with their description, in each form that `pack bundle`
takes."""
import random
from collections.abc import Sequence

from tests.support.formats import KINDS

# What cells are made of: what means something in CSV, and letters of several alphabets.
CELLS = (
    '', 'a', 'R1', 'é漢\U0001f600', ' x ', 'a,b', 'q"q', '"', 'two\nlines', 'cr\rlf\r\n', ';', '\t'
)
KEYS = ('k1', 'k2', 'K2', 'é1', 'k,3', 'k"4', 'k 5', 'nobody')
# What the names of child tables end with: letters of either case are told apart.
NAMES = ('t', 'T', 'more_1', 'domainNs', 'z' * 64)


class Files:
    """The files of a deposit, and its description."""

    def __init__(self, chance: random.Random, header: dict[str, str], most: int = 12) -> None:
        self.chance, self.most = chance, most
        self.files: dict[str, bytes] = {}
        self.description: dict = {**header, 'contents': [], 'deletes': []}
        for kind in chance.sample(KINDS, chance.randint(1, len(KINDS))):
            self.add_kind(kind)
        chance.shuffle(self.description['contents'])

    def add_kind(self, kind: str) -> None:
        # A kind may have child tables alone: then each row is an orphan.
        if self.chance.random() < 0.9:
            self.add('contents', f'{kind}_', kind, 'parent')
        for name in self.chance.sample(NAMES, self.chance.randint(0, 3)):
            self.add('contents', f'{kind}{name}'[:64], kind, 'child')
        for name in self.chance.sample(('gone', 'Gone'), self.chance.choice((0, 0, 1, 2))):
            self.add('deletes', f'{kind}{name}', kind, 'parent')

    def add(self, member: str, name: str, kind: str, role: str) -> None:
        """A table of some fields and rows, in one file or several, or in none."""
        pick, number = self.chance, sum(len(self.description[it]) for it in ('contents', 'deletes'))
        fields = [f'f.{at}' for at in range(pick.randint(1, 4))]
        key = pick.choice(fields)
        rows = [[pick.choice(KEYS if it == key else CELLS) for it in fields]
                for _ in range(pick.randint(0, self.most))]
        has_heading, count = pick.random() < 0.6, pick.randint(0 if not rows else 1, 3)
        names = [f'{name[:9]} {number}-{at}.CSV' for at in range(count)]
        for at, file in enumerate(names):
            self.files[file] = self.text([fields] * has_heading + rows[at::count])
        self.description[member].append({
            'name': name, 'kind': kind, 'role': role, 'key': key, 'fields': fields,
            'file': f'{"d" if member == "deletes" else "c"}{number}', 'from': names,
            'heading': has_heading
        })

    def text(self, rows: Sequence[Sequence[str]]) -> bytes:
        """Rows as an agent may write them: a byte order mark, line ends of one form, quotes, empty
        lines, and no end of the last line."""
        pick = self.chance.choice
        end, are_quoted = pick(('\n', '\r\n', '\r')), pick((True, False))
        lines = [
            ','.join(cell_text(it, are_quoted or len(row) == 1) for it in row)
            + end * pick((1, 1, 1, 3)) for row in rows
        ]
        text = pick(('', '', '\ufeff')) + ''.join(lines)
        return (text if pick((True, False)) else text.removesuffix(end)).encode()


def cell_text(cell: str, is_quoted: bool) -> str:
    if is_quoted or any(it in cell for it in ',"\r\n'):
        return '"' + cell.replace('"', '""') + '"'
    return cell

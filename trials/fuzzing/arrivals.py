"""What arrives at a desk: the deposits of a seeded release, damaged, each with what the row that
lists it says, and the numbers of arrivals; and what `take` has to make of folders of them, by the
definitions."""
import random
import shutil
from collections.abc import Mapping
from typing import NamedTuple

from tests.support import registries
from tests.support.bundles import Header
from tests.support.bundles import manifest
from tests.support.model import Desk
from tests.support.reports import report
from trials.fuzzing import bundles
from trials.fuzzing.damage import flipped
from trials.trial import Trial


class Listed(NamedTuple):
    """A mutated bundle, with the header of the deposit it was made of, which a row says of it."""
    mutation: str
    body: bytes
    header: Header


def mutated_release(rng: random.Random, many: int) -> list[Listed]:
    """So many mutated bundles of a seeded release, no two alike."""
    rows: list[Listed] = []
    seen, world = set(), None
    while len(rows) < many:
        name, number = f'B{len(rows)}', len(rows)
        watermark = (f'2024-04-01T{number // 3600:02d}:{number // 60 % 60:02d}:{number % 60:02d}'
                     f'{".5" * (number % 7 == 6)}Z')
        kind = 'FULL' if world is None else rng.choice(('FULL', 'DIFF', 'DIFF', 'INCR'))
        prev = rows[-1].header.id if kind == 'DIFF' else ''
        if kind == 'FULL':
            world, body = registries.full(rng.random(), 40, name, watermark)
        else:
            told = dict(id=name, type=kind, watermark=watermark,
                        **({'prevId': prev} if prev else {}))
            body = registries.delta(world, told, 6)
        what, change = rng.choice(bundles.CHANGES)
        made = Listed(what, change(rng, body), Header(name, kind, watermark, prev))
        if made.body not in seen:
            seen.add(made.body)
            rows.append(made)
    return rows


def names(rng: random.Random, many: int) -> list[str]:
    found: set[str] = set()
    while len(found) < many:
        found.add(''.join(rng.choices('ABCXYZabcxyz019._-', k=rng.choice((1, 4, 8, 64)))))
        found -= {'.', '..'}
    return sorted(found)


def expected_take(files: Mapping[str, bytes], desk: Desk) -> tuple[int, bytes, bytes]:
    """Status, output and refusals of a folder that the model of a desk takes."""
    receipts = [desk.arrive(name, files[name]) for name in sorted(files)]
    return (int(any(it.verdict != 'A1' for it in receipts)),
            report('receipts', map(desk.row_text, receipts)).encode(), b'')


def folder_of(rng: random.Random, rows: list[Listed]) -> dict[str, bytes]:
    """The files of a folder: listed bundles, some twice, and others that are not listed."""
    bodies = [row.body for row in rows] + [rng.choice(rows).body for _ in range(3)]
    bodies += [rng.randbytes(rng.randint(0, 400)) for _ in range(4)] + [flipped(rng, rows[0].body)]
    rng.shuffle(bodies)
    return dict(zip(names(rng, len(bodies)), bodies))


def blame(trial: Trial, batch: int, rows: list[Listed], files: Mapping[str, bytes],
          expected: tuple[int, bytes, bytes], got: tuple[int | None, bytes, bytes],
          **kept: bytes) -> None:
    """Says which bundles of a folder are wrong: those of other lines, or the one at which the
    program stopped."""
    lines, found = expected[1].splitlines(), [*got[1].splitlines(), f'status {got[0]}'.encode()]
    for want, is_line in [(want, is_line) for want, is_line in zip(lines, found)
                          if want != is_line] or [(expected[1], got)]:
        body = files.get(want.decode().split(',')[1], b'')
        mutation = next((row.mutation for row in rows if row.body == body), 'not listed')
        how = ('restore init --store s --manifest manifest.csv; '
               'restore take --store s FOLDER_OF_bundle')
        trial.wrong(f'bundle ({mutation}) of folder {batch}: {how}', want, is_line, bundle=body,
                    **kept)


def over_bundles(trial: Trial, batch: int, rng: random.Random, many: int) -> None:
    rows = mutated_release(rng, many)
    files, listed = folder_of(rng, rows), manifest((row.header, row.body) for row in rows)
    store, folder, made = trial.set_up(f'store-{batch}', listed, files.items())
    desk = Desk(listed)
    expected = expected_take(files, desk)
    trial.expect(f'init of folder {batch}', (0, f'listed {many}\n'.encode(), b''), made)
    got = trial.run('take', '--store', store, folder)
    if got != expected:
        blame(trial, batch, rows, files, expected, got, **{'manifest.csv': listed})
    trial.check_store(f'folder {batch}', store)
    before = trial.texts(store)
    trial.expect(f'folder {batch} taken again', expected,
                 trial.run('take', '--store', store, folder))
    trial.expect(f'folder {batch}: the reports after that', before, trial.texts(store))
    for name, told in (('receipts', desk.receipt_rows()), ('parked', desk.parked_rows())):
        trial.expect(f'{name} of folder {batch}', (0, report(name, told).encode(), b''),
                     trial.run('report', '--store', store, name))
    verdicts = {it.row: it.verdict for it in desk.receipts.values() if it.row is not None}
    trial.counts.update(verdicts.values())
    trial.counts['inputs'] += many
    shutil.rmtree(folder)

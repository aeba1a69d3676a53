"""Releases, the stores that `restore` rebuilds from them, and what the plain model keeps of
them."""
import os
from collections.abc import Iterable
from typing import NamedTuple

from tests.support import TOP
from tests.support.files import read
from tests.support.formats import moment
from tests.support.model import Desk
from tests.support.stage import Stage
from tests.support.stores import run


class Release(NamedTuple):
    """A manifest, the bodies that arrive with their numbers, of which not each may be held, and the
    moment that is set, or none."""
    manifest: bytes
    arrivals: list[tuple[str, bytes]]
    moment: str | None = None

    def desk(self) -> Desk:
        latest = moment(self.moment) if self.moment else None
        return Desk(self.manifest, sorted(self.arrivals), latest)

    def rebuild(self, stage: Stage, store: str = 'a.db') -> None:
        folder = f'{store}-deposits'
        os.makedirs(stage.at(folder))
        stage.write(f'{store}.csv', self.manifest)
        for number, body in self.arrivals:
            stage.write(f'{folder}/{number}', body)
        run(stage, f'init --store {store} --manifest {store}.csv')
        run(stage, f'take --store {store} {folder}', statuses=(0, 1))
        if self.moment:
            run(stage, f'as-of --store {store} {self.moment}')


def numbered(bodies: Iterable[bytes]) -> list[tuple[str, bytes]]:
    return [(f'{at:04}', body) for at, body in enumerate(bodies)]


def sample(path: str) -> bytes:
    return read(f'{TOP}/samples/{path}')


def folder(path: str) -> list[tuple[str, bytes]]:
    """The files of a sample's folder, by their names."""
    return [(name, sample(f'{path}/{name}'))
            for name in sorted(os.listdir(f'{TOP}/samples/{path}'))]


DEPOSITS, MISSING = folder('release/deposits'), folder('release/missing')
SAMPLES = {
    'the first sample': Release(sample('first/manifest.csv'), folder('first/deposits')),
    'the release without a deposit': Release(sample('release/manifest.csv'), DEPOSITS),
    'the whole release': Release(sample('release/manifest.csv'), DEPOSITS + MISSING),
    'a first part': Release(sample('parts/first.csv'), DEPOSITS + MISSING),
}

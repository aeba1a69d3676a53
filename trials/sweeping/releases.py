"""The releases that are swept, in stores, with what the program says of each undisturbed: those of
the samples, four arrivals of which the last takes two steps back, a release in two parts, and a
store of version 1."""
import os

from tests.support import TOP
from tests.support.bodies import bytes_of
from tests.support.bodies import manifest_text
from tests.support.files import read
from tests.support.files import write
from tests.support.first_store import first_rows
from tests.support.first_store import write_store
from tests.support.stores import copy
from tests.support.stores import rows
from trials.sweeping.refusals import Sweep

SAMPLES = f'{TOP}/samples'
# A Full, two Differentials, and the first of these once more, at resend 1.
FOUR = ('F1', 'D2', 'D3', 'D2Resent')


def write_four(work: str) -> str:
    """A folder with a manifest and four arrivals."""
    for at, name in enumerate(FOUR, 1):
        write(f'{work}/four/deposits/{at}', bytes_of(name))
    write(f'{work}/four/manifest.csv', manifest_text(FOUR).encode())
    return f'{work}/four'


class Release:
    """A release, and what the program says of it undisturbed."""

    def __init__(self, sweep: Sweep, name: str, folder: str, is_whole: bool) -> None:
        self.name, self.is_whole = name, is_whole
        self.manifest, self.deposits = f'{folder}/manifest.csv', f'{folder}/deposits'
        self.fresh, self.taken = (f'{sweep.work}/{name}-{it}' for it in ('fresh', 'taken'))
        self.listed = sweep.run('init', '--store', self.fresh, '--manifest', self.manifest)
        copy(self.fresh, self.taken)
        self.lines = sweep.run('take', '--store', self.taken, self.deposits)
        self.told = rows(self.taken)
        assert self.listed[0] == self.lines[0] == 0, (self.listed, self.lines)


class Parts:
    """A release in two parts: a store of the first, in which bodies wait for the second; and as
    version 1 had it."""

    def __init__(self, sweep: Sweep) -> None:
        self.name, self.is_whole, self.deposits = 'parts', True, f'{SAMPLES}/release/deposits'
        first, self.more = (f'{SAMPLES}/parts/{it}.csv' for it in ('first', 'second'))
        self.taken, self.first = f'{sweep.work}/parts-taken', f'{sweep.work}/parts-first'
        listed = sweep.run('init', '--store', self.taken, '--manifest', first)
        lines = sweep.run('take', '--store', self.taken, self.deposits)
        assert listed == (0, 'listed 3\n', ''), listed
        assert lines[0] == 1 and lines[1].count(',A5,') == 3, lines
        arrivals = [(name, read(f'{self.deposits}/{name}'))
                    for name in sorted(os.listdir(self.deposits))]
        write_store(self.first, first_rows(read(first), arrivals))


class Unkept:
    """A migrated store, and the arrivals again: of those that are A2 it keeps no body yet."""

    def __init__(self, sweep: Sweep, parts: Parts) -> None:
        self.name, self.is_whole, self.deposits = 'A2 again', True, parts.deposits
        self.fresh = copy(parts.first, f'{sweep.work}/unkept-fresh')
        migrated = sweep.run('migrate', '--store', self.fresh)
        taken = copy(self.fresh, f'{sweep.work}/unkept-taken')
        self.lines = sweep.run('take', '--store', taken, self.deposits)
        self.told = rows(taken)
        assert migrated == (0, 'migrated\n', ''), migrated
        assert self.lines[1].count(',A2,') == 3, self.lines
        assert len(self.told['parked']) == 3, self.told


# What is swept.
Swept = Release | Parts | Unkept

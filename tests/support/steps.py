"""What a transcript does beside running the programs: the files that it makes and changes."""
import contextlib
import hashlib
import inspect
import os
import shutil
import sqlite3
from collections.abc import Callable
from collections.abc import Sequence
from dataclasses import field
from dataclasses import make_dataclass
from typing import Protocol

from tests.support import TESTS
from tests.support.bodies import bytes_of
from tests.support.bodies import manifest_text
from tests.support.files import read
from tests.support.first_store import first_rows
from tests.support.first_store import first_script
from tests.support.first_store import write_store
from tests.support.stage import Stage

FILES = f'{TESTS}/files'


class Step(Protocol):
    """What a transcript does on a stage."""

    def __init__(self, *values: object) -> None:
        ...

    def do(self, stage: Stage) -> None:
        ...


def step(play: Callable[..., None]) -> type[Step]:
    """A kind of step, by what it does on a stage with its values: `Folder('a').do(stage)`."""
    _, *values = inspect.signature(play).parameters.values()
    fields = [(it.name, object, field() if it.default is it.empty else field(default=it.default))
              for it in values]
    return make_dataclass(
        play.__name__, fields, frozen=True, namespace={
            '__doc__': play.__doc__,
            'do': lambda self, stage: play(stage, *(getattr(self, it.name) for it in values))
        })


@step
def Folder(stage: Stage, path: str) -> None:
    os.makedirs(stage.at(path))


@step
def Copy(stage: Stage, path: str, name: str) -> None:
    """A file of tests/files, under another name."""
    shutil.copyfile(f'{FILES}/{name}', stage.at(path))


@step
def Text(stage: Stage, path: str, text: str) -> None:
    write_new(stage, path, text.encode())


@step
def Zeros(stage: Stage, path: str, count: int) -> None:
    """A file of this many zero bytes, which takes no room on the disk."""
    with open(stage.at(path), 'xb') as file:
        file.truncate(count)


@step
def Link(stage: Stage, path: str, target: str) -> None:
    os.symlink(target, stage.at(path))


@step
def Statements(stage: Stage, path: str, text: str) -> None:
    """Statements of SQL, over a database that is made if it isn't there."""
    with contextlib.closing(sqlite3.connect(stage.at(path))) as database:
        database.executescript(text)


@step
def FirstStore(stage: Stage, path: str, manifest: str, bodies: Sequence[tuple[str, str]]) -> None:
    """A store of version 1 that was made of a manifest and took bodies, each under its number."""
    write_store(
        stage.at(path),
        first_rows(read(f'{FILES}/{manifest}'),
                   [(number, read(f'{FILES}/{name}')) for number, name in bodies]))


@step
def Bodies(stage: Stage, names: Sequence[str]) -> None:
    """Worked bodies, each in a file of its name."""
    for name in names:
        write_new(stage, name, bytes_of(name))


@step
def Manifest(stage: Stage, path: str, names: Sequence[str], more: str = '') -> None:
    """A manifest that lists worked bodies, and then has further rows."""
    write_new(stage, path, manifest_text(names, more).encode())


@step
def FirstScript(stage: Stage, path: str, manifest: str, bodies: Sequence[tuple[str, str]]) -> None:
    """The statements that make a store of version 1, which was made of a manifest and took worked
    bodies, each under its number. The manifest is a file in the folder."""
    rows = first_rows(read(stage.at(manifest)),
                      [(number, bytes_of(name)) for number, name in bodies])
    write_new(stage, path, first_script(rows).encode())


@step
def Parked(stage: Stage, path: str, count: int) -> None:
    """Parks the bodies 0001, 0002 .. in a store, each under its text, with receipts after those
    that are there, as their arrivals would."""
    with contextlib.closing(sqlite3.connect(stage.at(path))) as database, database:
        last, = database.execute('SELECT coalesce(max(receipt), 0) FROM receipt').fetchone()
        for at in range(1, count + 1):
            body = f'{at:04}'.encode()
            digest = hashlib.sha256(body).digest()
            receipt = last + at, body.decode(), digest
            database.execute(
                'INSERT INTO receipt (receipt, number, digest, verdict) VALUES (?, ?, ?, 5)',
                receipt)
            database.execute('INSERT INTO parked (digest, body) VALUES (?, ?)', (digest, body))


def write_new(stage: Stage, path: str, content: bytes) -> None:
    """Writes a file that isn't there yet."""
    with open(stage.at(path), 'xb') as file:
        file.write(content)

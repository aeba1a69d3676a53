"""What --verbose says of a refusal: a second line of standard error, with the command, the path and
the cause. The first line, the status and standard output are as without it."""
import contextlib
import fcntl
import os
import resource
import shutil
import signal
import subprocess
from collections.abc import Callable
from collections.abc import Iterator
from typing import Any
from typing import NamedTuple

from tests.support import TOP
from tests.support.files import read
from tests.support.files import write
from tests.support.messages import get
from tests.support.messages import response
from tests.support.outputs import prepared
from tests.support.sockets import response_to
from tests.support.sockets import serve
from tests.support.stage import Failed
from tests.support.stage import Stage
from tests.support.stage import case
from tests.support.stage import compare
from tests.support.stores import change_row
from tests.support.stores import copy
from tests.support.stores import run

MANIFEST = f'{TOP}/samples/first/manifest.csv'
DEPOSITS = f'{TOP}/samples/first/deposits'
NOBODY = 65534
# SQLite's lock of a database file: its first byte, and how many there are.
LOCK_START, LOCK_BYTES = 1 << 30, 512

DAMAGED = 'a page of the file is damaged: it is not what was written'
FOREIGN = 'a row of the table receipt is none that the desk writes'
NOT_PLAIN = 'the file or its log is no plain file with one name'
USED = 'not the store that this command is for'
FAILED = 'the system failed a read or a write of the file or its log (an I/O error)'
NO_FILE = 'there is no such file or folder'
FULL = 'no space is left on the disk'
THERE = 'something is there already'
LARGE = 'it has over 16,777,216 bytes'
UNPARTED = 'it has no folders part-001, part-002 and so on'


class Refusal(NamedTuple):
    """A command, its first line, and of the second one the path and the cause."""
    line: str
    first: str
    path: str
    cause: str
    program: str = 'restore'


def check(stage: Stage, wanted: Refusal, **begun: Any) -> None:
    """Runs a command without the option, and with it by both of its words."""
    words = wanted.line.split()
    short = stage.end(stage.begin(words, wanted.program, **begun))
    compare(wanted.line, f'{wanted.first}\n', short.err.decode())
    lines = f'{wanted.first}\nwhy: {words[0]} {wanted.path}: {wanted.cause}\n'
    for flag in ('--verbose', '-v'):
        told = stage.end(stage.begin([*words, flag], wanted.program, **begun))
        compare(f'{wanted.line} {flag}', lines, told.err.decode())
        if (told.status, told.out) != (short.status, short.out):
            raise Failed(f'{wanted.line} {flag}: {told}, and without it {short}')


def put_store(stage: Stage) -> None:
    run(stage, f'init --store a.db --manifest {MANIFEST}')
    run(stage, f'take --store a.db {DEPOSITS}')


# ---- a store

def damage(stage: Stage) -> None:
    """Each page but the first begins with other bytes."""
    data = bytearray(read(stage.at('b.db')))
    size = int.from_bytes(data[16:18], 'big')
    for at in range(size, len(data), size):
        data[at:at + 8] = bytes([255] * 8)
    write(stage.at('b.db'), data)


def put_text(stage: Stage) -> None:
    stage.write('b.db', b'words\n' * 1000)


def change_receipt(stage: Stage) -> None:
    change_row(stage, 'b.db', 'UPDATE receipt SET verdict = 9 WHERE receipt = 1', ())


def put_second_name(stage: Stage) -> None:
    os.link(stage.at('b.db'), stage.at('second.db'))


def put_journal(stage: Stage) -> None:
    stage.write('b.db-journal', b'x' * 600)


def remove_journal(stage: Stage) -> None:
    os.remove(stage.at('b.db-journal'))


def remove_store(stage: Stage) -> None:
    copy(None, stage.at('b.db'))


# What is done to a store, and a command over it.
STORES: tuple[tuple[Callable[[Stage], None], Refusal], ...] = (
    (damage, Refusal('report --store b.db gaps', 'S1', 'b.db', DAMAGED)),
    (put_text, Refusal('report --store b.db gaps', 'S1', 'b.db', 'not a database of the desk')),
    (change_receipt, Refusal('report --store b.db receipts', 'S1', 'b.db', FOREIGN)),
    (put_second_name, Refusal('take --store b.db none', 'S1', 'b.db', NOT_PLAIN)),
    (put_journal, Refusal('report --store b.db gaps', 'S1', 'b.db',
                          'a rollback journal stands beside the file')),
    (remove_journal, Refusal(f'init --store b.db --manifest {MANIFEST}', 'S3', 'b.db', USED)),
    (remove_store, Refusal('report --store b.db gaps', 'S3', 'b.db', 'there is no such file')),
)


def test_stores(stage: Stage) -> None:
    """--verbose says why a store is refused: damaged, changed, no database, a second name, none"""
    put_store(stage)
    for spoil, wanted in STORES:
        with case(spoil.__name__):
            copy(stage.at('a.db'), stage.at('b.db'))
            spoil(stage)
            check(stage, wanted)


def test_locked(stage: Stage) -> None:
    """--verbose says that another process has a store open, in `restore` and in `handover`"""
    put_store(stage)
    with open(stage.at('a.db'), 'r+b') as file:
        fcntl.lockf(file, fcntl.LOCK_EX, LOCK_BYTES, LOCK_START)
        for line, program in ((f'take --store a.db {DEPOSITS}', 'restore'),
                              ('report --store a.db gaps', 'restore'),
                              ('check --store a.db', 'handover')):
            check(stage, Refusal(line, 'S1', 'a.db', 'locked by another process', program))


# What is asked of a desk whose receipts are changed, and the response.
ASKED = (('/receipts', response(503, 'S1\n')), ('/moment', response(200, 'latest\n')))


def test_served(stage: Stage) -> None:
    """--verbose says why `serve` answers 503, on a line of its own, and nothing of other answers"""
    put_store(stage)
    copy(stage.at('a.db'), stage.at('b.db'))
    change_receipt(stage)
    for option, told in (('', ''), ('-v', f'why: serve b.db: {FOREIGN}\n')):
        child, port = serve(stage, 'b.db', len(ASKED), option)
        for path, wanted in ASKED:
            compare(f'{path} {option}', wanted.decode(), response_to(port, get(path)).decode())
        got = stage.end(child)
        compare(f'serve {option}', f'0 {told}', f'{got.status} {got.err.decode()}')


# ---- files

FILES = (
    Refusal('take --store a.db nowhere', 'E1 nowhere', 'nowhere', NO_FILE),
    Refusal('init --store b.db --manifest no.csv', 'E1 no.csv', 'no.csv', NO_FILE),
    Refusal('init --store b.db --manifest .', 'E1 .', '.', 'it is no plain file'),
    Refusal('report --store . gaps', 'E1 .', '.', 'it is a folder'),
    Refusal('take --store a.db large', 'E2 z', 'z', LARGE),
    Refusal('page --store a.db there', 'E1 there', 'there', THERE, 'handover'),
    Refusal('check --manifest no.csv nowhere', 'E1 no.csv', 'no.csv', NO_FILE, 'pack'),
    Refusal('series nowhere out', 'E1 nowhere', 'nowhere', NO_FILE, 'pack'),
    Refusal('series large out', 'E1 large', 'large', UNPARTED, 'pack'),
    Refusal('manifest large/z', 'E2 large/z', 'large/z', LARGE, 'pack'),
)


def test_files(stage: Stage) -> None:
    """--verbose says why a file or a folder is refused, in each program, on one line"""
    put_store(stage)
    stage.write('there', b'')
    stage.write('large/z', b'')
    os.truncate(stage.at('large/z'), 17_000_000)
    for wanted in FILES:
        check(stage, wanted)
    words = ['init', '--store', 'b.db', '--manifest', 'm\nS1', '-v']
    told = stage.end(stage.begin(words)).err.decode()
    compare('a line end', f'E1 m\\nS1\nwhy: init m\\nS1: {NO_FILE}\n', told)


def test_silence(stage: Stage) -> None:
    """--verbose says nothing where nothing is refused, and nothing more of a manifest's fault"""
    put_store(stage)
    for line in (f'take --store a.db {DEPOSITS}', 'report --store a.db gaps'):
        if run(stage, f'{line} --verbose') != run(stage, line):
            raise Failed(f'{line}: another text with --verbose')
    stage.write('bad.csv', b'no heading\n')
    got = stage.end(stage.begin('init --store b.db --manifest bad.csv -v'.split()))
    compare('a bad manifest', 'M2 row 0\n', got.err.decode())


def test_rights(stage: Stage) -> None:
    """--verbose says that permission is denied, of a store and of a manifest"""
    put_store(stage)
    begun = {}
    if not os.geteuid():
        # Another user may not see the folder that the program is in.
        stage.programs = {'restore': shutil.copy(stage.programs['restore'], stage.at('restore'))}
        os.chmod(stage.room.name, 0o777)
        begun = {'prepare': prepared(user=NOBODY)}
    stage.write('closed.csv', read(MANIFEST))
    for path in ('a.db', 'closed.csv'):
        os.chmod(stage.at(path), 0)
    for line, path in (('report --store a.db gaps', 'a.db'),
                       ('init --store b.db --manifest closed.csv', 'closed.csv')):
        check(stage, Refusal(line, f'E1 {path}', path, 'permission denied'), **begun)


# ---- a disk without room

@contextlib.contextmanager
def small_disk(path: str) -> Iterator[bool]:
    """A file system of 64 KB at a path, and whether one could be mounted."""
    os.mkdir(path)
    words = ['mount', '-t', 'tmpfs', '-o', 'size=64k', 'none', path]
    is_mounted = not subprocess.run(words, capture_output=True, check=False).returncode
    try:
        yield is_mounted
    finally:
        if is_mounted:
            subprocess.run(['umount', path], check=True)


def test_full(stage: Stage) -> None:
    """--verbose says that no room is left: for standard output, on a disk, in a file"""
    put_store(stage)
    with open('/dev/full', 'wb') as full:
        got = stage.end(stage.begin('report --store a.db gaps -v'.split(), out=full))
    compare('a full output', f'E1 -\nwhy: report -: {FULL}\n', got.err.decode())
    with small_disk(stage.at('small')) as is_mounted:
        if is_mounted:
            line = f'init --store small/a.db --manifest {MANIFEST}'
            cause = f'{FULL}, or in what the user may have of it'
            check(stage, Refusal(line, 'S1', 'small/a.db', cause))
        else:
            print('whys: no small disk can be mounted, so a full one is not tested')
    limits = prepared([(resource.RLIMIT_FSIZE, 8_192)], [signal.SIGXFSZ])
    line = f'init --store b.db --manifest {MANIFEST}'
    check(stage, Refusal(line, 'S1', 'b.db', FAILED), prepare=limits)

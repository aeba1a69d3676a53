"""Paths that are no plain files, and files that change while they are read, for FILE, DIR and the
manifest; and what a run gets from the system beside them: other rights, closed streams, limits. A
run has 1 GB of memory, so that what is read without an end would show."""
import contextlib
import os
import resource
import shutil
import signal
import socket
import stat
import threading
from collections.abc import Callable
from collections.abc import Iterator
from collections.abc import Sequence

from tests.support import TOP
from tests.support.files import read
from tests.support.files import write
from tests.support.messages import put
from tests.support.outputs import prepared
from tests.support.outputs import run_held_up
from tests.support.reports import report
from tests.support.sockets import response_to
from tests.support.sockets import serve
from tests.support.stage import Failed
from tests.support.stage import Got
from tests.support.stage import Stage
from tests.support.stage import Wanted
from tests.support.stage import faults
from tests.support.stores import copy
from tests.support.stores import is_whole
from tests.support.stores import rows

MANIFEST, DEPOSITS = f'{TOP}/samples/release/manifest.csv', f'{TOP}/samples/release/deposits'
HEADING, FIRST = report('receipts'), report('receipts', ['1,n1,A1,,F1,0,new,0'])
LISTED, EMPTY, S1, S3 = Wanted(0, 'listed 7\n'), Wanted(0, HEADING), Wanted(3, '', 'S1\n'), Wanted(
    3, '', 'S3\n')
WHOLE = Wanted(
    0,
    HEADING + ''.join(f'{at},n{at},A1,,{it},new,0\n'
                      for at, it in enumerate(('F1,0', 'D2,0', 'D3,0', 'I4,0', 'D6,0', 'D3,1'), 1)))
RECEIPTS = ('report', '--store', 'a.db', 'receipts')
TAKE = ('take', '--store', 'a.db')
GIGABYTE, NOBODY = 2**30, 65534


def refused(path: str, out: str = '') -> Wanted:
    return Wanted(3, out, f'E1 {path or "(an empty path)"}\n')


def manifest_fault(fault: str) -> Wanted:
    return Wanted(1, '', f'{fault}\n')


# ---- what is no plain file

def linked(target: str) -> Callable[[str], None]:
    return lambda path: os.symlink(target, path)


def sparse(size: int) -> Callable[[str], None]:
    def make(path: str) -> None:
        with open(path, 'ab') as file:
            file.truncate(size)
    return make


def listening(path: str) -> None:
    """A socket in the file system. It stays as the listener goes."""
    with socket.socket(socket.AF_UNIX) as listener:
        listener.bind(path)


# Paths that are refused wherever a plain file or a folder is read, and what makes them, if anything
# does.
LONG = 'n/' * 2500
ODD = {
    'nothing': linked('gone'),
    'loop': linked('loop'),
    'socket': listening,
    'file/x': None,
    'n' * 300: None,
    LONG: None,
    'absent': None
}


def make_odd(stage: Stage, folder: str = '.') -> None:
    os.makedirs(stage.at(folder), exist_ok=True)
    for name, make in ODD.items():
        if make:
            make(stage.at(f'{folder}/{name}'))
    stage.write('file', b'')


def remove(path: str) -> None:
    with contextlib.suppress(FileNotFoundError):
        (os.rmdir if os.path.isdir(path) and not os.path.islink(path) else os.remove)(path)


def bounded(limits: Sequence[tuple[int, int]] = (),
            **others: int | Sequence[int]) -> Callable[[], None]:
    """What a child does before it becomes the program: its limits and others."""
    return prepared([(resource.RLIMIT_AS, GIGABYTE), *limits], **others)


def check(stage: Stage, words: Sequence[str], *wanted: Wanted, **before: object) -> Got:
    """Runs the program, which must give one of these."""
    got = stage.end(stage.begin(words, prepare=bounded(**before)))
    if all(faults(it, got) for it in wanted):
        stage.compare(' '.join(words), wanted[0], got)
    return got


def make_store(stage: Stage, taken: bool = True,
               store: str = 'a.db') -> dict[str, list[tuple[object, ...]]]:
    """A store of the second sample, with its folder taken if asked, and its rows."""
    copy(None, stage.at(store))
    check(stage, ('init', '--store', store, '--manifest', MANIFEST), LISTED)
    if taken:
        check(stage, ('take', '--store', store, DEPOSITS), WHOLE)
    return rows(stage.at(store))


def check_whole(stage: Stage, what: str, before: dict[str, list[tuple[object, ...]]] | None = None,
                store: str = 'a.db') -> None:
    """Fails if a store is not whole, or not as it was before."""
    if not is_whole(stage.at(store)) or before not in (None, rows(stage.at(store))):
        raise Failed(f'{what}: the store has changed')


def check_init(stage: Stage, manifest: str, *wanted: Wanted) -> None:
    """`init` by a manifest. Where it is refused there is no store."""
    got = check(stage, ('init', '--store', 'new.db', '--manifest', manifest), *wanted)
    if os.path.exists(stage.at('new.db')) != (got.status == 0):
        raise Failed(f'manifest {manifest:.40}: whether there is a store')
    copy(None, stage.at('new.db'))


@contextlib.contextmanager
def beside(work: Callable[[], object]) -> Iterator[None]:
    """Does something again and again in another thread, until the block ends."""
    going = True

    def repeat() -> None:
        while going:
            work()
    worker = threading.Thread(target=repeat)
    worker.start()
    try:
        yield
    finally:
        going = False
        worker.join()


# Files in its place, and what comes of each. (The length of /proc/version is told as 0.)
MANIFESTS = (
    ('link.csv', linked(MANIFEST), LISTED),
    ('link2.csv', linked('link.csv'), LISTED),
    ('.', None, refused('.')),
    ('', None, refused('')),
    ('a\nS1', None, refused('a\\nS1')),
    ('/dev/null', None, refused('/dev/null')),
    ('/proc/self/mem', None, refused('/proc/self/mem')),
    ('/proc/version', None, manifest_fault('M2 row 0')),
    ('/dev/zero', None, refused('/dev/zero')),
    ('a.pipe', os.mkfifo, refused('a.pipe')),
    ('pipe.csv', linked('a.pipe'), refused('pipe.csv')),
    ('long.csv', sparse(4_194_305), manifest_fault('M1 row 0')),
    ('huge.csv', sparse(5 * 10**9), manifest_fault('M1 row 0')),
)


def test_manifests(stage: Stage) -> None:
    """The manifest is a link, a folder, a device, a pipe, or far too long."""
    make_odd(stage)
    for name, make, wanted in (*MANIFESTS, *((it, None, refused(it)) for it in ODD)):
        if make:
            make(stage.at(name))
        check_init(stage, name, wanted)
    # One that somebody has open is not waited for either.
    holder = os.open(stage.at('a.pipe'), os.O_RDWR)
    check_init(stage, 'a.pipe', refused('a.pipe'))
    os.close(holder)


def test_a_manifest_that_changes(stage: Stage) -> None:
    """A manifest that changes while it is read: what was there of it at some time is read."""
    path, text = stage.at('m.csv'), read(MANIFEST)
    parts = [
        manifest_fault('M3 row 0'),
        *(manifest_fault(f'M{code} row {row}') for code in (2, 9) for row in range(8))
    ]
    parts += [Wanted(0, f'listed {row}\n') for row in range(8)]
    write(path, text)
    with beside(lambda: (write(path, text), write(path, text[:300]))):
        for _ in range(30):
            check_init(stage, 'm.csv', *parts)
    write(path, text)
    with open(path, 'ab') as file, beside(lambda: file.tell() < 10**8 and file.write(bytes(10**7))):
        for _ in range(10):
            check_init(stage, 'm.csv', LISTED, manifest_fault('M1 row 0'),
                       manifest_fault('M2 row 8'))


# What is in its place, what `init` gives, and what a report does.
STORES = (
    ('link.db', linked('linked.db'), [refused('link.db')], [S3]),
    ('.', None, [refused('.')], [refused('.')]),
    ('nowhere/a.db', None, [refused('nowhere/a.db')], [S3]),
    ('loop', None, [refused('loop')], [refused('loop')]),
    ('socket', None, [refused('socket')], [refused('socket')]),
    ('file/x', None, [refused('file/x')], [S3]),
    ('n' * 300, None, [refused('n' * 300)], [refused('n' * 300)]),
    (LONG, None, [refused(LONG)], [refused(LONG)]),
    ('absent', None, [LISTED], [EMPTY]),
    ('empty.db', sparse(0), [LISTED], [EMPTY]),
    ('text.db', lambda path: write(path, b'words\n' * 1000), [S1], [S1]),
    ('/dev/null', None, [S1, S3], [S1, S3]),
    ('/dev/zero', None, [S1, S3], [S1, S3]),
    ('pipe.db', os.mkfifo, [S1, S3], [S1, S3]),
    ('', None, [refused('')], [S3]),
    (':memory:', None, [S1], [S1, S3]),
)
LOGS = (os.mkdir, os.mkfifo, linked('no-log'), lambda path: os.symlink(path, path),
        lambda path: write(path,
                           bytes(range(256)) * 20))


def test_stores(stage: Stage) -> None:
    """The store is a link, a folder, a device, a pipe, or another file."""
    make_odd(stage)
    for store, make, made, told in STORES:
        if make:
            make(stage.at(store))
        check(stage, ('init', '--store', store, '--manifest', MANIFEST), *made)
        check(stage, ('report', '--store', store, 'receipts'), *told)


def test_logs(stage: Stage) -> None:
    """What is beside a store in the place of its log is something else."""
    before, log = make_store(stage), stage.at('a.db-wal')
    for at, make in enumerate(LOGS):
        remove(log)
        make(log)
        check(stage, RECEIPTS, WHOLE, S1)
        remove(log)
        check_whole(stage, f'log {at}', before)


def test_a_store_by_a_link(stage: Stage) -> None:
    """A store that is named by a link is locked by either name, and has by either what was answered
    before a kill."""
    make_store(stage)
    os.symlink('a.db', stage.at('link.db'))
    check(stage, ('take', '--store', 'link.db', DEPOSITS), WHOLE)
    child, port = serve(stage, 'link.db', 9)
    check(stage, RECEIPTS, S1)
    response_to(port, put('killed', b'abc'))
    child.kill()
    child.wait()
    for store in ('link.db', 'a.db'):
        check(stage, ('report', '--store', store, 'receipts'),
              Wanted(0, f'{WHOLE.out}7,killed,A5,,,,,\n'))


NAMES = (b'a\nS1', b'b\x1b[2J', b'c\\', b'd\\\t', b'e\xff')
TOLD = 'N1 (a name that is no UTF-8)\nN1 a\\nS1\nN1 b\\u{1b}[2J\nN1 c\\\nN1 d\\\\\\t\n'


def test_folders(stage: Stage) -> None:
    """The folder is a link, a file, a device, a pipe; it holds these and others, or is empty."""
    make_odd(stage)
    before = make_store(stage)
    os.symlink(DEPOSITS, stage.at('deposits'))
    os.mkfifo(stage.at('pipe'))
    make_odd(stage, 'mixed')
    for name in os.listdir(DEPOSITS):
        shutil.copy(f'{DEPOSITS}/{name}', stage.at('mixed'))
    for name, make in (('a-link', linked(MANIFEST)), ('to-folder', linked(DEPOSITS)),
                       ('a-pipe', os.mkfifo), ('folder', os.mkdir)):
        make(stage.at(f'mixed/{name}'))
    if not os.geteuid():
        os.mknod(stage.at('mixed/device'), stat.S_IFCHR | 0o666, os.makedev(1, 5))
    for name in ('named', 'none'):
        os.mkdir(stage.at(name))
    for name in NAMES:
        write(os.path.join(os.fsencode(stage.at('named')), name), b'abc')
    wanted = {'deposits': WHOLE, 'mixed': WHOLE, 'none': EMPTY, 'named': Wanted(1, HEADING, TOLD)}
    for folder in (*wanted, *ODD, MANIFEST, '/dev/null', 'pipe', ''):
        check(stage, (*TAKE, folder), wanted.get(folder, refused(folder)))
        check_whole(stage, f'{folder:.40}', before)


def replaced(make: Callable[[str], object]) -> Callable[[str], object]:
    return lambda path: (os.remove(path), make(path))


# How a file of a folder changes once the folder is listed, and what comes of it.
CHANGES = ((os.remove, None), (replaced(os.mkdir), None), (replaced(linked(MANIFEST)), None),
           (replaced(linked('/dev/zero')),
            None), (replaced(os.mkfifo), None), (sparse(17 * 10**6), Wanted(1, FIRST, 'E2 z\n')))


def test_files_that_change(stage: Stage) -> None:
    """A file of the folder goes, or becomes something else, once the folder is listed."""
    for at, (change, wanted) in enumerate(CHANGES):
        make_store(stage, taken=False)
        folder = f'folder{at}'
        for name in ('n1', 'z'):
            write(stage.at(f'{folder}/{name}'), read(f'{DEPOSITS}/n1'))
        line = ' '.join((*TAKE, folder))
        # (It is listed once the heading is printed, and there is no room for more until the file
        # has changed.)
        got = run_held_up(stage, line, len(HEADING), lambda: change(stage.at(f'{folder}/z')),
                          prepare=bounded())
        stage.compare(line, wanted or refused(f'{folder}/z', FIRST), got)
        check(stage, RECEIPTS, Wanted(0, FIRST))


def test_a_file_that_is_rewritten(stage: Stage) -> None:
    """A file of the folder is written anew while it is read: it is held, or another body comes."""
    make_store(stage, taken=False)
    path, body = stage.at('folder/n1'), read(f'{DEPOSITS}/n1')
    write(path, body)
    with beside(lambda: (write(path, body), write(path, body[:100]))):
        for _ in range(30):
            got = stage.end(stage.begin([*TAKE, 'folder']))
            if (got.status, got.err) not in ((0, b''),
                                             (1, b'')) or (b',A1,' in got.out) != (got.status == 0):
                raise Failed(f'{got}')
    write(path, body)
    check(stage, (*TAKE, 'folder'), Wanted(0, part=',n1,A1,,F1,0,'))


def test_the_store_in_its_folder(stage: Stage) -> None:
    """The store lies in the folder that is taken: it is an arrival that no row lists, and stays
    locked."""
    os.mkdir(stage.at('own'))
    make_store(stage, taken=False, store='own/a.db')
    shutil.copy(f'{DEPOSITS}/n1', stage.at('own/a'))
    status = ('report', '--store', 'own/a.db', 'status')
    got = run_held_up(stage, 'take --store own/a.db own', len(HEADING),
                      lambda: check(stage, status, S1))
    stage.compare('take own', Wanted(1, part='1,a,A1,,F1,0,new,0\n2,a.db,A5,'), got)
    check_whole(stage, 'the store in its folder', store='own/a.db')


# ---- rights, streams and limits

def test_rights(stage: Stage) -> None:
    """What may not be read, searched or written. (This asks for root.)"""
    if os.geteuid():
        return
    # Another user may not see the folder that the program is in.
    stage.programs = {'restore': shutil.copy(stage.programs['restore'], stage.at('restore'))}
    os.chmod(stage.room.name, 0o777)
    shutil.copy(MANIFEST, stage.at('readable.csv'))
    for folder, mode in (('closed', 0o700), ('unread', 0o300), ('unsearched', 0o744), ('some',
                                                                                       0o755)):
        shutil.copytree(DEPOSITS, stage.at(folder))
        os.chmod(stage.at(folder), mode)
    os.chown(stage.at('unread'), NOBODY, -1)
    for path in ('closed/n2', 'some/n4'):
        os.chmod(stage.at(path), 0o600)
    for words, path in ((('init', '--store', 'b.db', '--manifest', 'some/n4'), 'some/n4'),
                        (('init', '--store', 'b.db', '--manifest', 'closed/n1'),
                         'closed/n1'), (('init', '--store', 'closed/b.db', '--manifest',
                                         'readable.csv'), 'closed/b.db')):
        check(stage, words, refused(path), user=NOBODY)
    before = make_store(stage)
    writers = ((*TAKE, 'closed'),)
    for mode, lines in ((0o600, (*writers, RECEIPTS, ('export', '--store', 'a.db', 'domain'))),
                        (0o644, writers)):
        for end in ('', '-wal'):
            os.chmod(stage.at(f'a.db{end}'), mode)
        for words in lines:
            check(stage, words, refused('a.db'), user=NOBODY)
    check_whole(stage, 'rights', before)
    make_store(stage, taken=False)
    for end in ('', '-wal'):
        os.chown(stage.at(f'a.db{end}'), NOBODY, NOBODY)
    check(stage, (*TAKE, 'unread'), refused('unread'), user=NOBODY)
    check(stage, (*TAKE, 'unsearched'), refused('unsearched'), refused('unsearched/n1'),
          user=NOBODY)
    # The receipts before a file that may not be read are the same once it may.
    check(stage, (*TAKE, 'some'),
          Wanted(3, ''.join(WHOLE.out.splitlines(keepends=True)[:4]), 'E1 some/n4\n'), user=NOBODY)
    os.chmod(stage.at('some/n4'), 0o644)
    check(stage, (*TAKE, 'some'), WHOLE, user=NOBODY)


def test_closed_streams(stage: Stage) -> None:
    """Standard streams are closed: a store never gets what is printed."""
    for closed in ((1,), (0, 1), (0, 1, 2), (2,)):
        for words in (('init', '--store', 'b.db', '--manifest', MANIFEST), (*TAKE, DEPOSITS)):
            make_store(stage, taken=False)
            copy(None, stage.at('b.db'))
            got = stage.end(stage.begin(words, prepare=bounded(closed=closed)))
            if (got.status, got.err) not in ((0, b''), (3, b'E1 -\n'), (3, b'')):
                raise Failed(f'{words[0]}, closed {closed}: {got}')
            check_whole(stage, f'{words[0]}, closed {closed}',
                        store='b.db' if words[0] == 'init' else 'a.db')


def test_limits(stage: Stage) -> None:
    """The system allows no longer file, or no more open files: what was answered is there."""
    few, small = (resource.RLIMIT_NOFILE, 4), (resource.RLIMIT_FSIZE, 60_000)
    for limit, ignored in ((few, ()), (small, ()), (small, (signal.SIGXFSZ,))):
        make_store(stage, taken=False)
        got = stage.end(
            stage.begin([*TAKE, DEPOSITS], prepare=bounded(limits=[limit], ignored=ignored)))
        out = got.out.decode()
        allowed = (Wanted(0, out), Wanted(3, out,
                                          'S1\n'), Wanted(-signal.SIGXFSZ,
                                                          out), refused(DEPOSITS), refused('a.db'))
        if all(faults(it, got) for it in allowed):
            raise Failed(f'{limit}: {got}')
        check_whole(stage, f'{limit}')
        check(stage, RECEIPTS, Wanted(0, part=out))

"""A store that may be read and not written, by the rights of another user or as its file system is
mounted: `restore report`, `restore export` and `handover` read it as one that may be written, and
leave its files and their folder as they are. Nobody writes it meanwhile."""
import contextlib
import fcntl
import os
import shutil
import subprocess
from collections.abc import Callable
from collections.abc import Iterator
from dataclasses import dataclass

from tests.cases.handovers import names_in
from tests.cases.unchanged import DRAWN
from tests.cases.unchanged import READERS
from tests.cases.unchanged import made
from tests.cases.unchanged import put_stopped
from tests.cases.whys import DAMAGED
from tests.cases.whys import LOCK_BYTES
from tests.cases.whys import LOCK_START
from tests.cases.whys import NOT_PLAIN
from tests.cases.whys import Refusal
from tests.cases.whys import check
from tests.cases.whys import damage
from tests.cases.whys import put_journal
from tests.cases.whys import put_second_name
from tests.cases.whys import put_store
from tests.cases.whys import remove_journal
from tests.cases.zones import store_of
from tests.support.outputs import prepared
from tests.support.stage import Failed
from tests.support.stage import Got
from tests.support.stage import Stage
from tests.support.stage import Wanted
from tests.support.stage import case
from tests.support.stage import compare_all
from tests.support.stores import EMPTY_LOG
from tests.support.stores import ENDS
from tests.support.stores import READINGS
from tests.support.stores import contents
from tests.support.stores import copy
from tests.support.zone_registries import draw_registry

NOBODY = 65534
S1, REFUSED = Wanted(3, '', 'S1\n'), Wanted(3, '', 'E1 kept/a.db\n')
TAKE = 'take --store kept/a.db kept'
# A command that reads a store for a short while.
STATUS = 'report --store kept/a.db status'

# What a child does before it is the program.
Prepare = Callable[[], None] | None
Answers = dict[str, tuple[Got, dict[str, bytes]]]


def lines_at(store: str) -> Iterator[tuple[str, str]]:
    """Each command that reads a store, and its program."""
    for command, what in READINGS:
        yield f'{command} --store {store} {what}', 'restore'
    for line in READERS:
        yield line.replace('a.db', store), 'handover'


def answers_of(stage: Stage, out: str, prepare: Prepare = None) -> Answers:
    """What each command says and makes, in a folder of that name."""
    os.mkdir(stage.at(out))
    os.chmod(stage.at(out), 0o777)
    answers = {}
    for at, (line, program) in enumerate(lines_at('kept/a.db')):
        path = f'{out}/{at}'
        words = [path if it == 'out' else it for it in line.split()]
        got = stage.end(stage.begin(words, program, prepare=prepare))
        if got.status not in (0, 1):
            raise Failed(f'{line}: status {got.status}: {got.err!r:.400}')
        answers[line] = got, made(stage, path)
    return answers


@dataclass(frozen=True)
class Kept:
    """A store in a folder `kept`, and what is read of it where it may be written."""
    files: tuple[bytes | None, ...]
    names: list[str]
    answers: Answers


def kept_of(stage: Stage) -> Kept:
    """Moves the store `a.db` to a folder of its own."""
    os.mkdir(stage.at('kept'))
    for end in ENDS:
        if os.path.exists(stage.at(f'a.db{end}')):
            os.rename(stage.at(f'a.db{end}'), stage.at(f'kept/a.db{end}'))
    files, names = contents(stage.at('kept/a.db')), names_in(stage.at('kept'))
    return Kept(files, names, answers_of(stage, 'before'))


def check_kept(stage: Stage, kept: Kept) -> None:
    """The files are byte for byte what they were, and no other is in the folder."""
    if contents(stage.at('kept/a.db')) != kept.files:
        raise Failed('the store or its log is changed')
    compare_all('files', kept.names, names_in(stage.at('kept')))


def check_read(stage: Stage, kept: Kept, prepare: Prepare = None) -> None:
    """Each command says and makes what it did, and changes nothing; `take` is refused."""
    check_kept(stage, kept)
    answers = answers_of(stage, 'after', prepare)
    for line, answer in kept.answers.items():
        if answers[line] != answer:
            raise Failed(f'{line}: {answers[line][0]} in place of {answer[0]}')
    stage.check(TAKE, REFUSED, prepare=prepare)
    check_kept(stage, kept)


def refused_to_write(stage: Stage) -> Prepare:
    """Takes away the right to write the store and its folder, and gives what a child needs to have
    no more rights: of root, nobody's."""
    for end in ENDS:
        if os.path.exists(stage.at(f'kept/a.db{end}')):
            os.chmod(stage.at(f'kept/a.db{end}'), 0o444)
    os.chmod(stage.at('kept'), 0o555)
    return by_nobody(stage)


def by_nobody(stage: Stage) -> Prepare:
    """What a child needs to have no more rights than files give: of root, nobody's."""
    if os.geteuid():
        return None
    # Another user may not see the folder that the programs are in.
    stage.programs = {it: shutil.copy(stage.programs[it], stage.at(it))
                      for it in ('restore', 'handover')}
    os.chmod(stage.room.name, 0o755)
    return prepared(user=NOBODY)


@contextlib.contextmanager
def mounted(path: str) -> Iterator[bool]:
    """A folder is mounted over itself, to be read alone, and whether it could be."""
    words = (['mount', '--bind', path, path], ['mount', '-o', 'remount,ro,bind', path])
    done = [it for it in words
            if not subprocess.run(it, capture_output=True, check=False).returncode]
    try:
        yield len(done) == len(words)
    finally:
        if done:
            subprocess.run(['umount', path], check=True)


def put_without_log(stage: Stage) -> None:
    """A store whose log, which holds nothing, is not there."""
    store_of(stage, draw_registry(*DRAWN))
    os.remove(stage.at('a.db-wal'))


def put_with_log(stage: Stage) -> None:
    """A store whose log holds all that was taken."""
    put_stopped(stage)
    for end in ENDS:
        os.rename(stage.at(f'stopped.db{end}'), stage.at(f'a.db{end}'))


STORES: dict[str, tuple[Callable[[Stage], None], Callable[[int | None], bool]]] = {
    'at rest': (lambda stage: store_of(stage, draw_registry(*DRAWN)),
                lambda length: length is not None and length <= EMPTY_LOG),
    'without a log': (put_without_log, lambda length: length is None),
    'what a stopped command left': (put_with_log,
                                    lambda length: length is not None and length > EMPTY_LOG),
}


def put_kept(stage: Stage, name: str) -> Kept:
    put, has_log = STORES[name]
    put(stage)
    kept = kept_of(stage)
    log = kept.files[1]
    if not has_log(None if log is None else len(log)):
        raise Failed('the log is another one than the case is for')
    return kept


def check_by_rights(name: str) -> Callable[[Stage], None]:
    def play(stage: Stage) -> None:
        kept = put_kept(stage, name)
        try:
            check_read(stage, kept, refused_to_write(stage))
        finally:
            os.chmod(stage.at('kept'), 0o755)
    return play


def check_by_mount(name: str) -> Callable[[Stage], None]:
    def play(stage: Stage) -> None:
        kept = put_kept(stage, name)
        with mounted(stage.at('kept')) as is_mounted:
            if is_mounted:
                check_read(stage, kept)
            else:
                print('only_read: nothing can be mounted, so a file system to be read alone is not'
                      ' tested')
    return play


CASES = {
    **{f'A store that may not be written, {it}': check_by_rights(it) for it in STORES},
    **{f'A store on a file system to be read alone, {it}': check_by_mount(it) for it in STORES},
}


# What is wrong with a store that may not be written, and what each command that reads it says.
FLAWS: tuple[tuple[Callable[[Stage], None], str], ...] = (
    (damage, DAMAGED),
    (put_second_name, NOT_PLAIN),
    (put_journal, 'a rollback journal stands beside the file'),
)
# A command of each program.
READS = (('report --store b.db gaps', 'restore'), ('check --store b.db', 'handover'))


def test_causes(stage: Stage) -> None:
    """Of a store that may not be written, --verbose tells readers why it is refused, and not that
    it may not be written; of one that may not be read either, that."""
    put_store(stage)
    prepare = by_nobody(stage)
    for spoil, cause in FLAWS:
        with case(spoil.__name__):
            copy(stage.at('a.db'), stage.at('b.db'))
            spoil(stage)
            allow(stage, 0o444)
            for line, program in READS:
                check(stage, Refusal(line, 'S1', 'b.db', cause, program), prepare=prepare)
            check(stage, Refusal('take --store b.db none', 'E1 b.db', 'b.db', 'permission denied'),
                  prepare=prepare)
    remove_journal(stage)
    allow(stage, 0)
    for line, program in READS:
        check(stage, Refusal(line, 'E1 b.db', 'b.db', 'permission denied', program),
              prepare=prepare)


def allow(stage: Stage, mode: int) -> None:
    """Gives the two files of `b.db` these rights."""
    for end in ENDS:
        if os.path.exists(stage.at(f'b.db{end}')):
            os.chmod(stage.at(f'b.db{end}'), mode)


def test_locks(stage: Stage) -> None:
    """Who may not write a store reads it beside one who reads, and not beside one who writes;
    nobody writes it meanwhile."""
    store_of(stage, draw_registry(*DRAWN))
    kept = kept_of(stage)
    answer = kept.answers[STATUS][0]
    wanted = Wanted(answer.status, answer.out.decode())
    path, prepare = stage.at('kept/a.db'), refused_to_write(stage)
    try:
        for mode, kind, reads in (('rb', fcntl.LOCK_SH, wanted), ('r+b', fcntl.LOCK_EX, S1)):
            if kind == fcntl.LOCK_EX:
                os.chmod(path, 0o644)
            with case(mode), open(path, mode) as file:
                fcntl.lockf(file, kind, LOCK_BYTES, LOCK_START)
                stage.check(STATUS, reads, prepare=prepare)
                # Root may write it, and so finds what locks it.
                if not os.geteuid():
                    stage.check(STATUS, S1)
                    stage.check(TAKE, S1)
        check_kept(stage, kept)
    finally:
        os.chmod(stage.at('kept'), 0o755)

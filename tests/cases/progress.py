"""How far the work is stands on standard error: with --progress, and on a terminal."""
import os
import pty
import tty

from tests.cases.handovers import FIRST
from tests.cases.handovers import store_of
from tests.support.stage import Failed
from tests.support.stage import Stage
from tests.support.stage import Wanted
from tests.support.stage import case

# Lines of each program that read a store, and change nothing.
LINES = (('restore', 'report --store a.db links'), ('restore', 'report --store a.db status'),
         ('restore', 'export --store a.db contact'), ('handover', 'check --store a.db'))
OPENING = 'opening a.db\n'


def test_asked(stage: Stage) -> None:
    """With --progress a command says that it opens the store, and prints the same."""
    store_of(stage, (FIRST,))
    stage.write('more/n9', b'')
    for program, line in LINES:
        with case(line):
            got = stage.end(stage.begin(line.split(), program))
            stage.check(f'{line} --progress', Wanted(got.status, got.out.decode(), OPENING),
                        program=program)
    line = 'take --store a.db more'
    stage.check(f'{line} --progress', Wanted(1, part='receipt,number', err=OPENING))


def told_on_terminal(stage: Stage, program: str, line: str) -> str:
    """What a command tells on standard error where that is a terminal."""
    master, slave = pty.openpty()
    try:
        tty.setraw(slave)
        got = stage.end(stage.begin(line.split(), program, err=slave))
        if got.status != 0:
            raise Failed(f'{program} {line}: its status is {got.status}')
        os.set_blocking(master, False)
        return os.read(master, 65_536).decode()
    finally:
        os.close(slave)
        os.close(master)


def test_terminal(stage: Stage) -> None:
    """A terminal is told without being asked for; a file or a pipe is not."""
    store_of(stage, (FIRST,))
    for program, line in LINES[:3]:
        with case(line):
            if (told := told_on_terminal(stage, program, line)) != OPENING:
                raise Failed(f'{told!r} on the terminal, wanted {OPENING!r}')
            stage.check(line, Wanted(part='', err=''), program=program)

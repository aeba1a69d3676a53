"""Standard output and standard error that fail, and a file that is removed while its folder is
taken."""
import os

from tests.support.outputs import check_narrow
from tests.support.outputs import run_held_up
from tests.support.reports import report
from tests.support.stage import Stage
from tests.support.stage import Wanted
from tests.support.steps import Copy
from tests.support.steps import Folder
from tests.support.steps import Text

HEADING, FIRST = report('receipts'), report('receipts', ['1,n1,A1,,F1,0,new,0'])
INIT = 'init --store a.db --manifest listed.csv'
TAKE = 'take --store a.db deposits'
RECEIPTS = 'report --store a.db receipts'
AMPLE = 10_000


def set_up(stage: Stage, **bodies: str) -> None:
    for step in (Copy('listed.csv',
                      'fulls.csv'), Folder('deposits'), *(Copy(f'deposits/{it}', body)
                                                          for it, body in bodies.items())):
        step.do(stage)


def test_standard_output_fails(stage: Stage) -> None:
    """Standard output fails."""
    set_up(stage, n1='f1.bundle', n2='f5.bundle')
    check_narrow(stage, INIT, 0, Wanted(3, '', 'E1 -\n'))
    # The store is there. Nothing is taken before the heading is printed.
    check_narrow(stage, TAKE, 7, Wanted(3, 'receipt', 'E1 -\n'))
    check_narrow(stage, RECEIPTS, AMPLE, Wanted(0, HEADING))
    # What was answered is kept, and no later file is read.
    check_narrow(stage, TAKE, len(HEADING), Wanted(3, HEADING, 'E1 -\n'))
    check_narrow(stage, RECEIPTS, AMPLE, Wanted(0, FIRST))
    check_narrow(stage, 'report --store a.db status', 10, Wanted(3, 'listed 2\nh', 'E1 -\n'))
    check_narrow(stage, 'export --store a.db domain', 0, Wanted(3, '', 'E1 -\n'))
    check_narrow(stage, '--help', 8, Wanted(3, 'Rebuilds', 'E1 -\n'))


def test_whoever_reads_leaves(stage: Stage) -> None:
    """Whoever reads standard output leaves after the heading."""
    set_up(stage, n1='f1.bundle', n2='f5.bundle')
    stage.check(INIT, Wanted(0, 'listed 2\n'))
    stage.compare(TAKE, Wanted(3, '', 'E1 -\n'),
                  run_held_up(stage, TAKE, len(HEADING), lambda: False))
    stage.check(RECEIPTS, Wanted(0, FIRST))


def test_standard_error_fails(stage: Stage) -> None:
    """If standard error fails all else is as usual: the status and standard output."""
    set_up(stage, **{'a b': 'f5.bundle', 'n1': 'f1.bundle'})
    Text('empty.csv', '').do(stage)
    with open('/dev/full', 'wb') as full:
        stage.check('export', Wanted(2), err=full)
        stage.check('init --store a.db --manifest absent.csv', Wanted(3), err=full)
        stage.check('init --store a.db --manifest empty.csv', Wanted(1), err=full)
        stage.check(INIT, Wanted(0, 'listed 2\n'), err=full)
        stage.check(TAKE, Wanted(1, FIRST), err=full)


def test_a_file_that_goes(stage: Stage) -> None:
    """A file that goes stops its folder."""
    set_up(stage, n1='f1.bundle', n2='f1.bundle', n3='f5.bundle')
    stage.check(INIT, Wanted(0, 'listed 2\n'))
    # The second file is removed once the heading is written. There is no room for the row of the
    # first one until then.
    got = run_held_up(stage, TAKE, len(HEADING), lambda: os.remove(stage.at('deposits/n2')))
    stage.compare(TAKE, Wanted(3, FIRST, 'E1 deposits/n2\n'), got)
    stage.check(RECEIPTS, Wanted(0, FIRST))
    stage.check(TAKE, Wanted(0, f'{FIRST}2,n3,A1,,F5,0,new,0\n'))

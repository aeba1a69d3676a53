"""What a command makes is on the disk before it has its name: each file, and then each folder."""
import os

from tests.cases.handovers import CHILD
from tests.cases.handovers import FIRST
from tests.cases.handovers import names_in
from tests.cases.handovers import store_of
from tests.support.bundles import ENVELOPE
from tests.support.stage import Failed
from tests.support.stage import Stage
from tests.support.stage import Wanted
from tests.support.stage import case
from tests.support.stage import compare_all
from tests.support.syncs import Unwatched
from tests.support.syncs import run_watched

# The programs, and lines that end with the name of what they make.
LINES = (('handover', 'tables --store a.db --postgres tables'),
         ('handover', 'bundle --store a.db --id G1 bundle'),
         ('handover', 'bundle --store a.db --id G1 --series series'),
         ('handover', 'page --store a.db page'),
         ('pack', 'bundle --envelope envelope.json files made'))


def check_synced(stage: Stage, program: str, line: str) -> None:
    """Compares what a command has put on the disk with what it made, which is named otherwise until
    it is whole. A folder comes after what is in it."""
    target = line.split()[-1]
    got, paths = run_watched(stage, line.split(), program)
    stage.compare(line, Wanted(), got, program)
    last = {it.replace('.part', '', 1): at for at, it in enumerate(paths)}
    below = names_in(stage.at(target)) if os.path.isdir(stage.at(target)) else []
    made = [target, *(f'{target}/{it}' for it in below)]
    compare_all('what is on the disk', sorted(made), sorted(last.keys() & {*made}))
    for it in made:
        if it != target and last[it] > last[os.path.dirname(it)]:
            raise Failed(f'{it} came after its folder')


def test_synced(stage: Stage) -> None:
    """What a command makes is on the disk before it has its name."""
    store_of(stage, (FIRST, CHILD))
    stage.write('envelope.json', ENVELOPE)
    stage.write('files/c.csv', b'C1,R1\n')
    try:
        for program, line in LINES:
            with case(line):
                check_synced(stage, program, line)
    except Unwatched:
        print('syncs: no call can be watched, so what is put on the disk is not tested')

"""python3 -m trials.sweep [OPTION ..]: refuses one growth of memory after the other, then lets one
call of the database after the other fail.

Looked for is an answer that changes in place of the error.

Every growth is refused in turn in `init`, `take`, each `report` and `export`, and `serve` with a
request to each route, on the first sample; in `init` and `take` with four arrivals of which the
last takes two steps back; in `amend`, `as-of` and `report parked` over a release in two parts; in
`migrate` of a store of version 1, and in `take` of the arrivals that it kept as A2. On the second
sample every growth up to the 400th is refused, and every N-th beyond, so that it is 200 at most.
Then each call of the database fails in turn in `init` and `take` with the four arrivals, `export`,
`amend`, `as-of`, `migrate` and the `take` after it. `--harness FILE` is over the program of the
tests alone, as on the second sample (`crates/desk_harness/out/desk_harness`, which `./check` leaves
there). `--some N` makes at most N refusals in each part, evenly; `--only PART` takes the parts with
that in their names.

A command has to do what it does undisturbed, or to end with status 3 and `S2` (for the database
`S1`) after a beginning of what it prints; a client of `serve` has to see the whole response, or 503
`S2`. The same again, undisturbed, has to give what it gives at first, and to leave the same rows:
it is run once for each content of the store's two files that a refusal leaves. The files are in
memory (/dev/shm). It needs gcc, python3 and the program, which `./build` builds. The last line is
'N passed, M failed': each refusal counts once."""
import os
import shutil
import sys

from tests.support import TOP
from tests.support import arguments_over_restore
from tests.support import program
from tests.support.messages import get
from tests.support.messages import put
from trials.sweeping.commands import over_change
from trials.sweeping.commands import over_commands
from trials.sweeping.commands import over_init
from trials.sweeping.commands import over_migrate
from trials.sweeping.commands import over_reading
from trials.sweeping.commands import over_take
from trials.sweeping.harness import over_harness
from trials.sweeping.refusals import Sweep
from trials.sweeping.releases import Parts
from trials.sweeping.releases import Release
from trials.sweeping.releases import Unkept
from trials.sweeping.releases import write_four
from trials.sweeping.responses import over_routes
from trials.sweeping.responses import over_serve

arguments = arguments_over_restore(__doc__)
arguments.add_argument('--some', type=int, default=0,
                       help='at most N refusals in each part, for a look at it')
arguments.add_argument('--jobs', type=int, default=os.cpu_count() or 1,
                       help='refusals side by side')
arguments.add_argument('--only', default='', help='the parts whose names have this in them')
arguments.add_argument('--harness', type=program, metavar='FILE',
                       help='this program of the tests alone')


def over_program(sweep: Sweep) -> None:
    first = Release(sweep, 'first sample', os.path.join(TOP, 'samples', 'first'), True)
    four = Release(sweep, 'four arrivals', write_four(sweep.work), True)
    second = Release(sweep, 'second sample', os.path.join(TOP, 'samples', 'release'), False)
    told = ('1,1,A1,,F1,0,new,0\n2,2,A1,,D2,0,new,0\n'
            '3,3,A1,,D3,0,new,0\n4,4,A1,,D2,1,new,0\n')
    assert four.lines[1].endswith(told), four.lines
    over_commands(sweep, first)
    over_routes(sweep, first)
    over_init(sweep, four, 'S2')
    over_take(sweep, four, 'S2')
    over_commands(sweep, second)
    over_init(sweep, four, 'S1')
    over_take(sweep, four, 'S1')
    over_reading(sweep, four, 'S1', 'export', 'domain')
    parts = Parts(sweep)
    over_parts(sweep, parts)
    # A desk in which bodies wait for their rows is asked for them, and one more comes.
    over_serve(sweep, parts, 'GET /parked', get('/parked'), parts.taken)
    over_serve(sweep, parts, 'PUT of a body without a row', put('n', b'abc'), parts.taken)


def over_parts(sweep: Sweep, parts: Parts) -> None:
    unkept = Unkept(sweep, parts)
    over_reading(sweep, parts, 'S2', 'report', 'parked')
    over_reading(sweep, parts, 'S2', 'as-of', 'soon')
    over_reading(sweep, parts, 'S2', 'amend', '--manifest', os.path.join(TOP, 'README.md'))
    for fault in ('S2', 'S1'):
        over_change(sweep, parts, fault, parts.taken, 'amend', '--manifest', parts.more)
        over_change(sweep, parts, fault, parts.taken, 'as-of', '2024-03-01T00:00:00Z')
        over_migrate(sweep, parts, fault, parts.first)
        over_take(sweep, unkept, fault)


def main() -> bool:
    given = arguments.parse_args()
    if not shutil.which('gcc'):
        sys.exit('sweep: gcc is missing')
    sweep = Sweep(TOP, given)
    try:
        if given.harness:
            over_harness(sweep, given.harness)
        else:
            over_program(sweep)
        if not sweep.parts:
            sys.exit(f'sweep: no part has {given.only!r} in its name')
        print(f'{sweep.passed} passed, {sweep.failed} failed')
    finally:
        shutil.rmtree(sweep.work)
    return bool(sweep.failed)


sys.exit(main())

"""python3 -m trials.fuzz [--bundles N] [--manifests N] [--requests N] [--seed N]: gives the program
damaged input, and looks for what is not refused by its name.

N bundles (2,000) are damaged by `fuzzing/bundles.py` and listed by their SHA-256, so that they are
read, and taken in folders of 100; N manifests (500) are given to `init`; N requests (2,000) are
sent over a socket to `serve`, among good ones, in pieces, cut or broken off. `formats.py` and
`messages.py` of `tests/support/` read the same bytes by the definitions, in plain Python: from them
comes, to the byte, what the program has to print or respond, and its status; where the outcome is
plain from how the input was made that is asked too. So each crash, each other status, each other
text is wrong, and so is what does not end in time. After each folder and each server the C
library's checks have to pass and the folder, taken again, has to get the same receipts. Then a
client of each kind holds its connection (`fuzzing/clients.py`), with a good one behind it, which
has to get its response within a deadline. At last some bundles as large as a bundle may be are
taken one by one, with their time and peak memory.

It needs python3 alone, and the program, which `./build` builds. Each wrong input stays in a folder,
with how to run it again. The last line is `N inputs, wrong K`."""
import random
import sys
import time

from tests.support import arguments_over_restore
from trials.fuzzing.arrivals import mutated_release
from trials.fuzzing.arrivals import over_bundles
from trials.fuzzing.clients import over_clients
from trials.fuzzing.desk import over_requests
from trials.fuzzing.largest import over_largest
from trials.fuzzing.manifests import over_manifest
from trials.trial import Trial


def batches(count: int, most: int) -> list[tuple[int, int]]:
    """The numbers and sizes of the batches that so many inputs make."""
    return [(at, min(most, count - at * most)) for at in range(-(-count // most))]


def main() -> bool:
    arguments = arguments_over_restore(__doc__)
    for name, count in (('bundles', 2000), ('manifests', 500), ('requests', 2000), ('seed', 1)):
        arguments.add_argument(f'--{name}', type=int, default=count, metavar='N')
    arguments.add_argument('--keep', help='where wrong inputs are kept')
    given = arguments.parse_args()
    with Trial(given.restore, given.keep) as trial:
        rng, begun, counts = random.Random(given.seed), time.perf_counter(), trial.counts

        def said(what: str) -> None:
            print(f'{time.perf_counter() - begun:5.0f} s: {what}', flush=True)
        for batch, many in batches(given.bundles, 100):
            over_bundles(trial, batch, rng, many)
        said(f'{given.bundles} bundles: '
             + ', '.join(f'{verdict} {counts[verdict]}' for verdict in ('A1', 'A3', 'A4')))
        for number in range(given.manifests):
            over_manifest(trial, rng, number)
        said(f'{given.manifests} manifests, {counts["accepted manifests"]} accepted')
        for batch, many in batches(given.requests, 250):
            over_requests(trial, batch, rng, mutated_release(rng, 25), many)
        said(f'{given.requests} requests and the arrivals before them, the slowest '
             f'{counts["slowest"]:.2f} s')
        for over, what in ((over_clients, 'clients that hold their connection'),
                           (over_largest, 'the largest bundles')):
            over(trial)
            said(what)
    print(f'{trial.counts["inputs"]} inputs, wrong {trial.counts["wrong"]}')
    return trial.counts['wrong'] > 0


sys.exit(main())

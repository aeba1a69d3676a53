"""What a client of `serve` sees where memory is refused: the whole response, or 503 `S2`. The same
request to the store that is left then gets the whole response, and the store has the same rows."""
import os
import subprocess

from tests.support.files import read
from tests.support.formats import KINDS
from tests.support.messages import get
from tests.support.messages import put
from tests.support.messages import response
from tests.support.sockets import HOST
from tests.support.sockets import response_to
from tests.support.sockets import serving
from tests.support.stores import REPORTS
from tests.support.stores import rows
from trials.sweeping.refusals import Sweep
from trials.sweeping.refusals import ended_in
from trials.sweeping.releases import Release
from trials.sweeping.releases import Swept

# The responses of a run, its status and its standard error.
Ended = tuple[list[bytes], int, str]
REFUSED = response(503, 'S2\n')


def exchange(port: int, request: bytes) -> bytes:
    """What a client sees: nothing where it is not served."""
    try:
        return response_to(port, request)
    except OSError:
        return b''


def serve(sweep: Sweep, store: str, request: bytes, **given_settings: object) -> Ended:
    """The responses to a request and to the same once more, and how `serve` ended. Where a port is
    taken it is another one."""
    for _ in range(5):
        port = sweep.next_port()
        words = [sweep.given.restore, *serving(store, port, 2).split()]
        with subprocess.Popen(words, env=sweep.settings(**given_settings), stdin=subprocess.DEVNULL,
                              stdout=subprocess.PIPE, stderr=subprocess.PIPE,
                              close_fds=False) as served, ended_in(120, served):
            is_served = served.stdout.readline()
            responses = [exchange(port, request), exchange(port, request)] if is_served else []
            error = served.stderr.read().decode(errors='replace')
        if error != f'E1 {HOST}:{port}\n':
            break
    return responses, served.returncode, error


def over_serve(sweep: Sweep, release: Swept, name: str, request: bytes, before: str) -> None:
    def play(store: str, **refused: object) -> Ended:
        return serve(sweep, store, request, **refused)

    with sweep.copied(before) as clean:
        (whole, second), status, _ = play(clean)
        tables = rows(clean)
    assert whole == second and status == 0, (whole, second, status)

    def is_right(said: Ended, afterwards: tuple) -> bool:
        responses, status, error = said
        # One growth is refused: that of one response at most.
        answered = [it for it in responses if it]
        is_known = all(it in (whole, REFUSED) for it in answered)
        is_response = is_known and answered.count(REFUSED) <= 1
        is_done = (status, error) == (0, '') and len(answered) == 2
        is_stopped = (status, error) == (3, 'S2\n') and REFUSED not in answered
        return is_response and (is_done or is_stopped) and afterwards == ([whole, whole], True)
    sweep.refuse_over(f'serve {name}, {release.name}', 'S2', before, play,
                      lambda store: (play(store)[0], rows(store) == tables), is_right,
                      release.is_whole)


def over_routes(sweep: Sweep, release: Release) -> None:
    first = sorted(os.listdir(release.deposits))[0]
    over_serve(sweep, release, 'PUT /arrivals',
               put(first, read(os.path.join(release.deposits, first))), release.fresh)
    for path in (*(f'/{it}' for it in REPORTS), *(f'/export/{it}' for it in KINDS)):
        over_serve(sweep, release, f'GET {path}', get(path), release.taken)

"""desk_harness, the program of the tests. Where memory is refused to it each answer is what it is
undisturbed, up to the first one that is a refusal, or up to its end, for which it says why."""
import os
import re
import tempfile

from tests.support.bodies import bytes_of
from tests.support.bodies import manifest_text
from tests.support.files import write
from tests.support.messages import get
from tests.support.messages import put
from tests.support.stage import text_of
from trials.sweeping.refusals import Said
from trials.sweeping.refusals import Sweep

# What it ends with: the fault's name, as a crate, the kit or a response has it. Its files are in
# memory. Where memory is refused to a file it is a disk that fails: S1, or the database's name for
# it.
REFUSED = re.compile('out of memory|AllocError|AllocFailed|NoMemory|OutOfMemory|S1|S2|'
                     'SystemIoFailure')
# (What a response is written to is in memory, too.)
REFUSALS = ('S1', 'S2', 'out of memory', 'write fault after 0 milliseconds')
# How a response that is a refusal ends, in hexadecimal digits.
REFUSED_RESPONSES = tuple(f'{it}\n'.encode().hex() + '\n' for it in ('S1', 'S2'))
# What it is told. The bodies are the worked ones of the tests.
TOLD = (
    'create first.csv', 'comes 1 F1', 'comes 2 D2', 'comes 3 Abc', 'amend second.csv', 'comes 4 D3',
    'as-of 2024-03-04T12:00:00Z', 'comes 5 D2Resent', 'as-of latest', 'comes 4 D3', 'status', 'end',
    'moment', 'parked', 'receipts', 'held', 'tables', 'writes',
    'request get', 'request put', 'chain', 'close',
    'query SELECT pos, kind, key FROM undo ORDER BY pos, kind, key', 'crash synced', 'open',
    'run 3', 'comes 6 Empty', 'amend f5.csv', 'as-of 2024-03-03T00:00:00Z', 'comes 7 F5',
    'as-of latest', 'reopen', 'open', 'receipts', 'held',
    'tables', 'chain', 'status')
# How many answers those have: the three events of its run have none of their own.
COUNT = len(TOLD) - 3


def put_files(folder: str) -> None:
    """What the lines name."""
    files = {name: bytes_of(name) for name in ('F1', 'D2', 'D2Resent', 'D3', 'F5', 'Abc', 'Empty')}
    files |= {'first.csv': manifest_text(['F1', 'D3', 'D2Resent']).encode(),
              'second.csv': manifest_text(['F1', 'D2']).encode(),
              'f5.csv': manifest_text(['F5', 'F1']).encode(), 'told': text_of(TOLD).encode(),
              'get': get('/receipts'), 'put': put('8', b'abc')}
    for name, content in files.items():
        write(os.path.join(folder, name), content)


def over_harness(sweep: Sweep, program: str) -> None:
    program = os.path.abspath(program)
    with tempfile.TemporaryDirectory(dir=sweep.work) as folder:
        put_files(folder)
        told = os.path.join(folder, 'told')
        undisturbed = sweep.run(program=program, folder=folder, told=told)
        wanted = answers(undisturbed[1])
        assert undisturbed[0] == 0 and len(wanted) == COUNT, undisturbed
        assert not any(map(is_refused, wanted, wanted)), undisturbed

        def judge(at: int) -> Said | tuple[str, str] | None:
            status, out, error = sweep.run(program=program, folder=folder, told=told, at=at)
            found = answers(out)
            other = next(((got, want) for got, want in zip(found, wanted) if got != want), None)
            if other:
                return None if is_refused(*other) else other
            is_right = len(found) == COUNT if status == 0 else REFUSED.search(error)
            return None if is_right else (status, out, error)

        def tell(path: str) -> None:
            sweep.run(program=program, folder=folder, told=told, count=path)
        sweep.refuse('desk_harness', tell, judge, False)


def answers(out: str) -> list[str]:
    return re.split(r'^\.\n', out, flags=re.M)[:-1]


def is_refused(got: str, want: str) -> bool:
    """Whether an answer is a refusal, after a beginning of the one that is wanted."""
    lines = got.splitlines()
    at = next((at for at, it in enumerate(lines) if it in REFUSALS), None)
    is_beginning = at is not None and lines[:at] == want.splitlines()[:at]
    return is_beginning or got.endswith(REFUSED_RESPONSES)

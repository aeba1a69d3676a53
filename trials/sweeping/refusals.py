"""The refusals: a program runs with `refuse.c` loaded into it, once so that its calls are counted,
then once for each call that is refused.

Refusals are judged side by side, in processes of their own; what they find wrong comes back to the
one that prints."""
import argparse
import contextlib
import hashlib
import multiprocessing
import os
import subprocess
import tempfile
import threading
from collections.abc import Callable
from collections.abc import Iterator

from tests.support.files import read
from tests.support.stores import contents
from tests.support.stores import copy

# What a run gives: its status, its standard output and its standard error.
Said = tuple[int, str, str]
HERE = os.path.dirname(os.path.abspath(__file__))
# Of many calls the first ones are refused, and at most so many beyond, evenly.
LIMIT, BEYOND = 400, 200


class Sweep:
    """A whole sweep: what was asked of it, the folder in which it works, how many parts it has had,
    and how many refusals have passed and failed."""

    def __init__(self, top: str, given: argparse.Namespace) -> None:
        self.top, self.given = top, given
        self.work = tempfile.mkdtemp(prefix='sweep-',
                                     dir='/dev/shm' if os.path.isdir('/dev/shm') else None)
        self.parts, self.passed, self.failed = 0, 0, 0
        self.stores, self.port = 0, 30_000
        # What is loaded into a program, so that a call of it is refused.
        self.library = os.path.join(self.work, 'refuse.so')
        subprocess.run(['gcc', '-O2', '-shared', '-fPIC', '-o', self.library,
                        os.path.join(HERE, 'refuse.c'), '-ldl'], check=True)

    def settings(self, at: int | None = None, count: str | None = None,
                 disk: bool = False) -> dict[str, str]:
        """The environment of a run in which the call with this number is refused, or the calls are
        counted into this file."""
        library = self.library if at or count else None
        told = {'LD_PRELOAD': library, 'REFUSE_DISK': disk and '1', 'REFUSE_AT': at and f'{at}',
                'REFUSE_COUNT': count}
        return os.environ | {name: it for name, it in told.items() if it}

    def run(self, *words: str, program: str | None = None, folder: str | None = None,
            told: str = os.devnull, **given_settings: object) -> Said:
        """Status, standard output and standard error of a run, whose standard input is the file
        `told`."""
        with open(told, 'rb') as input_, subprocess.Popen(
            [program or self.given.restore, *words], env=self.settings(**given_settings),
            cwd=folder, stdin=input_,
            stdout=subprocess.PIPE, stderr=subprocess.PIPE, close_fds=False) as ran, ended_in(300,
                                                                                              ran):
            out, error = ran.communicate()
        return ran.returncode, out.decode(errors='replace'), error.decode(errors='replace')

    def own(self) -> str:
        """The path of a store that no other refusal uses."""
        self.stores += 1
        return os.path.join(self.work, f'store{os.getpid()}-{self.stores}')

    def next_port(self) -> int:
        """The port after the last one, of those that the system gives to no client."""
        self.port = self.port + 1 if self.port < 30_000 else 10_000 + os.getpid() % 10_000
        return self.port

    def numbers(self, calls: int, is_whole: bool) -> list[int]:
        """Those of so many calls that are refused, each in turn."""
        step = 1 if is_whole else max(1, -(-(calls - LIMIT) // BEYOND))
        numbers = [*range(1, min(calls, LIMIT) + 1), *range(LIMIT + step, calls + 1, step)]
        if self.given.some:
            numbers = numbers[::max(1, -(-len(numbers) // self.given.some))]
        return numbers

    def refuse(self, name: str, tell: Callable[[str], object], judge: Callable[[int], object],
               is_whole: bool) -> None:
        """Refuses calls, one after the other; `judge` says what is wrong with a refusal, or
        nothing."""
        if self.given.only not in name:
            return
        self.parts += 1
        path = self.own()
        tell(path)
        calls = int(read(path))
        os.remove(path)
        numbers = self.numbers(calls, is_whole)
        judges = multiprocessing.get_context('fork').Pool(self.given.jobs, Judge.begin, (judge,))
        with judges as pool:
            wrong = [(at, it) for at, it in zip(numbers, pool.imap(Judge.judge, numbers)) if it]
        self.passed += len(numbers) - len(wrong)
        self.failed += len(wrong)
        print(f'{name}: {len(numbers)} of {calls}, {len(wrong)} failed', flush=True)
        for at, it in wrong[:5]:
            print(f'    {at}: {it}', flush=True)

    @contextlib.contextmanager
    def copied(self, before: str) -> Iterator[str]:
        """A copy of a store, or none where there is none, in a `with` statement."""
        store = copy(before, self.own())
        yield store
        copy(None, store)

    def refuse_over(self, name: str, fault: str, before: str, play: Callable[..., object],
                    play_again: Callable[[str], object], is_right: Callable[..., bool],
                    is_whole: bool) -> None:
        """Refuses calls while something is played on a copy of a store: calls of the database's
        files at the fault S1, else growths of memory. `is_right` judges what comes of it, and of
        what is played on the copy then."""
        known, disk = {}, fault == 'S1'

        def once_more(store: str) -> object:
            # What comes of the same again goes by the contents of the store's files, and is run
            # once for each.
            key = hashlib.sha256(repr(contents(store)).encode()).digest()
            if key not in known:
                known[key] = play_again(store)
            return known[key]

        def judge(at: int) -> object:
            with self.copied(before) as store:
                found = play(store, at=at, disk=disk), once_more(store)
            return None if is_right(*found) else found

        def tell(path: str) -> None:
            with self.copied(before) as store:
                play(store, count=path, disk=disk)
        self.refuse(f'{name}, {fault}', tell, judge, is_whole)


class Judge:
    """A process that judges refusals. It is forked, and has its function from its beginning."""
    function: Callable[[int], object]

    @classmethod
    def begin(cls, function: Callable[[int], object]) -> None:
        cls.function = staticmethod(function)

    @classmethod
    def judge(cls, at: int) -> str | None:
        """What is wrong with the refusal of this number, as a text, or nothing."""
        found = cls.function(at)
        return repr(found) if found else None


@contextlib.contextmanager
def ended_in(seconds: float, ran: subprocess.Popen[bytes]) -> Iterator[None]:
    """Kills what runs longer."""
    timer = threading.Timer(seconds, ran.kill)
    timer.start()
    try:
        yield
    finally:
        timer.cancel()

"""A trial of the program: its runs, in a folder of its own, and what was counted."""
import collections
import os
import resource
import subprocess
import tempfile
from collections.abc import Iterable

from tests.support.files import write
from tests.support.outputs import prepared
from tests.support.sockets import serve
from tests.support.stage import Failed
from tests.support.stage import Stage
from tests.support.stores import READINGS
from tests.support.stores import is_whole


# How a run ended: its status, or None where it didn't in time, its output and its refusals.
Ended = tuple[int | None, bytes, bytes]


class Trial(Stage):
    """`restore` with its most memory, a folder in which wrong inputs are kept, and the counts. It
    is there in a `with` statement."""
    bounded = staticmethod(prepared([(resource.RLIMIT_AS, 6 * 2**30)]))

    def __init__(self, program: str, keep: str | None = None) -> None:
        super().__init__({'restore': program})
        self.program = program
        self.kept = keep or os.path.join(tempfile.gettempdir(), f'wrong-{os.getpid()}')
        self.counts: collections.Counter[str] = collections.Counter()

    def end_of(self, child: subprocess.Popen[bytes]) -> Ended:
        """Status, output and refusals of a run. The status of one that does not end in time is
        None."""
        try:
            got = self.end(child)
        except Failed as late:
            child.kill()
            return None, b'', f'{late}'.encode()
        return got.status, got.out, got.err

    def run(self, *words: str) -> Ended:
        return self.end_of(self.begin(words, prepare=self.bounded))

    def set_up(self, name: str, manifest: bytes,
               files: Iterable[tuple[str, bytes]] = ()) -> tuple[str, str, Ended]:
        """Writes a manifest, and a folder of files, names with bodies: the store's path, the
        folder's, and what making the store says."""
        store, folder = self.at(name), self.at(f'{name}-folder')
        for path, content in ((f'{store}.csv', manifest),
                              *((os.path.join(folder, it), body) for it, body in files)):
            write(path, content)
        return store, folder, self.run('init', '--store', store, '--manifest', f'{store}.csv')

    def serve(self, store: str, count: int) -> tuple[subprocess.Popen[bytes], int]:
        return serve(self, store, count, prepare=self.bounded)

    def wrong(self, what: str, expected: object, got: object, **files: bytes) -> None:
        """Keeps a wrong input, and how to run it again."""
        self.counts['wrong'] += 1
        folder = os.path.join(self.kept, f'{self.counts["wrong"]:04d}')
        how = f'{what}\nexpected {expected!r}\ngot {got!r}\n'
        for name, content in {**files, 'how': how.encode()}.items():
            write(os.path.join(folder, name), content)
        print(f'WRONG {what}: {expected!r:.300}, got {got!r:.300}: {folder}', flush=True)

    def expect(self, what: str, expected: object, got: object, **files: bytes) -> None:
        if got != expected:
            self.wrong(what, expected, got, **files)

    def check_store(self, what: str, store: str) -> None:
        self.expect(f'{what}: the checks of the C library', True, is_whole(store))

    def texts(self, store: str) -> dict[str, bytes]:
        """What the reports and exports print but those of arrivals, by their paths over HTTP."""
        said = {f'/export/{what}' if command == 'export'
                else f'/{what}': self.run(command, '--store', store, what)
                for command, what in READINGS if what not in ('receipts', 'parked')}
        for path, (status, _, refusals) in said.items():
            self.expect(f'{path} of {store}', (0, b''), (status, refusals))
        return {path: text for path, (_, text, _) in said.items()}

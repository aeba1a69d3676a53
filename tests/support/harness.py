"""A desk that is told what to do, line by line: the program desk_harness (crates/desk_harness says
which lines there are)."""
import subprocess
from typing import TypeVar

from tests.support.stage import Failed
from tests.support.stage import Got
from tests.support.stage import Stage
from tests.support.stage import difference
from tests.support.stage import pieces_of


# A harness of any class.
AnyHarness = TypeVar('AnyHarness', bound='Harness')


class Harness:
    """The program in the folder of a stage. It is there in a `with` statement, and has to end with
    status 0."""

    def __init__(self, stage: Stage) -> None:
        self.stage, self.child = stage, stage.begin([], 'desk_harness', stdin=subprocess.PIPE)
        self.pieces, self.rest, self.told = pieces_of(self.child.stdout), b'', ''

    def __enter__(self: AnyHarness) -> AnyHarness:
        return self

    def __exit__(self, kind: type[BaseException] | None, *_: object) -> None:
        if kind:
            self.child.kill()
        elif (got := self.stage.end(self.child)) != Got(0, b'', b'') or self.rest:
            raise Failed(f'desk_harness ended after {self.rest!r}: {got}')

    def tell(self, line: str) -> None:
        """Sends a line, for which no answer is awaited."""
        self.told = line
        try:
            self.child.stdin.write(f'{line}\n'.encode())
        except BrokenPipeError:
            pass  # (Its answer is missing, too.)

    def answer(self) -> str:
        """The lines of an answer, each with its end."""
        while not (self.rest == b'.\n' or self.rest.endswith(b'\n.\n')):
            piece = next(self.pieces, None)
            if piece is None:
                raise Failed(
                    f'> {self.told}\ndesk_harness ended after {self.rest!r}: '
                    f'{self.child.stderr.read()!r}'
                )
            self.rest += piece
        answer, self.rest = self.rest.decode().removesuffix('.\n'), b''
        return answer

    def ask(self, line: str) -> str:
        self.tell(line)
        return self.answer()

    def check(self, line: str, wanted: str, *events: str) -> None:
        """Compares the answer to a line. Events follow it if it is `run N`."""
        for it in (line, *events):
            self.tell(it)
        if found := difference('answer', wanted, self.answer().encode()):
            raise Failed('\n'.join([f'> {line}', *found]))

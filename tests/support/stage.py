"""Where a case plays: an empty folder, the programs that run in it, and what a run must give."""
import contextlib
import difflib
import os
import select
import subprocess
import tempfile
from collections.abc import Callable
from collections.abc import Iterable
from collections.abc import Iterator
from collections.abc import Sequence
from dataclasses import dataclass
from typing import IO
from typing import TypeVar
from typing import cast

from tests.support.files import write

# How long a run may take.
SECONDS = 60
# How many lines of a difference are shown.
SHOWN = 16


# What a stream of a child is connected with; what `begin` has by names; a stage of any class.
Stream = int | IO[bytes] | None
Given = Stream | Callable[[], None] | Sequence[str]
AnyStage = TypeVar('AnyStage', bound='Stage')


class Failed(Exception):
    """What happened in a case isn't what must happen."""


@contextlib.contextmanager
def case(name: str) -> Iterator[None]:
    """In a `with` statement of it, what fails is told with the name of a case."""
    try:
        yield
    except Failed as failure:
        raise Failed(f'{name}: {failure}') from None


@dataclass(frozen=True)
class Wanted:
    """The status of a run, its standard output, or a part of that, and its standard error, or None:
    some text, whatever it says."""
    status: int = 0
    out: str = ''
    err: str | None = ''
    part: str | None = None


@dataclass(frozen=True)
class Got:
    status: int
    out: bytes
    err: bytes


def difference(what: str, wanted: str, got: bytes) -> list[str]:
    """The lines in which two texts differ, if they do."""
    if got == wanted.encode():
        return []
    came = got.decode(errors='backslashreplace')
    lines = list(
        difflib.unified_diff(wanted.splitlines(), came.splitlines(), 'wanted', 'got', n=1,
                             lineterm=''))
    # (Texts of the same lines differ in the ends of these.)
    return [
        f'{what}:',
        *(f'  {it}' for it in lines[:SHOWN] or [f'wanted {wanted!r:.400}', f'got    {came!r:.400}'])
    ]


def compare(what: str, wanted: str, got: str) -> None:
    if found := difference(what, wanted, got.encode()):
        raise Failed('\n'.join(found))


def text_of(lines: Iterable[object]) -> str:
    """Lines, each with its end."""
    return ''.join(f'{it}\n' for it in lines)


def compare_all(what: str, wanted: Iterable[object], got: Iterable[object]) -> None:
    """Compares items, each as a line."""
    compare(what, text_of(wanted), text_of(got))


def faults(wanted: Wanted, got: Got) -> list[str]:
    """What is wrong with a run, in lines."""
    found = [] if got.status == wanted.status else [
        f'status: wanted {wanted.status}, got {got.status}'
    ]
    if wanted.part is None:
        found += difference('standard output', wanted.out, got.out)
    elif wanted.part.encode() not in got.out:
        found += [f'standard output: wanted {wanted.part!r} somewhere, got {got.out!r:.400}']
    if wanted.err is not None:
        found += difference('standard error', wanted.err, got.err)
    elif not got.err:
        found += ['standard error: wanted some text, got none']
    return found


def pieces_of(pipe: IO[bytes] | None) -> Iterator[bytes]:
    """What comes from a pipe until its end, piece by piece."""
    assert pipe is not None
    while select.select([pipe], [], [], SECONDS)[0]:
        if not (piece := os.read(pipe.fileno(), 65_536)):
            return
        yield piece
    raise Failed(f'nothing has come for {SECONDS} seconds')


class Stage:
    """An empty folder, which is there in a `with` statement, and where the programs are that were
    built, by their names."""

    def __init__(self, programs: dict[str, str]) -> None:
        self.programs, self.room = programs, tempfile.TemporaryDirectory(prefix='case-')
        self.children: list[subprocess.Popen[bytes]] = []

    def __enter__(self: AnyStage) -> AnyStage:
        return self

    def __exit__(self, *_: object) -> None:
        for child in self.children:
            with child:
                child.kill()
        self.room.cleanup()

    def at(self, path: str) -> str:
        return os.path.join(self.room.name, path)

    def write(self, path: str, content: bytes) -> None:
        """Writes a file, or writes it anew, and its folder where there is none."""
        write(self.at(path), content)

    def begin(self, words: Sequence[str], program: str = 'restore', out: Stream = subprocess.PIPE,
              err: Stream = subprocess.PIPE, prepare: Callable[[], None] | None = None,
              stdin: Stream = subprocess.DEVNULL) -> subprocess.Popen[bytes]:
        """Starts `restore`, or another program. The child becomes the program after it has prepared
        itself."""
        self.children.append(
            subprocess.Popen([self.programs[program], *words], cwd=self.room.name, stdin=stdin,
                             stdout=out, stderr=err, bufsize=0, preexec_fn=prepare))
        return self.children[-1]

    def end(self, child: subprocess.Popen[bytes]) -> Got:
        """Waits until a run ends, and gives its status and what is left in its pipes."""
        try:
            out, err = child.communicate(timeout=SECONDS)
        except subprocess.TimeoutExpired:
            program, *words = cast(list[str], child.args)
            line = ' '.join([os.path.basename(program), *words])
            raise Failed(f'$ {line}\nit has not ended after {SECONDS} seconds') from None
        return Got(child.returncode, out or b'', err or b'')

    def compare(self, line: str, wanted: Wanted, got: Got, program: str = 'restore') -> None:
        if found := faults(wanted, got):
            raise Failed('\n'.join([f'$ {program} {line}', *found]))

    def check(self, line: str, wanted: Wanted, words: Sequence[str] | None = None,
              program: str = 'restore', **streams: Given) -> None:
        """Runs a program on the words of a line, and compares what it gives."""
        self.compare(
            line, wanted,
            self.end(self.begin(line.split() if words is None else words, program,
                                **streams)),  # type: ignore[arg-type]
            program)

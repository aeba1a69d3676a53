"""What a child may do before it becomes a program, and standard outputs that are full at some
point."""
import fcntl
import os
import resource
import signal
import struct
import tempfile
import termios
import time
from collections.abc import Callable
from collections.abc import Sequence

from tests.support.stage import SECONDS
from tests.support.stage import Failed
from tests.support.stage import Got
from tests.support.stage import Stage
from tests.support.stage import Wanted
from tests.support.stage import pieces_of

# The most bytes of a file, where a file is standard output. No store here is so long.
MOST_BYTES = 2**26


def prepared(limits: Sequence[tuple[int, int]] = (), ignored: Sequence[int] = (),
             user: int | None = None, closed: Sequence[int] = ()) -> Callable[[], None]:
    """What gives a child limits, has it ignore signals, gives it a user, and closes streams."""
    def prepare() -> None:
        for what, most in limits:
            resource.setrlimit(what, (most, most))
        for it in ignored:
            signal.signal(it, signal.SIG_IGN)
        if user:
            os.setgid(user)
            os.setuid(user)
        for it in closed:
            os.close(it)
    return prepare


def no_longer_files(most: int) -> Callable[[], None]:
    """What lets no file grow past so many bytes."""
    return prepared([(resource.RLIMIT_FSIZE, most)], [signal.SIGXFSZ])


def run_narrow(stage: Stage, line: str, room: int) -> Got:
    """Runs the program where standard output is a file that ends after so many bytes more."""
    with tempfile.TemporaryFile(buffering=0) as out:
        out.seek(MOST_BYTES - room)
        got = stage.end(stage.begin(line.split(), out=out, prepare=no_longer_files(MOST_BYTES)))
        out.seek(MOST_BYTES - room)
        return Got(got.status, out.read(), got.err)


def check_narrow(stage: Stage, line: str, room: int, wanted: Wanted) -> None:
    stage.compare(line, wanted, run_narrow(stage, line, room))


def run_held_up(stage: Stage, line: str, room: int, meanwhile: Callable[[], object],
                program: str = 'restore', prepare: Callable[[], None] | None = None) -> Got:
    """Runs a program where standard output is a pipe that has room for so many bytes until
    something was done, and is read then; or is closed where that gives `False`."""
    reader, writer = os.pipe()
    with open(reader, 'rb', buffering=0) as pipe:
        size = fcntl.fcntl(writer, fcntl.F_SETPIPE_SZ, os.sysconf('SC_PAGE_SIZE'))
        os.write(writer, bytes(size - room))
        child = stage.begin(line.split(), program, out=writer, prepare=prepare)
        os.close(writer)
        # The pipe is waited for until it is full, or the child that fills it has ended.
        latest = time.monotonic() + SECONDS
        while struct.unpack('i', fcntl.ioctl(pipe, termios.FIONREAD,
                                             bytes(4)))[0] < size and child.poll() is None:
            if time.monotonic() > latest:
                raise Failed('the pipe is not filled')
            time.sleep(0.01)
        out = b'' if meanwhile() is False else b''.join(pieces_of(pipe))[size - room:]
    got = stage.end(child)
    return Got(got.status, out, got.err)

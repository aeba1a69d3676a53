"""Says how far the reading of a deposit is."""
import os
import stat
import sys
import time
from collections.abc import Iterable
from typing import BinaryIO

from faults import Refusal

# How many seconds there are between two lines, and on a terminal, where each takes the place of the
# one before.
LINES, REDRAWN = 2.0, 0.2


def opened_plain(path: str) -> BinaryIO:
    """A file for reading, which has to be a plain one: to read a pipe may never end."""
    handle = os.open(path, os.O_RDONLY | os.O_NONBLOCK | os.O_CLOEXEC)
    if stat.S_ISREG(os.fstat(handle).st_mode):
        return open(handle, 'rb')
    os.close(handle)
    raise Refusal(path, 'it is no plain file')


class Progress:
    """How many bytes of a deposit's files are read, of how many; told where that is wanted."""

    def __init__(self, is_told: bool) -> None:
        self.is_told, self.is_terminal = is_told, sys.stderr.isatty()
        self.begun = time.monotonic()
        self.next, self.done, self.all, self.objects = self.begun, 0, 0, 0
        self.file: BinaryIO | None = None
        self.size = 0

    def add(self, paths: Iterable[str]) -> None:
        """More files are to be read."""
        self.all += sum(os.path.getsize(it) for it in paths if os.path.isfile(it))

    def opened(self, path: str) -> BinaryIO:
        """Opens a file whose bytes count."""
        self.done += self.size
        self.file = opened_plain(path)
        self.size = os.fstat(self.file.fileno()).st_size
        return self.file

    def tell(self) -> None:
        now = time.monotonic()
        if self.is_told and now >= self.next:
            self.next = now + (REDRAWN if self.is_terminal else LINES)
            is_open = self.file is not None and not self.file.closed
            read = self.done + (self.file.tell() if is_open else self.size)
            line = self.line(read, now - self.begun)
            print(f'\r{line}\x1b[K' if self.is_terminal else line,
                  end='' if self.is_terminal else '\n', file=sys.stderr, flush=True)

    def line(self, read: int, seconds: float) -> str:
        left = f', {seconds * (self.all - read) / read:.0f} s left' if 0 < read <= self.all else ''
        size = f'{read / 1e6:,.0f} of {self.all / 1e6:,.0f} MB'
        return f'unpack_rde: {size}, {self.objects:,} objects{left}'

    def end(self) -> None:
        """Takes the line from a terminal."""
        if self.is_told and self.is_terminal:
            print('\r\x1b[K', end='', file=sys.stderr, flush=True)

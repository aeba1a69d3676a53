"""What a program has the system put on the disk: its calls of fsync and fdatasync, each of which
the kernel tells before it is made (seccomp(2), user notifications; Linux 5.5 or later, x86-64)."""
import array
import contextlib
import ctypes
import fcntl
import os
import select
import socket
import struct
import threading
from collections.abc import Iterator
from collections.abc import Sequence

from tests.support.stage import Failed
from tests.support.stage import Got
from tests.support.stage import Stage

# The calls, by their numbers.
FSYNC, FDATASYNC, SECCOMP, PR_SET_NO_NEW_PRIVS = 74, 75, 317, 38
# Of a filter's program: load a word, compare, return; and what is returned.
LOAD, IS_EQUAL, RETURN, TELL, LET = 0x20, 0x15, 0x06, 0x7fc0_0000, 0x7fff_0000
RULES = ((LOAD, 0, 0, 0), (IS_EQUAL, 1, 0, FSYNC), (IS_EQUAL, 0, 1, FDATASYNC),
         (RETURN, 0, 0, TELL), (RETURN, 0, 0, LET))
# To make a filter that has a listener; to receive what it tells, and to let the call go on.
MAKE, HAS_LISTENER, RECEIVE, SEND, GO_ON = 1, 8, 0xc050_2100, 0xc018_2101, 1


class Unwatched(Exception):
    """The system doesn't let calls be watched."""


def tell_calls(told: socket.socket) -> None:
    """Has these calls of this process told, and passes on the listener to whom, if there is one."""
    kernel = ctypes.CDLL(None)
    rules = ctypes.create_string_buffer(b''.join(struct.pack('HBBI', *it) for it in RULES))
    program = struct.pack('HxxxxxxQ', len(RULES), ctypes.addressof(rules))
    kernel.prctl(PR_SET_NO_NEW_PRIVS, 1, 0, 0, 0)
    listener = kernel.syscall(SECCOMP, MAKE, HAS_LISTENER, program)
    socket.send_fds(told, [b'x'], [listener] if listener >= 0 else [])
    if listener >= 0:
        os.close(listener)


def paths_told(listener: int) -> Iterator[str]:
    """The path of each file for which such a call is made, until the process has ended."""
    waiting = select.poll()
    waiting.register(listener, select.POLLIN)
    while waiting.poll()[0][1] & select.POLLIN:
        call = array.array('B', bytes(80))
        try:
            fcntl.ioctl(listener, RECEIVE, call)
            number, process, file = *struct.unpack_from('QI', call), struct.unpack_from('Q', call,
                                                                                       32)[0]
            yield os.readlink(f'/proc/{process}/fd/{file}')
            fcntl.ioctl(listener, SEND, struct.pack('QqiI', number, 0, 0, GO_ON))
        except FileNotFoundError:
            return


def run_watched(stage: Stage, words: Sequence[str], program: str) -> tuple[Got, list[str]]:
    """Runs a program. Gives the paths in its folder of what it has put on the disk, too, in
    order."""
    mine, its = socket.socketpair()
    with contextlib.closing(mine), contextlib.closing(its):
        child = stage.begin(words, program, prepare=lambda: tell_calls(its))
        _, listeners, _, _ = socket.recv_fds(mine, 1, 1)
    if not listeners:
        raise Unwatched
    folder, found = os.path.realpath(stage.room.name), list[str]()
    reading = threading.Thread(target=lambda: found.extend(paths_told(listeners[0])))
    reading.start()
    try:
        got = stage.end(child)
    finally:
        child.kill()
        reading.join()
        os.close(listeners[0])
    if not all(it.startswith(folder) for it in found):
        raise Failed(f'other files: {found}')
    return got, [os.path.relpath(it, folder) for it in found]

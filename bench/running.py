"""Runs of the program that are measured, for bench.py and sizes.py."""
import http.client
import os
import subprocess
import sys
import time
from collections.abc import Callable
from collections.abc import Iterable
from collections.abc import Sequence
from dataclasses import dataclass

from tests.support.files import read
from tests.support.sockets import HOST
from tests.support.sockets import free_port
from tests.support.stores import copy

# A request: its method, its path, and its body, if it has one.
Request = tuple[str, str, bytes | None]


@dataclass
class Use:
    """What a run used: milliseconds, milliseconds of processor time, and the peak memory in MB."""
    took: float
    processor: float = 0
    memory: float = 0

    @staticmethod
    def least(uses: Iterable['Use']) -> 'Use':
        names = ('took', 'processor', 'memory')
        return Use(*(min(getattr(it, name) for it in uses) for name in names))


class Program:
    """A built program and the folder in which it works."""

    def __init__(self, path: str, work: str) -> None:
        self.path, self.work = path, work
        os.makedirs(work, exist_ok=True)

    def at(self, name: str) -> str:
        return os.path.join(self.work, name)

    def run(self, *words: str, want: int = 0, err: int | None = None) -> Use:
        """Runs it to its end: what it prints is in a file, its standard error where `err` says."""
        with open(self.at('out'), 'wb') as out:
            begun = time.perf_counter()
            child = subprocess.Popen([self.path, *words], stdout=out, stderr=err)
            return self.ended(child, words, begun, want)

    def take(self, store: str, folder: str, want: int = 0) -> Use:
        return self.run('take', '--store', store, folder, want=want)

    def printed(self, *words: str) -> bytes:
        return subprocess.run([self.path, *words], check=True, capture_output=True).stdout

    def ended(self, child: subprocess.Popen, words: Sequence[str], begun: float,
              want: int = 0) -> Use:
        """Waits for a run, whose status has to be the wanted one, and answers what it used."""
        _, status, usage = os.wait4(child.pid, 0)
        child.returncode = os.waitstatus_to_exitcode(status)
        if child.returncode != want:
            sys.exit(f'{self.path} {" ".join(words)}: status {child.returncode}, wanted {want}')
        return Use((time.perf_counter() - begun) * 1000,
                   (usage.ru_utime + usage.ru_stime) * 1000, usage.ru_maxrss / 1024)

    def fresh(self, name: str, manifest: str) -> str:
        """A new store of a manifest."""
        store = copy(None, self.at(name))
        self.run('init', '--store', store, '--manifest', manifest)
        return store

    def arrivals(self, store: str, folder: str) -> tuple[list[float], Use]:
        """Takes a folder: the processor time once the store is open, and after each arrival; and
        what the run used."""
        words = ['take', '--store', store, folder]
        begun = time.perf_counter()
        child = subprocess.Popen([self.path, *words], stdout=subprocess.PIPE)
        return [spent(child) for _ in child.stdout], self.ended(child, words, begun)

    def serve(self, store: str, count: int) -> tuple[subprocess.Popen, int, Callable[[], Use]]:
        """Begins to serve a store for so many connections: the run, its port, and what ends it once
        they are over."""
        port, begun = free_port(), time.perf_counter()
        words = ['serve', '--store', store, '--port', str(port), '--count', str(count)]
        child = subprocess.Popen([self.path, *words], stdout=subprocess.PIPE, text=True)
        if child.stdout.readline() != f'listening {HOST}:{port}\n':
            sys.exit(f'{self.path}: the desk does not listen')
        return child, port, lambda: self.ended(child, words, begun)

    def served(self, store: str, path: str) -> Use:
        """What a desk over a store uses that answers one request, and ends."""
        _, port, ended = self.serve(store, 1)
        ask(port, 'GET', path)
        return ended()

    def asked_again(self, store: str, path: str) -> tuple[Use, Use]:
        """Asks a desk over a store for a report, again and again: the processor time of the first
        response, the mean of the others, and what the run used."""
        clock, use = self.answered(store, [('GET', path, None)] * 52)
        later = (clock[-1] - clock[1]) / (len(clock) - 2)
        return Use(0, clock[1] - clock[0], use.memory), Use(0, later, use.memory)

    def put_each(self, store: str, folder: str) -> Use:
        """PUTs the files of a folder to a desk over a store, in order: the mean processor time of a
        request."""
        names = sorted(os.listdir(folder))
        requests = [('PUT', f'/arrivals/{it}', read(f'{folder}/{it}')) for it in names]
        clock, use = self.answered(store, requests)
        return Use(0, (clock[-1] - clock[0]) / (len(clock) - 1), use.memory)

    def answered(self, store: str, requests: list[Request]) -> tuple[list[float], Use]:
        """The processor time of a desk over a store before these requests and after each but the
        last one, with which it ends; and what the run used."""
        child, port, ended = self.serve(store, len(requests))
        clock = [spent(child)]
        for request in requests[:-1]:
            ask(port, *request)
            clock.append(spent(child))
        ask(port, *requests[-1])
        return clock, ended()


def ask(port: int, method: str, path: str, body: bytes | None = None) -> None:
    """Sends one request by a connection of its own, and reads the whole response."""
    connection = http.client.HTTPConnection(HOST, port)
    connection.request(method, path, body)
    response = connection.getresponse()
    response.read()
    connection.close()
    if response.status != 200:
        sys.exit(f'{method} {path}: status {response.status}, wanted 200')


def spent(process: subprocess.Popen) -> float:
    """The processor time of a running process, in milliseconds, by the clock that Linux has for
    each (clock_getcpuclockid)."""
    return time.clock_gettime((~process.pid << 3) | 2) * 1000

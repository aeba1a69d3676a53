"""python3 -m trials.rdap_server [--domains N] [--seed N] [--apache PROGRAM] [--nginx PROGRAM]:
serves what rdap_files writes by real web servers, with the configurations of docs/RDAP.md, and asks
them.

A registry at random, with odd names and texts, is written as tables and a zone, and these as
answers. Each server, on loopback, is asked for every answer: by its name, in capitals, with a dot
at its end, and in U-labels. What comes has to be what SQL finds in the tables
(tests/support/rdap.py), as application/rdap+json and for all origins. Names that are not there, and
names that lead out of the folder, have to be 404 or another refusal. nginx has to answer 404 to
capitals and to the dot.

It needs Apache (Debian: apache2-bin) or nginx; one that is not there is told. The last line is
`N passed, M failed`; the status is 0 where M is 0."""
import argparse
import contextlib
import http.client
import io
import json
import os
import pathlib
import re
import runpy
import socket
import subprocess
import sys
import tempfile
import time
from collections.abc import Iterator
from typing import NamedTuple
from urllib.parse import quote

from tests.support import TOP
from tests.support.rdap import Expected
from tests.support.rdap import some_registry
from tests.support.tables import write_tables

MAIN = runpy.run_path(f'{TOP}/packaging/rdap_files', run_name='rdap_files')['main']
BASE, UPDATED = 'https://rdap.nic.example/', '2024-03-04T00:00:00Z'
PLACE, MEDIA_TYPE = '/srv/rdap', 'application/rdap+json'
MODULES, SECONDS = '/usr/lib/apache2/modules', 20
APACHE = """ServerName localhost
Listen 127.0.0.1:{port}
PidFile {room}/apache.pid
ErrorLog {room}/apache.log
User www-data
Group www-data
"""
NGINX = """daemon off;
pid {room}/nginx.pid;
error_log {room}/nginx.log;
events {{ }}
http {{
access_log off;
{paths}
server {{
listen 127.0.0.1:{port};
{page}}}
}}
"""
PATHS = ('client_body', 'proxy', 'fastcgi', 'uwsgi', 'scgi')
ABSENT = ('domain/absent.example', 'nameserver/ns.absent.example', 'entity/RAR-999',
          'contact/C1-EX', 'domain/reserved0.example', 'autnum/1', 'ip/192.0.2.1',
          'domains?name=a*', 'domain/*.example', 'domain/absent.example/help')
# What a server may refuse in another way, too: folders, and paths that lead out of its own.
ODD = ('', 'domain/', 'domain', '%2e%2e/zone', '../zone', 'domain/..%2f..%2fzone', 'domain/%00',
       'domain/%2e%2e/%2e%2e/zone', 'entity/..%5c..%5czone')


class Reply(NamedTuple):
    status: int
    media_type: str | None
    origin: str | None
    members: object


class Server:
    """A web server that serves a folder at a port of its own."""

    def __init__(self, name: str, program: str, lowers: bool) -> None:
        self.name, self.program, self.lowers = name, program, lowers
        self.port = free_port()

    def words(self, room: str) -> list[str]:
        """The command that starts it, with the configuration that the page has."""
        page = configuration(self.name).replace(PLACE, f'{room}/rdap')
        path = f'{room}/{self.name}.conf'
        if self.name == 'apache':
            modules = ('mpm_event', 'authz_core', 'rewrite', 'headers')
            loaded = [f'LoadModule {it}_module {MODULES}/mod_{it}.so\n' for it in modules]
            text = APACHE.format(port=self.port, room=room) + ''.join(loaded) + page
            words = [self.program, '-d', room, '-f', path, '-DFOREGROUND']
        else:
            paths = ''.join(f'{it}_temp_path {room}/{it};\n' for it in PATHS)
            text = NGINX.format(port=self.port, room=room, page=page, paths=paths)
            words = [self.program, '-p', room, '-c', path]
        pathlib.Path(path).write_text(text)
        return words

    @contextlib.contextmanager
    def serving(self, room: str) -> Iterator[http.client.HTTPConnection]:
        """Starts it, and stops it in the end."""
        ran = subprocess.Popen(self.words(room), stdout=subprocess.DEVNULL)
        try:
            wait_for(self.port, ran)
            with contextlib.closing(http.client.HTTPConnection('127.0.0.1', self.port)) as asked:
                yield asked
        finally:
            ran.terminate()
            ran.wait(SECONDS)


def free_port() -> int:
    with socket.create_server(('127.0.0.1', 0)) as listener:
        return listener.getsockname()[1]


def wait_for(port: int, ran: subprocess.Popen) -> None:
    end = time.monotonic() + SECONDS
    while time.monotonic() < end and ran.poll() is None:
        with contextlib.suppress(OSError), socket.create_connection(('127.0.0.1', port), 1):
            return
        time.sleep(0.05)
    sys.exit(f'rdap_server: it does not serve: {ran.args}')


def configuration(name: str) -> str:
    """The block of the page for a web server."""
    text = pathlib.Path(TOP, 'docs/RDAP.md').read_text('utf-8')
    return re.search(rf'^```{name}\n(.*?)^```$', text, re.M | re.S)[1]


def ask(asked: http.client.HTTPConnection, path: str) -> Reply:
    asked.request('GET', f'/{path}', headers={'Accept': MEDIA_TYPE})
    came = asked.getresponse()
    body = came.read()
    try:
        members = json.loads(body)
    except ValueError:
        members = None
    return Reply(came.status, came.headers['Content-Type'],
                 came.headers['Access-Control-Allow-Origin'], members)


class Trial:
    """Counts what is as it has to be, and tells what is not."""

    def __init__(self, files: dict[str, dict]) -> None:
        self.files, self.passed, self.failed = files, 0, 0

    def check(self, server: Server, path: str, is_right: bool, reply: Reply) -> None:
        self.passed += is_right
        self.failed += not is_right
        if not is_right:
            print(f'wrong: {server.name}: {path}: {str(reply)[:300]}', flush=True)

    def try_there(self, server: Server, asked: http.client.HTTPConnection) -> None:
        """Every answer, by each of its names."""
        for name, members in self.files.items():
            kind, _, key = name.partition('/')
            for it in names_of(kind, key):
                path = f'{kind}/{quote(it)}'
                reply = ask(asked, path)
                is_there = it == key or server.lowers
                wanted = Reply(200, MEDIA_TYPE, '*', members)
                self.check(server, path, reply == wanted if is_there else is_absent(reply), reply)

    def try_absent(self, server: Server, asked: http.client.HTTPConnection) -> None:
        for path in ABSENT:
            reply = ask(asked, path)
            self.check(server, path, is_absent(reply), reply)
        for path in ODD:
            reply = ask(asked, path)
            is_right = is_absent(reply) or reply.status in (301, 400, 403, 404)
            self.check(server, path, is_right, reply)
        reply = ask(asked, 'help')
        self.check(server, 'help', reply[:3] == (200, MEDIA_TYPE, '*'), reply)


def names_of(kind: str, key: str) -> list[str]:
    """The names by which an answer is asked for. A handle has one alone."""
    if kind == 'entity':
        return [key]
    capitals = ''.join(it.upper() if it.isascii() else it for it in key)
    return [*dict.fromkeys([key, capitals, f'{key}.', f'{capitals}.'])]


def is_absent(reply: Reply) -> bool:
    """Whether it is the answer of 404.json."""
    is_ours = isinstance(reply.members, dict) and reply.members.get('errorCode') == 404
    return is_ours and reply[:3] == (404, MEDIA_TYPE, '*')


def made(room: str, seed: int, domains: int) -> dict[str, dict]:
    """Writes a registry's answers where a server finds them. Those that there have to be."""
    objects, zone = some_registry(seed, domains)
    write_tables(f'{room}/tables', objects)
    pathlib.Path(f'{room}/zone').write_text(zone)
    with contextlib.redirect_stdout(io.StringIO()), contextlib.redirect_stderr(io.StringIO()):
        status = MAIN(['--base', BASE, '--updated', UPDATED, f'{room}/tables', f'{room}/zone',
                       f'{room}/rdap-1'])
    if status:
        sys.exit(f'rdap_server: rdap_files ended with status {status}')
    os.symlink('rdap-1', f'{room}/rdap')
    return Expected(f'{room}/tables', f'{room}/zone', BASE, UPDATED).files()


def main() -> int:
    arguments = argparse.ArgumentParser(description=__doc__,
                                        formatter_class=argparse.RawDescriptionHelpFormatter)
    arguments.add_argument('--domains', type=int, default=500, metavar='N')
    arguments.add_argument('--seed', type=int, default=1, metavar='N')
    arguments.add_argument('--apache', default='/usr/sbin/apache2', metavar='PROGRAM')
    arguments.add_argument('--nginx', default='/usr/sbin/nginx', metavar='PROGRAM')
    given = arguments.parse_args()
    servers = [Server('apache', given.apache, True), Server('nginx', given.nginx, False)]
    os.umask(0o022)
    with tempfile.TemporaryDirectory() as room:
        # The server reads it as another user.
        os.chmod(room, 0o755)
        trial = Trial(made(room, given.seed, given.domains))
        for server in servers:
            if not os.access(server.program, os.X_OK):
                print(f'not tried: there is no {server.program}')
                continue
            before = trial.passed
            with server.serving(room) as asked:
                trial.try_there(server, asked)
                trial.try_absent(server, asked)
            print(f'{server.name}: {trial.passed - before} passed', flush=True)
    print(f'{trial.passed} passed, {trial.failed} failed')
    return int(trial.failed > 0 or trial.passed == 0)


if __name__ == '__main__':
    sys.exit(main())

"""The programs of others that read a zone, where they are installed."""
import shutil
import subprocess
from typing import NamedTuple

# Of each the Debian package, and its words: of BIND those by which `named` itself would refuse.
CHECKERS = {
    'named-checkzone': ('bind9-utils',
                        '-i local -k fail -m fail -M fail -n fail -r fail ORIGIN FILE'),
    'nsd-checkzone': ('nsd', 'ORIGIN FILE'),
    'kzonecheck': ('knot-dnssecutils', '-o ORIGIN FILE'),
    'ldns-read-zone': ('ldnsutils', '-c FILE'),
}


class Checked(NamedTuple):
    """What a program says of a zone: whether it takes it, and its lines."""
    name: str
    takes: bool
    said: str


def path_of(name: str) -> str | None:
    """Where a program is: a user's PATH often lacks sbin."""
    return shutil.which(name) or shutil.which(name, path='/usr/sbin:/sbin')


def missing() -> dict[str, str]:
    """The programs that are not installed, and the packages that have them."""
    return {name: package for name, (package, _) in CHECKERS.items() if path_of(name) is None}


def checked(zone: str, origin: str) -> list[Checked]:
    """What each program that is installed says of the zone in a file."""
    found = []
    for name, (_, words) in CHECKERS.items():
        if path := path_of(name):
            given = words.replace('ORIGIN', origin).replace('FILE', zone).split()
            ran = subprocess.run([path, *given], stdin=subprocess.DEVNULL, stdout=subprocess.PIPE,
                                 stderr=subprocess.STDOUT, text=True, timeout=60, check=False)
            found.append(Checked(name, ran.returncode == 0, ran.stdout))
    return found

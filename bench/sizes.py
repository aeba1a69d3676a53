"""python3 -m bench.sizes [--releases DIR] [--glue] [N ..]: how long a registry of N domains takes,
and how much memory and disk.

For each N (20,000, 200,000 and 1,000,000 if none is named) it makes a Full of N domains with thick
data as a series of bundles (samples/make_large, seeded), takes it into a new store, takes it again,
and makes each report, an export and each form of the registry. It prints the time by the clock, the
processor time and the peak memory of each command, and how large the files are. With --releases it
keeps what it makes in DIR, and takes what is there: give the same DIR again after a change. With
--glue the hosts are below the registry's own domains: the zone has their addresses."""
import argparse
import os
import shutil
import subprocess
import sys
import tempfile
from collections.abc import Iterator

from bench.running import Program
from bench.running import Use
from tests.support import TOP
from tests.support import arguments_of
from tests.support import built
from tests.support import program

SIZES = (20_000, 200_000, 1_000_000)
MEGABYTE = 1_000_000
# The operator's own records of the zone.
APEX = """example. 3600 IN SOA a.nic.example. hostmaster.nic.example. SERIAL 1800 900 604800 900
example. 3600 IN NS a.nic.example.
a.nic.example. 3600 IN A 192.0.2.53
"""
PACK_RDE = (f'{TOP}/packaging/pack_rde', '--id', 'F2', '--watermark', '2024-03-04T00:00:00Z',
            '--tld', 'example')


def made(folder: str, domains: int, has_glue: bool) -> str:
    """A release of a Full of so many domains, in this folder, where it may be already."""
    if not os.path.exists(f'{folder}/manifest.csv'):
        words = [sys.executable, f'{TOP}/samples/make_large', '--domains', str(domains), folder]
        subprocess.run([*words, *(['--glue'] if has_glue else [])], check=True,
                       stdout=subprocess.DEVNULL)
    return folder


def size(*paths: str) -> str:
    """How large files and folders are."""
    whole = 0
    for path in paths:
        names = [path] if os.path.isfile(path) else [it.path for it in os.scandir(path)]
        whole += sum(os.path.getsize(it) for it in names)
    return f'{whole / MEGABYTE:,.0f} MB'


def uses_of_store(release: str, store: str, restore: Program) -> Iterator[tuple[str, Use]]:
    """Each command of restore with what it used."""
    at = ('--store', store)
    yield 'take', restore.take(store, f'{release}/deposits')
    yield 'take again', restore.take(store, f'{release}/deposits')
    for name in ('status', 'gaps', 'receipts', 'links'):
        yield f'report {name}', restore.run('report', *at, name)
    yield 'export domain', restore.run('export', *at, 'domain')
    print(f'  deposits {size(f"{release}/deposits")}, store {size(store)}, '
          f'export {size(restore.at("out"))}', flush=True)


def uses_of_forms(store: str, handover: Program) -> Iterator[tuple[str, Use]]:
    """Each command of handover with what it used. What it makes goes at once, so that disks of any
    size do."""
    at = ('--store', store)
    yield 'handover check', handover.run('check', *at)
    yield 'handover page', handover.run('page', *at, handover.at('page.html'))
    for words in ((), ('--sqlite',), ('--postgres',)):
        folder = handover.at('tables')
        yield ' '.join(('handover tables', *words)), handover.run('tables', *at, *words, folder)
        print(f'  tables {size(folder)}', flush=True)
        if '--postgres' in words:
            deposit = handover.at('deposit.xml')
            python = Program(sys.executable, handover.work)
            yield 'pack_rde', python.run(*PACK_RDE, folder, deposit, err=subprocess.DEVNULL)
            print(f'  deposit {size(deposit)}', flush=True)
        shutil.rmtree(folder)
    zone, apex = handover.at('zone'), handover.at('apex')
    with open(apex, 'w', encoding='ascii') as file:
        file.write(APEX)
    words = ('--origin', 'example', '--apex', apex, '--serial', '2024030401')
    yield 'handover zone', handover.run('zone', *at, *words, zone, err=subprocess.DEVNULL)
    print(f'  zone {size(zone)}', flush=True)


def measure(domains: int, programs: argparse.Namespace, work: str) -> None:
    print(f'{domains:,} domains')
    name = f'{domains}-glue' if programs.glue else f'{domains}'
    release = made(f'{programs.releases or work}/{name}', domains, programs.glue)
    restore, handover = (Program(it, work) for it in (programs.restore, programs.handover))
    store = restore.fresh('store', f'{release}/manifest.csv')
    for uses in (uses_of_store(release, store, restore), uses_of_forms(store, handover)):
        for command, use in uses:
            times = f'{use.took / 1000:8.1f} s {use.processor / 1000:8.1f} s of processor'
            print(f'  {command:26} {times} {use.memory:6,.0f} MB', flush=True)


def main() -> None:
    arguments = arguments_of(__doc__)
    arguments.add_argument('sizes', nargs='*', type=int, default=SIZES, metavar='N')
    arguments.add_argument('--releases', metavar='DIR')
    arguments.add_argument('--glue', action='store_true')
    for name in ('restore', 'handover'):
        arguments.add_argument(f'--{name}', type=program, default=built(name), metavar='PROGRAM')
    given = arguments.parse_args()
    for domains in given.sizes:
        with tempfile.TemporaryDirectory(prefix='restore-sizes-') as work:
            measure(domains, given, work)


if __name__ == '__main__':
    main()

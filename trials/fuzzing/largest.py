"""Bundles as large as a bundle may be, or nearly: what comes of each, its time and peak memory."""
import subprocess
import sys
import time

from tests.support.bundles import manifest
from tests.support.bundles import sealed
from tests.support.reports import report
from tests.support.stores import copy
from trials.fuzzing.damage import table_of
from trials.trial import Trial


HEADER = 'L,FULL,2024-04-01T00:00:00Z,,'


def largest() -> dict[str, tuple[bytes, str | None]]:
    """Bundles of the most bytes, or nearly, with what has to come of them."""
    most = 15_000_000
    texts = {
        'JSON nested 100,000 deep, closed': (b'"x":' + b'[' * 100_000 + b']' * 100_000, 'A3 U5'),
        'JSON nested 100,000 deep, open': (b'"x":' + b'[' * 100_000, 'A3 U5'),
        'JSON nested 15,000,000 deep': (b'"x":' + b'[' * most, 'A3 U5'),
        'JSON objects nested 3,000,000 deep': (b'"x":' + b'{"":' * (most // 5) + b'0' + b'}'
                                               * (most // 5), 'A3 U5'),
        'JSON, an array of 7,500,000 numbers': (b'"x":[' + b'0,' * (most // 2) + b'0]', 'A1'),
        'JSON, an array of 5,000,000 arrays': (b'"x":[' + b'[],' * (most // 3) + b'0]', 'A1'),
        'JSON, an object of 1,000,000 members': (b'"x":{'
                                                 + b''.join(b'"%07d":0,' % number
                                                            for number in range(10**6)) + b'"":0}',
                                                 'A1'),
        'JSON, one member 2,500,000 times': (b'"x":{' + b'"a":0,' * (most // 6) + b'"b":0}', 'A1'),
        'JSON, a text of 15,000,000 bytes': (b'"x":"' + b'x' * most + b'"', 'A1'),
        'JSON, a text of 2,500,000 escapes': (b'"x":"' + b'\\u00e9' * (most // 6) + b'"', 'A1'),
        'JSON, an integer of 15,000,000 digits': (b'"x":' + b'9' * most, 'A3 U5'),
        'JSON, a fraction of 15,000,000 digits': (b'"x":0.' + b'1' * most, 'A1'),
        'JSON, 15,000,000 spaces': (b' ' * most + b'"x":0', 'A1'),
        'JSON, 200,000 declarations that are none': (b'"contents":['
                                                     + b'{"name":"a","kind":"host"},' * 200_000
                                                     + b'0]', 'A3 U7'),
    }
    front = b'{"id":"L","type":"FULL","watermark":"2024-04-01T00:00:00Z",'
    made = {name: (sealed(front + text + b'}', []), known) for name, (text, known) in texts.items()}
    made['CSV, one record of 15,000,000 fields'] = table_of(b',' * most, 2), 'A3 U9'
    made['CSV, 7,500,000 records'] = table_of(b'a\n' * (most // 2)), 'A3 U11'
    made['CSV, 15,000,000 line ends'] = table_of(b'\n' * most), 'A1'
    made['CSV, 15,000,000 quotes'] = table_of(b'"' * most), 'A3 U10'
    made['CSV, a cell of 15,000,000 bytes'] = table_of(b'a,' + b'x' * most + b'\n', 2), 'A1'
    made['CSV, 100,000 records of one key'] = table_of(b'a\n' * 100_000), 'A1'
    wide = b''.join(b'%d' % number + b',x' * 63 + b'\n' for number in range(100_000))
    made['CSV, 100,000 records of 64 cells'] = table_of(wide, 64), 'A1'
    return made


# Runs the program and tells its peak memory, from a process that is small itself: a child's peak
# begins with its parent's size.
MEASURE = """import os, subprocess, sys
child = subprocess.Popen(sys.argv[1:])
_, status, usage = os.wait4(child.pid, 0)
print(usage.ru_maxrss, file=sys.stderr)
sys.exit(os.waitstatus_to_exitcode(status) & 0xff)"""


def over_largest(trial: Trial) -> None:
    """Takes each of these bundles, and prints its time and peak memory."""
    for name, (body, known) in largest().items():
        copy(None, trial.at('large'))
        listed = manifest([(HEADER, body)])
        store, folder, _ = trial.set_up('large', listed, [('n1', body)])
        begun = time.perf_counter()
        taken = subprocess.run([sys.executable, '-c', MEASURE, trial.program, 'take', '--store',
                                store, folder], capture_output=True, preexec_fn=trial.bounded)
        took = time.perf_counter() - begun
        *refusals, peak = taken.stderr.decode().splitlines()
        verdict, _, fault = known.partition(' ')
        reply = f'1,n1,{verdict},{fault},L,0,' + ('new,0' if verdict == 'A1' else ',')
        expected = int(verdict != 'A1'), report('receipts', [reply]), []
        got = taken.returncode, taken.stdout.decode(), refusals
        if got != expected:
            trial.wrong(name, expected, got, bundle=body, **{'manifest.csv': listed})
        trial.check_store(name, store)
        print(f'{name:42} {known:7} {took:6.2f} s {int(peak) / 1024:6.0f} MB', flush=True)
        trial.counts['inputs'] += 1

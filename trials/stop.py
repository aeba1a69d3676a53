"""python3 -m trials.stop [--kills N] [--disks N] [--seed N]: stops the program in the middle of a
take, and looks for what a stop may not leave.

A release of a Full and 30 Differentials (seeded) is taken, and the program is killed (SIGKILL) at N
random moments (100), each time from a fresh store; then it is run on N disks (100) of rising size,
each a small ext2 file system in a file, on which the store does not fit until the last. After each
stop the folder is taken again, for a disk on a larger one: every line that was printed before the
stop is there again, the receipts and exports are those of an undisturbed run, and the C library's
checks pass. The disks need root and mkfs.ext2; without them they are left out. It needs the
program, which `./build` builds. The last line is 'N stops, M undisturbed, wrong K'."""
import os
import random
import shutil
import subprocess
import sys
import time

from tests.support import TOP
from tests.support import arguments_over_restore
from tests.support.stores import copy
from tests.support.stores import readings
from trials.trial import Trial

SMALL = ('--rows', '3000', '--diffs', '30', '--touch', '60', '--growth', '1000', '--again', '1',
         '--puts', '1', '--chain', '1')


class Stops(Trial):
    """A trial with a release, and what an undisturbed take of it prints and leaves."""

    def __enter__(self) -> 'Stops':
        release, self.folder = self.at('release'), self.at('deposits')
        self.manifest = self.at('release/manifest.csv')
        subprocess.run([sys.executable, '-m', 'bench.release', release, *SMALL], check=True,
                       cwd=TOP, stdout=subprocess.DEVNULL)
        shutil.copytree(f'{release}/diffs', self.folder)
        shutil.copy(f'{release}/full/f1', f'{self.folder}/a-f1')
        self.fresh, store = self.at('fresh.db'), self.at('whole.db')
        self.expect('init', 0,
                    self.run('init', '--store', self.fresh, '--manifest', self.manifest)[0])
        begun = time.perf_counter()
        self.whole = self.run('take', '--store', copy(self.fresh, store), self.folder)
        self.seconds, self.size = time.perf_counter() - begun, os.path.getsize(store)
        self.undisturbed = readings(self.run, store)
        return self

    def judge(self, what: str, store: str, printed: bytes, is_done: bool) -> None:
        """Takes the folder again after a stop, and compares."""
        self.counts['undisturbed' if is_done else 'stops'] += 1
        lines = printed[:printed.rfind(b'\n') + 1]
        self.expect(f'{what}: lines printed before the stop', True, self.whole[1].startswith(lines))
        self.expect(f'{what}: taken again', self.whole,
                    self.run('take', '--store', store, self.folder))
        self.expect(f'{what}: receipts, reports or exports', self.undisturbed,
                    readings(self.run, store))
        self.check_store(what, store)

    def kill(self, after: float) -> None:
        store = copy(self.fresh, self.at('killed.db'))
        with open(self.at('printed'), 'w+b') as out:
            child = self.begin(['take', '--store', store, self.folder], out=out)
            time.sleep(after)
            child.kill()
            status = child.wait()
            out.seek(0)
            self.judge(f'killed after {after:.4f} s', store, out.read(), status == 0)

    def on_disk(self, size: int) -> None:
        """A take on a disk of so many kilobytes, and again on a larger one."""
        what = f'disk of {size} KB'
        image, disk, store = self.at('image'), self.at('disk'), self.at('moved.db')
        os.makedirs(disk, exist_ok=True)
        with open(image, 'wb') as file:
            file.truncate(size * 1024)
        subprocess.run(['mkfs.ext2', '-q', '-F', '-b', '1024', '-m', '0', '-N', '16', image],
                       check=True)
        subprocess.run(['mount', '-o', 'loop', image, disk], check=True)
        try:
            made = self.run('init', '--store', f'{disk}/desk.db', '--manifest', self.manifest)
            ended = made if made[0] else self.run('take', '--store', f'{disk}/desk.db', self.folder)
            copy(f'{disk}/desk.db', store)
        finally:
            subprocess.run(['umount', disk], check=True)
        if ended[0]:
            self.expect(what, (3, b'S1\n'), ended[::2])
        if made[0]:
            again = self.run('init', '--store', store, '--manifest', self.manifest)[::2]
            self.expect(f'{what}: init again', True, again in ((0, b''), (3, b'S3\n')))
        self.judge(what, store, b'' if made[0] else ended[1], ended[0] == 0)


def main() -> bool:
    arguments = arguments_over_restore(__doc__)
    for name, count in (('kills', 100), ('disks', 100), ('seed', 1)):
        arguments.add_argument(f'--{name}', type=int, default=count, metavar='N')
    given = arguments.parse_args()
    moments = random.Random(given.seed)
    with Stops(given.restore) as trial:
        print(f'a take of {len(os.listdir(trial.folder))} deposits: {trial.seconds:.2f} s, a store '
              f'of {trial.size // 1024} KB', flush=True)
        for _ in range(given.kills):
            trial.kill(moments.uniform(0, trial.seconds))
        if os.geteuid() or not shutil.which('mkfs.ext2'):
            print('no root or no mkfs.ext2: the disks are left out')
            given.disks = 0
        # (The log grows to about the size of the store.)
        most = trial.size * 5 // 2 // 1024
        for number in range(given.disks):
            trial.on_disk(60 + most * number // max(1, given.disks - 1))
        counts = trial.counts
    print(f'{counts["stops"]} stops, {counts["undisturbed"]} undisturbed, wrong {counts["wrong"]}')
    return counts['wrong'] > 0


sys.exit(main())

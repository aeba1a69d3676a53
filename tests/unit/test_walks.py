"""That no arrival is taken while a walk over the desk's objects lives. A walk borrows the desk, so
a program that does it is refused by the borrow check, before any proof; and an edit of a crate that
does not compile counts for nothing in `rt ci`."""
import pathlib
import shutil
import subprocess
import tempfile
import unittest

from tests.support import TOP
from tests.support.crates import listed
from tests.support.crates import with_below

# How many seconds the compiler may take.
SECONDS = 300
ARRIVAL = '    desk.arrive(alloc, number, body)?;'
HEAD = '''//! Walks over a desk's objects, and arrivals.
#![tactic(auto)]

use esc_apply::Objects;
use esc_desk::{Desk, Reads, Walk};
use esc_store::{Number, StoreFault};
use sqlite::Alter;
use std::alloc::Global;
'''
FUNCTION = '''
pub fn arrive_@<S: Alter>(
    alloc: Global,
    desk: &mut Desk<S>,
    number: &Number<'_>,
    body: &[u8],
) -> Result<(), StoreFault> {
    let place = desk.start_walk(alloc, None)?;
    let mut walk = Walk::new(desk, place);
    walk.next()?;
'''
AFTER = f'    walk.next()?;\n    drop(walk);\n{ARRIVAL}\n    Ok(())\n}}\n'
DURING = f'{ARRIVAL}\n    walk.next()?;\n    Ok(())\n}}\n'
PROGRAM = HEAD + FUNCTION.replace('@', 'after_walk') + AFTER + FUNCTION.replace(
    '@', 'during_walk') + DURING
REFUSED = 'error[borrow-e0499]: cannot borrow `*desk` as mutable more than once at a time'


def words_over_desk(kit: pathlib.Path) -> list[str]:
    """The words by which the compiler reads a crate over the desk, and the sources of the crates
    below. It proves none of its functions."""
    crates, own = listed(), with_below(['esc_desk'])
    libraries = dict.fromkeys(
        ['core', 'std', *(it for name in own for it in crates[name] if it not in crates)])
    words = [
        'check', '--crate-name', 'walks', 'src/lib.rt', '--links', 'walks=', '--jobs', '1',
        '--only', ''
    ]
    words += [
        '--antt-project', f'{kit}/rattle/logic/antt-project.json', '--logic-built',
        f'{kit}/logic_built'
    ]
    for name in libraries:
        words += ['--extern', f'{name}={kit}/rlibs/{name}.rlib']
    for name in own:
        words += [
            '--lib',
            f'{name}:{",".join(["core", "std", *crates[name]])}={TOP}/crates/{name}/src/lib.rt'
        ]
    return [*words, '-L', f'dependency={kit}/rlibs']


def said_of(kit: pathlib.Path, text: str) -> list[str]:
    """What the compiler says of a crate of one file over the desk, line by line, without its
    notes."""
    with tempfile.TemporaryDirectory(prefix='walks-') as crate:
        source = pathlib.Path(crate, 'src', 'lib.rt')
        source.parent.mkdir()
        source.write_text(text)
        ran = subprocess.run([f'{kit}/bin/rattle', *words_over_desk(kit)], cwd=crate,
                             stdin=subprocess.DEVNULL, stdout=subprocess.PIPE,
                             stderr=subprocess.STDOUT, text=True, timeout=SECONDS)
    return [it.partition(': note')[0] for it in ran.stdout.splitlines()]


class Walks(unittest.TestCase):
    def test_an_arrival_during_a_walk_does_not_compile(self) -> None:
        command = shutil.which('rt')
        self.assertIsNotNone(command, 'the Rattle toolchain is missing: no command rt on the PATH')
        # The compiler looks at each function, and finds nothing wrong with the one whose arrival
        # comes after the walk.
        lines = PROGRAM.splitlines()
        after, during = (at for at, line in enumerate(lines, 1) if line == ARRIVAL)
        self.assertLess(after, during)
        said = said_of(pathlib.Path(command).resolve().parents[1], PROGRAM)
        self.assertEqual(said, [f'src/lib.rt:{during}:5: {REFUSED}'])

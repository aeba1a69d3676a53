"""python3 -m tests.run [--restore FILE] [--harness FILE] [--pack FILE] [--handover FILE] [NAME ..]:
plays the test cases on the programs `restore`, `desk_harness`, `pack` and `handover`: all of them,
or those whose file or title has one of these names in it. With --list their titles are printed
alone: what two trees list says what one has lost.

It runs from the top of the checkout. The programs are those that `rt ci` built there
(crates/restore/out/restore and so on), if no others are named.

A case is a folder of files, and command lines with the status, the standard output and the standard
error that they must give, or lines that desk_harness is told with the answer to each. It is written
in a transcript, tests/transcripts/FILE.txt (tests/support/transcripts.py has the form), or, where
code is needed, as a function `test_..` in tests/cases/FILE.py, whose docstring is its title, or in
the table CASES there, by its title. The tests in tests/unit/, which `python3 -m unittest` finds,
are of the tests' own parts, and of scripts: they need no program.

The cases are played side by side, RT_JOBS of them or one for each processor. Each that ends
otherwise is printed as FAILED, with the first line that did, what was wanted and what came. The
last line is `N passed, M failed`; the status is 0 where M is 0."""
import importlib
import multiprocessing
import os
import pathlib
import sqlite3
import sys
import textwrap
import traceback
import unittest
from collections.abc import Iterator
from dataclasses import dataclass
from typing import Callable

from tests.support import TESTS
from tests.support import TOP
from tests.support import arguments_of
from tests.support import built
from tests.support.stage import Failed
from tests.support.stage import Stage
from tests.support.transcripts import Misread
from tests.support.transcripts import read_transcripts

PROGRAMS = ('restore', 'desk_harness', 'pack', 'handover')


@dataclass(frozen=True)
class Case:
    file: str
    title: str
    play: Callable
    has_programs: bool = True

    def has(self, name: str) -> bool:
        return name in self.file or name in self.title


def cases_of_transcript(name: str) -> list[Case]:
    try:
        return [
            Case(name, it.title, it.play)
            for it in read_transcripts(f'{TESTS}/transcripts/{name}.txt')
        ]
    except (Misread, UnicodeDecodeError) as error:
        sys.exit(f'tests: {name}: {error}')


def title_of(play: Callable) -> str:
    """The first paragraph of a docstring."""
    return ' '.join(play.__doc__.partition('\n\n')[0].split()).rstrip('.')


def cases_of_module(name: str) -> list[Case]:
    module = vars(importlib.import_module(f'tests.cases.{name}'))
    cases = {title_of(play): play for of, play in module.items() if of.startswith('test_')}
    return [Case(name, title, play) for title, play in (cases | module.get('CASES', {})).items()]


def tests_in(suite: unittest.TestSuite) -> Iterator[unittest.TestCase]:
    for it in suite:
        yield from tests_in(it) if isinstance(it, unittest.TestSuite) else [it]


def case_of_test(test: unittest.TestCase) -> Case:
    """A test of unittest."""
    def play(_: Stage) -> None:
        result = unittest.TestResult()
        test.run(result)
        wrong = [
            *result.errors, *result.failures, *result.skipped,
            *((it, 'it passed') for it in result.unexpectedSuccesses)
        ]
        if wrong:
            raise Failed(wrong[0][1])
    file, _, title = test.id().removeprefix('tests.unit.').partition('.')
    return Case(file, title, play, has_programs=False)


def all_cases() -> list[Case]:
    found = []
    for files, cases_of in (('transcripts/*.txt', cases_of_transcript), ('cases/[!_]*.py',
                                                                         cases_of_module)):
        found += [
            case for it in sorted(pathlib.Path(TESTS).glob(files)) for case in cases_of(it.stem)
        ]
    units = unittest.defaultTestLoader.discover(f'{TESTS}/unit', top_level_dir=TOP)
    return found + [case_of_test(it) for it in tests_in(units)]


class Player:
    """A process that plays cases. It is forked, and has them from its beginning."""
    cases: list[Case] = []
    programs: dict[str, str] = {}

    @classmethod
    def begin(cls, cases: list[Case], programs: dict[str, str]) -> None:
        cls.cases, cls.programs = cases, programs

    @classmethod
    def failure_at(cls, at: int) -> str | None:
        """Plays the case with this index, and gives why it failed, if it did."""
        try:
            with Stage(cls.programs) as stage:
                cls.cases[at].play(stage)
        except (Failed, OSError, sqlite3.Error) as failure:
            return f'{failure}'
        except Exception:
            return traceback.format_exc()
        return None


def count_passed(cases: list[Case], programs: dict[str, str]) -> int:
    """Plays cases, as many side by side as there are lanes, and tells in their order how each
    ended. Gives how many passed."""
    lanes, passed = int(os.environ.get('RT_JOBS') or os.cpu_count() or 1), 0
    players = multiprocessing.get_context('fork').Pool(lanes, Player.begin, (cases, programs))
    with players as pool:
        for case, failure in zip(cases, pool.imap(Player.failure_at, range(len(cases)))):
            passed += failure is None
            print(f'{case.file}: {case.title}:', 'passed' if failure is None else 'FAILED',
                  flush=True)
            if failure is not None:
                print(textwrap.indent(failure, '  '), flush=True)
    return passed


def main() -> int:
    arguments = arguments_of(__doc__)
    for name in PROGRAMS:
        arguments.add_argument(f'--{name.removeprefix("desk_")}', dest=name, default=built(name),
                               metavar='FILE')
    arguments.add_argument('--list', action='store_true')
    arguments.add_argument('names', nargs='*', metavar='NAME')
    given = arguments.parse_args()
    programs, cases = {it: os.path.abspath(getattr(given, it)) for it in PROGRAMS}, all_cases()
    for name in given.names:
        if not any(it.has(name) for it in cases):
            sys.exit(f'tests: no case has the name {name}')
    cases = [it for it in cases if not given.names or any(map(it.has, given.names))]
    if given.list:
        print(*sorted(f'{it.file}: {it.title}' for it in cases), sep='\n')
        return 0
    for program in programs.values():
        if any(it.has_programs for it in cases) and not os.access(program, os.X_OK):
            sys.exit(f'tests: there is no program {program}: `./check` builds it')
    passed = count_passed(cases, programs)
    print(f'{passed} passed, {len(cases) - passed} failed', flush=True)
    return 0 if passed == len(cases) else 1


if __name__ == '__main__':
    sys.exit(main())

"""The pages beside the programs: the commands in their blocks, as samples/run_book runs them, and
what the programs' help names. The commands of the runbook take long, and are run by hand."""
import functools
import pathlib
import re
import subprocess
import sys

from tests.support import TOP
from tests.support.stage import Failed
from tests.support.stage import Stage

BY_HAND = 'docs/RUNBOOK.md'
# A page that has commands which are run: with what they print, or as scripts.
HAS_COMMANDS = re.compile(r'^\$ |^```(sh|python)$', re.M)

# The page of each program, beside those of all.
OWN = {'restore': 'OPERATING', 'pack': 'PACK', 'handover': 'HANDOVER'}
OF_ALL = ('OPERATING', 'FORMATS')
CODE = re.compile(r'\b([A-Z])(\d+)(?: to \1(\d+))?\b')


def read_page(name: str) -> str:
    return pathlib.Path(TOP, 'docs', f'{name}.md').read_text('utf-8')


def check_page(stage: Stage, page: str) -> None:
    programs = [f'--{name}={stage.programs[name]}' for name in ('restore', 'pack', 'handover')]
    words = [sys.executable, f'{TOP}/samples/run_book', *programs, pathlib.Path(page).stem]
    ran = subprocess.run(words, capture_output=True, text=True)
    if ran.returncode or ran.stderr:
        raise Failed(f'{ran.stdout}{ran.stderr}')


def help_of(stage: Stage, program: str, *words: str) -> str:
    return stage.end(stage.begin([*words, '--help'], program)).out.decode()


def codes_of(text: str) -> set[str]:
    """The codes of the refusals that a help names: each of `U1 to U11`, and S1."""
    told = text.partition('Refusals go to')[2].partition('Status:')[0]
    return {
        f'{letter}{at}'
        for letter, first, last in CODE.findall(told) for at in range(int(first),
                                                                      int(last or first) + 1)
    }


def test_help(stage: Stage) -> None:
    """Each command, each code and each status of a program's help has its place on the pages"""
    for program, own in OWN.items():
        text, told = ''.join(map(read_page, {*OF_ALL, own})), help_of(stage, program)
        commands = re.findall(r'^  (\w\S*)',
                              told.partition('Commands:')[2].partition('Options:')[0], re.M)
        wanted = {
            it: rf'^(\$ |\| `)?{program} {it}\b|`{program} {it}\b'
            for it in commands if it != 'help'
        }
        codes = set().union(*(codes_of(help_of(stage, program, *it))
                              for it in ([], *([it] for it in wanted))))
        wanted |= {it: rf'^(#+ {it}$|\| `?{it}\b)' for it in codes}
        wanted |= {
            f'status {it}': rf'^\| {it} \|'
            for it in re.findall(r'\d',
                                 told.partition('Status:')[2])
        }
        wanted['-v'] = '`-v`'
        missing = sorted(it for it, form in wanted.items() if not re.search(form, text, re.M))
        missing += [
            f'the help of {it}' for it in commands
            if it != 'help' and '  -v, --verbose ' not in help_of(stage, program, it)
        ]
        if missing or len(commands) < 2 or not codes:
            raise Failed(f'{program}: no heading and no row has {missing}, of {sorted(wanted)}')


PAGES = [
    it for folder in ('', 'docs') for it in sorted(pathlib.Path(TOP, folder).glob('*.md'))
    if HAS_COMMANDS.search(it.read_text('utf-8'))
]
CASES = {f'The commands of {it} print what stands there': functools.partial(check_page, page=it)
         for it in (f'{path.relative_to(TOP)}' for path in PAGES) if it != BY_HAND}

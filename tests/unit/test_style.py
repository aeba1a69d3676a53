"""The style of the Python files, as pyproject.toml has it: columns, imports, types, and what a
linter finds; and that functions are short."""
import ast
import functools
import importlib.util
import pathlib
import re
import shutil
import subprocess
import sys
import unittest
from collections.abc import Iterator

from tests.support import TOP

FOLDERS = ('packaging', 'samples', 'trials', 'tests', 'bench')
CONFIGURATION = pathlib.Path(TOP, 'pyproject.toml').read_text('utf-8')
MOST_COLUMNS = int(re.search(r'^line-length = (\d+)$', CONFIGURATION, re.M)[1])
MOST_LINES = 40  # of a function


def is_python(path: pathlib.Path) -> bool:
    if path.suffix:
        return path.suffix == '.py'
    with open(path, 'rb') as file:
        return file.readline(64).rstrip() == b'#!/usr/bin/env python3'


def files() -> list[str]:
    found = (it for folder in FOLDERS for it in sorted(pathlib.Path(TOP, folder).rglob('*')))
    return [str(it.relative_to(TOP)) for it in found if it.is_file() and is_python(it)]


def text_of(path: str) -> str:
    return pathlib.Path(TOP, path).read_text('utf-8')


@functools.cache
def nodes_of(path: str) -> list[ast.AST]:
    """What a file is made of."""
    return list(ast.walk(ast.parse(text_of(path))))


def joined_imports(path: str) -> Iterator[int]:
    """The lines that import several names."""
    for it in nodes_of(path):
        if isinstance(it, (ast.Import, ast.ImportFrom)) and len(it.names) > 1:
            yield it.lineno


def lacks_type(function: ast.FunctionDef) -> bool:
    """Whether a parameter has no type, but for the object itself, or the result has none."""
    its = function.args
    named = [it for it in (*its.posonlyargs, *its.args, *its.kwonlyargs, its.vararg, its.kwarg)
             if it and it.arg not in ('self', 'cls')]
    return function.returns is None or any(it.annotation is None for it in named)


def linter() -> list[str] | None:
    """The command of a linter, if there is one."""
    if shutil.which('ruff'):
        return ['ruff', 'check', '--quiet', '--no-cache', '.']
    if importlib.util.find_spec('pyflakes'):
        return [sys.executable, '-m', 'pyflakes', *files()]
    return ['pyflakes3', *files()] if shutil.which('pyflakes3') else None


class Style(unittest.TestCase):
    def test_lines_have_their_columns(self) -> None:
        wide = [f'{it}:{number}' for it in files()
                for number, line in enumerate(text_of(it).split('\n'), 1)
                if len(line) > MOST_COLUMNS]
        self.assertEqual(wide, [])

    def test_there_is_one_import_a_line(self) -> None:
        joined = [f'{it}:{line}' for it in files() for line in joined_imports(it)]
        self.assertEqual(joined, [])

    def test_functions_are_short(self) -> None:
        long = [f'{path}:{it.lineno}' for path in files() for it in nodes_of(path)
                if isinstance(it, ast.FunctionDef) and it.end_lineno - it.lineno >= MOST_LINES]
        self.assertEqual(long, [])

    def test_signatures_have_types(self) -> None:
        untyped = [f'{path}:{it.lineno}' for path in files() for it in nodes_of(path)
                   if isinstance(it, ast.FunctionDef) and lacks_type(it)]
        self.assertEqual(untyped, [])

    def test_no_state_is_global(self) -> None:
        found = [f'{path}:{it.lineno}' for path in files() for it in nodes_of(path)
                 if isinstance(it, (ast.Global, ast.Nonlocal))]
        self.assertEqual(found, [])

    def test_a_linter_finds_nothing(self) -> None:
        words = linter()
        if words is None:
            print('style: neither ruff nor pyflakes is installed: no linter was run', flush=True)
            return
        ran = subprocess.run(words, cwd=TOP, capture_output=True, text=True)
        self.assertEqual((ran.stdout + ran.stderr).splitlines(), [])

"""What the test cases, the trials and the benchmarks share: the modules of this folder, where the
programs are, and the words of scripts."""
import argparse
import os

TESTS = os.path.dirname(os.path.dirname(os.path.abspath(__file__)))
TOP = os.path.dirname(TESTS)


def built(name: str) -> str:
    """Where a program is that was built in this checkout."""
    return f'{TOP}/crates/{name}/out/{name}'


def program(path: str) -> str:
    """A program that a script is given, which must be there."""
    if not os.access(path, os.X_OK):
        raise argparse.ArgumentTypeError(f'there is no program {path}')
    return os.path.abspath(path)


def arguments_of(doc: str | None) -> argparse.ArgumentParser:
    """The arguments of a script with this docstring, which is its help."""
    return argparse.ArgumentParser(description=doc,
                                   formatter_class=argparse.RawDescriptionHelpFormatter)


def arguments_over_restore(doc: str | None) -> argparse.ArgumentParser:
    """The same of a script that runs `restore`: the one that was built in this checkout, if no
    other is named."""
    arguments = arguments_of(doc)
    arguments.add_argument('--restore', type=program, default=built('restore'), metavar='PROGRAM')
    return arguments

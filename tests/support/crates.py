"""The crates of this checkout, by crates.txt: of each the libraries that it uses."""
import functools
import pathlib
from collections.abc import Iterable

from tests.support import TOP


@functools.cache
def listed() -> dict[str, list[str]]:
    lines = (it.partition(':') for it in pathlib.Path(TOP, 'crates.txt').read_text().splitlines()
             if it and not it.startswith('#'))
    return {name.strip(): uses.split() for name, _, uses in lines}


def with_below(names: Iterable[str]) -> list[str]:
    """Some crates and all crates below them, the lowest first."""
    found = set(names)
    for crate, uses in reversed(listed().items()):
        found |= set(uses) if crate in found else set()
    return [it for it in listed() if it in found]

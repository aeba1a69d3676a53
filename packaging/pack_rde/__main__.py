#!/usr/bin/env python3
"""pack_rde: writes a Full of RFC 8909 of a registry's tables. The way back of unpack_rde, which
stands beside it and has the table of names."""
import importlib
import importlib.util
import pathlib
import sys

# What it has of unpack_rde: each module after those that it needs.
SHARED = ('faults', 'keys', 'limits', 'names', 'writing')
FOLDER = pathlib.Path(__file__).resolve().parent.parent / 'unpack_rde'


def load(name: str) -> None:
    """Loads a module of unpack_rde, by its place: others may have such a name."""
    spec = importlib.util.spec_from_file_location(name, FOLDER / f'{name}.py')
    module = sys.modules[name] = importlib.util.module_from_spec(spec)
    spec.loader.exec_module(module)


for it in SHARED:
    if it not in sys.modules:
        load(it)
main = importlib.import_module('packing.program').main

if __name__ == '__main__':
    sys.exit(main())

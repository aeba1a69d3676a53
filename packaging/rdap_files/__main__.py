#!/usr/bin/env python3
"""rdap_files: writes the answers of RDAP (RFC 9083) of a registry's tables as files, which any web
server serves. It stands beside unpack_rde and pack_rde, and reads tables as pack_rde does."""
import importlib
import importlib.util
import pathlib
import sys

COMPANIONS = pathlib.Path(__file__).resolve().parent.parent
# What it has of unpack_rde, each module after those that it needs; and of pack_rde the package that
# reads tables and collects what is told.
SHARED = {
    **{it: f'unpack_rde/{it}.py' for it in ('faults', 'keys', 'limits', 'names', 'progress')},
    'packing': 'pack_rde/packing/__init__.py'
}


def load(name: str) -> None:
    """Loads a module of a companion, by its place: others may have such a name."""
    spec = importlib.util.spec_from_file_location(name, COMPANIONS / SHARED[name])
    module = sys.modules[name] = importlib.util.module_from_spec(spec)
    spec.loader.exec_module(module)


for it in SHARED:
    if it not in sys.modules:
        load(it)
main = importlib.import_module('rdap.program').main

if __name__ == '__main__':
    sys.exit(main())

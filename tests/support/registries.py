"""Deposits of registries that look real (samples/making/registry.py): Fulls, and Differentials or
Incrementals on these."""
from samples.making.registry import NUMBERS
from samples.making.registry import TABLES
from samples.making.registry import Registry
from samples.making.registry import csv_text
from samples.making.registry import deposit

# What others have of the samples by this module, and its own.
__all__ = ('NUMBERS', 'TABLES', 'Registry', 'csv_text', 'delta', 'deposit', 'full')
# How many rows a registry of the usual numbers has.
ROWS = 95_500


def full(seed: int | float, rows: int, id: str, watermark: str, flat: bool = False,
         words: int = 0) -> tuple[Registry, bytes]:
    """A registry of a seed, and a Full of its objects with so many rows, or a few less. Where it is
    flat each row is an object."""
    objects = sum(NUMBERS.values())
    share = rows / (objects if flat else ROWS)
    numbers = {kind: max(2, int(count * share)) for kind, count in NUMBERS.items()}
    registry = Registry(seed, numbers, words)
    tables = registry.rows_of(registry.objects)
    if flat:
        tables = {name: its for name, its in tables.items() if TABLES[name][1] == 'parent'}
    for its in tables.values():
        registry.random.shuffle(its)
    counts = {kind: len(its) for kind, its in registry.objects.items()}
    return registry, deposit({'id': id, 'type': 'FULL', 'watermark': watermark}, tables, {}, counts)


def delta(registry: Registry, header: dict[str, object], touch: int) -> bytes:
    """A deposit of so many objects: a half changed, a third new, the rest deleted."""
    there: dict[str, list[str]] = {}
    gone: dict[str, list[str]] = {}
    done = set()
    for _ in range(touch):
        kind = registry.random.choices(['domain', 'contact', 'host'], [6, 3, 1])[0]
        share = registry.random.random()
        key = registry.add(kind) if 0.5 <= share < 0.83 else registry.some(kind)
        if key in done:
            key = registry.add(kind)
        elif share < 0.5:
            registry.change(kind, key)
        done.add(key)
        (gone if share >= 0.83 else there).setdefault(kind, []).append(key)
    return deposit(header, registry.rows_of(there), gone, {})

"""The tables and fields that answers are made of, in the folder that `handover tables` writes. No
other table is opened, and no other field goes further: no contact is there to be published."""
import csv
import os
import re

from faults import Refusal
from packing.tables import KEY
from packing.tables import KINDS
from packing.tables import SUFFIX
from packing.tables import Rows
from packing.tables import TablesFolder
from packing.tables import Unordered

# Of each table the fields that it has to have if it has rows, and those that it may have.
WANTED = {
    'registrar': (('name',), ('gurid', 'crDate', 'upDate')),
    'host': ((), ('roid', 'crDate', 'upDate', 'trDate')),
    'hostStatuses': (('status',), ()),
    'hostAddresses': (('addr',), ()),
    'domain': (('clID', 'crDate', 'exDate'), ('roid', 'upDate', 'trDate')),
    'domainStatuses': (('status',), ('rgpStatus',)),
    'domainNs': (('hostName',), ()),
    'domainHostAttr': (('hostName', 'addr'), ()),
}
# The names that RFC 9022 gives to two of them.
OTHER_NAMES = {'domainNameServers': 'domainNs', 'domainNameServersAddresses': 'domainHostAttr'}


def looks_like(name: str, wanted: str) -> bool:
    """Whether a name is another one but for case, `.`, `_` and `-`, and an `f` before it."""
    plain = re.sub('[._-]', '', name).lower()
    return OTHER_NAMES.get(name) == wanted or plain in (wanted.lower(), f'f{wanted.lower()}')


class Tables(TablesFolder):
    """The folder, whose wanted tables have the wanted fields under these names."""

    def __init__(self, path: str) -> None:
        super().__init__(path)
        there = super().names()
        if not set(KINDS) <= set(there):
            what = 'it is no folder of handover tables, which has a file for each kind'
            raise Refusal(path, what)
        for wanted in WANTED:
            self.check_name(path, wanted, there)
        for table in self.names():
            self.check_fields(table)

    def names(self) -> list[str]:
        return [it for it in super().names() if it in WANTED]

    def rows(self, table: str) -> Rows:
        """The rows of a wanted table, with their wanted fields alone."""
        fields = {it for its in WANTED[table] for it in its}
        try:
            for key, cells in super().rows(table):
                yield key, {name: text for name, text in cells.items() if name in fields}
        except Unordered:
            path = os.path.join(self.path, table + SUFFIX)
            raise Refusal(path, 'its rows are not in the order of their keys') from None

    @staticmethod
    def check_name(where: str, wanted: str, there: list[str]) -> None:
        """Without this refusal an answer would lack what stands under another name."""
        if wanted not in there:
            for it in there:
                if looks_like(it, wanted):
                    raise Refusal(where, f'{it} looks like {wanted}, which is not there')

    def check_fields(self, table: str) -> None:
        path = os.path.join(self.path, table + SUFFIX)
        needed, others = WANTED[table]
        try:
            with open(path, encoding='utf-8', newline='') as file:
                rows = csv.reader(file, strict=True)
                heading = next(rows, [])
                has_rows = next(rows, None) is not None
        except (UnicodeDecodeError, csv.Error) as error:
            raise Refusal(path, f'it cannot be read: {error}') from None
        for it in (*needed, *others):
            self.check_name(path, it, heading)
        lacking = [it for it in needed if it not in heading]
        if heading[:1] == [KEY] and has_rows and lacking:
            raise Refusal(path, f'it has no {" and no ".join(lacking)}')

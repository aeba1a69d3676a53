"""Registry objects at random, as documents.py writes them into escrow deposits, and as they are
read from a folder."""
import csv
import json
import os
import string
from collections.abc import Callable
from collections.abc import Iterable
from collections.abc import Iterator
from collections.abc import Sequence
from random import Random
from typing import TypedDict
from typing import TypeVar

from tests.support.documents import KEYS
from tests.support.documents import Cells
from tests.support.documents import Object

It = TypeVar('It')
# The rows of an object in an order of their own, each with its cells that aren't empty.
Told = list[tuple[str, list[tuple[str, str]]]]
# A table and a description, as `pack bundle` takes them.
DescribedTable = TypedDict('DescribedTable', {
    'name': str, 'kind': str, 'role': str, 'key': str, 'fields': list[str], 'file': str,
    'from': list[str], 'heading': bool
})
Description = TypedDict('Description', {
    'id': str, 'type': str, 'watermark': str, 'prevId': str, 'tld': str, 'notes': list[str],
    'counts': dict[str, int], 'series': dict[str, str | int],
    'contents': list[DescribedTable], 'deletes': list[DescribedTable]
})

# What texts are made of: letters of several alphabets, and what means something in XML or CSV.
LETTERS = string.ascii_letters + 'éßЖ漢\U0001f600'
ODD = ' \t\n\r,;|"\'<>&-]\\#\u2028\ufeff'
DOMAIN_STATUSES = ('ok', 'clientHold', 'serverHold', 'inactive', 'pendingDelete')
OTHER_STATUSES = ('ok', 'linked', 'clientDeleteProhibited')
DISCLOSED = [
    f'disclose{it}' for it in ('NameInt', 'NameLoc', 'OrgInt', 'OrgLoc', 'AddrInt', 'AddrLoc',
                               'Voice', 'Fax', 'Email')
]
RGP_STATUSES = ('redemptionPeriod', 'pendingDelete', 'pendingRestore')


class Maker:
    """Makes objects of a registry, whose keys are each there once."""

    def __init__(self, random: Random) -> None:
        self.random, self.last = random, 0

    def id(self, letter: str) -> str:
        self.last += 1
        return f'{letter}{self.last}'

    def text(self, most: int = 12) -> str:
        """A text that doesn't begin or end with white space."""
        pick = self.random.choice
        inner = ''.join(pick(LETTERS + ODD) for _ in range(self.random.randrange(most)))
        return pick(LETTERS) + inner + pick(LETTERS)

    def token(self) -> str:
        return ''.join(
            self.random.choice(string.ascii_letters + string.digits)
            for _ in range(self.random.randint(1, 8)))

    def moment(self) -> str:
        pick = self.random.randint
        day = f'{pick(1999, 2030)}-{pick(1, 12):02}-{pick(1, 28):02}'
        return f'{day}T{pick(0, 23):02}:{pick(0, 59):02}:{pick(0, 59):02}.0Z'

    def some(self, **makers: Callable[[], str]) -> Cells:
        """Each of these fields, or not."""
        return {name: make() for name, make in makers.items() if self.random.random() < 0.6}

    def many(self, make: Callable[[], It], most: int = 3) -> list[It]:
        return [make() for _ in range(self.random.randint(0, most))]

    def history(self, *more: str) -> Cells:
        dates: dict[str, Callable[[], str]] = dict.fromkeys(
            ('crDate', 'upDate', 'trDate', *more), self.moment)
        who = self.some(crRr=self.token, upRr=self.token)
        who.update({f'{it[:2]}ID': self.token() for it in list(who) if self.random.random() < 0.5})
        return {
            'clID': self.token(),
            **who,
            **self.some(**dates)
        }

    def address(self, front: str = '') -> Cells:
        streets = {f'{front}street.{at}': self.text() for at in range(self.random.randint(0, 3))}
        others: dict[str, Callable[[], str]] = {f'{front}sp': self.text, f'{front}pc': self.token}
        return {
            **streets, f'{front}city': self.text(),
            **self.some(**others), f'{front}cc': 'FR'
        }

    def phones(self) -> Cells:
        phones = self.some(voice=self.token, fax=self.token)
        return {
            **phones,
            **{f'{it}Ext': self.token()
               for it in list(phones) if self.random.random() < 0.5}
        }

    def statuses(self, values: Sequence[str]) -> list[Cells]:
        return [{'status': it, **self.some(statusDescription=self.text, lang=lambda: 'en')}
                for it in self.random.sample(values, self.random.randint(1, 3))]

    def transfers(self, **more: Callable[[], str]) -> list[Cells]:
        if self.random.random() < 0.7:
            return []
        return [{
            'trStatus': 'pending',
            'reRr': self.token(),
            'reDate': self.moment(),
            'acRr': self.token(),
            'acDate': self.moment(),
            **self.some(reID=self.token, acID=self.token, **more)
        }]

    def registrar(self) -> Object:
        cells = {
            'id': self.id('R'),
            'name': self.text(),
            **self.some(gurid=lambda: self.id('9'), status=lambda: 'ok'),
            **self.phones(),
            **self.some(email=self.token, url=self.text, whoisUrl=self.text, crDate=self.moment,
                        upDate=self.moment)
        }
        for front in ('', 'loc.'):
            if self.random.random() < 0.5:
                cells.update(self.address(front))
        return [('registrar', cells)]

    def idn(self) -> Object:
        return [('idn', {'idnTableId': self.id('L'), 'url': self.text()})]

    def contact(self) -> Object:
        cells = {
            'id': self.id('C'),
            'roid': self.id('CR'),
            'email': self.token(),
            **self.phones(),
            **self.history()
        }
        postal = [{
            'postalType': form,
            'name': self.text(),
            **self.some(org=self.text),
            **self.address()
        } for form in ('int', 'loc')]
        return [('contact', cells), *(('contactStatuses', it)
                                      for it in self.statuses(OTHER_STATUSES)),
                *(('contactPostal', it) for it in postal[:self.random.randint(1, 2)]),
                *(('contactTransfer', it) for it in self.transfers()), *([
                    ('contactDisclose',
                     {'discloseFlag': '0', **self.some(**dict.fromkeys(DISCLOSED, lambda: '1'))})
                ] if self.random.random() < 0.4 else [])]

    def host(self) -> Object:
        cells = {'name': f'{self.id("Ns")}.example', 'roid': self.id('HR'), **self.history()}
        return [('host', cells), *(('hostStatuses', it) for it in self.statuses(OTHER_STATUSES)),
                *(('hostAddresses', {'addr': self.token(), 'addrVersion': 'v4'})
                  for _ in range(self.random.randint(0, 3)))]

    def key_data(self) -> Cells:
        return {it: self.token() for it in ('flags', 'protocol', 'keyAlg', 'pubKey')}

    def secured(self) -> list[Cells]:
        if self.random.random() < 0.6:
            return []
        life = self.some(maxSigLife=self.token)
        ds = [{it: self.token()
               for it in ('keyTag', 'dsAlg', 'digestType', 'digest')}
              for _ in range(self.random.randint(1, 2))]
        rows = [{**it, **(self.key_data() if self.random.random() < 0.3 else {})}
                for it in ds] if self.random.random() < 0.5 else [self.key_data()]
        return [{**life, **it} for it in rows]

    def served(self, hosts: Sequence[str]) -> Object:
        if self.random.random() < 0.7:
            return [('domainNs', {'hostName': it})
                    for it in self.random.sample(hosts, self.random.randint(0, min(3, len(hosts))))]
        return [('domainHostAttr', {
            'hostName': f'{self.id("ns")}.example',
            **({
                'addr': self.token(),
                'addrVersion': 'v6'
            } if it else {})
        }) for it in self.many(lambda: self.random.random() < 0.5)]

    def domain(self, hosts: Sequence[str]) -> Object:
        cells = {
            'name': f'{self.id("Dom")}.example',
            'roid': self.id('DR'),
            **self.history('exDate'),
            **self.some(uName=self.text, idnTableId=self.token, originalName=self.token,
                        registrant=self.token)
        }
        rgp = [{'rgpStatus': it, **self.some(statusDescription=self.text, lang=lambda: 'en')}
               for it in RGP_STATUSES if self.random.random() < 0.2]
        return [('domain', cells), *(('domainStatuses', it)
                                     for it in [*self.statuses(DOMAIN_STATUSES), *rgp]),
                *(('domainContacts', it)
                  for it in self.many(lambda: {'contactId': self.token(), 'contactType': 'admin'})),
                *self.served(hosts), *(('secDNS', it) for it in self.secured()),
                *(('domainTransfer', it) for it in self.transfers(exDate=self.moment))]

    def nndn(self) -> Object:
        cells = {
            'aName': f'{self.id("n")}.example',
            'nameState': 'mirrored',
            **self.some(uName=self.text, idnTableId=self.token, originalName=self.token,
                        mirroringNS=lambda: 'false', crDate=self.moment)
        }
        return [('nndn', cells)]


def some_objects(random: Random, most: int = 6) -> list[Object]:
    maker = Maker(random)
    hosts = maker.many(maker.host, most)
    names = [it[0][1]['name'] for it in hosts]
    return [
        *maker.many(maker.registrar, most), *maker.many(maker.idn, most),
        *maker.many(maker.contact, most), *hosts, *maker.many(lambda: maker.domain(names), most),
        *maker.many(maker.nndn, most)
    ]


def told(rows: Iterable[tuple[str, Cells]]) -> Told:
    """The rows of an object, in an order of their own, each with the cells that aren't empty."""
    return sorted((table, sorted((name, value) for name, value in cells.items() if value))
                  for table, cells in rows)


def as_written(objects: Iterable[Object]) -> dict[tuple[str, str], Told]:
    found: dict[tuple[str, str], Told] = {}
    for rows in objects:
        kind, parent = rows[0]
        key = {KEYS[kind]: parent[KEYS[kind]]}
        found[kind, parent[KEYS[kind]]] = told((table, {**key, **cells}) for table, cells in rows)
    return found


def rows_in(folder: str, table: DescribedTable) -> Iterator[Cells]:
    """The rows of a declared table, each with its fields by their names."""
    for name in table['from']:
        with open(os.path.join(folder, name), encoding='utf-8', newline='') as file:
            rows = list(csv.reader(file, strict=True))
        if rows[0] != table['fields']:
            raise AssertionError(f'{name} begins with {rows[0]}')
        yield from (dict(zip(table['fields'], row, strict=True)) for row in rows[1:])


def description_in(folder: str) -> Description:
    with open(os.path.join(folder, 'envelope.json'), encoding='utf-8') as file:
        return json.load(file)


def folders_in(folder: str) -> list[str]:
    """The folders for `pack bundle` in one that was written: itself, or those of its parts in their
    order."""
    parts = sorted(it for it in os.listdir(folder) if it.startswith('part-'))
    return [os.path.join(folder, it) for it in parts] or [folder]


def objects_in(folder: str) -> tuple[dict[tuple[str, str], Told], dict[str, list[str]]]:
    """The objects that a folder for `pack bundle` has, by kind and key, and the keys of its deletes
    by kind."""
    described = description_in(folder)
    found: dict[tuple[str, str], list[tuple[str, Cells]]] = {}
    for table in described['contents']:
        for row in rows_in(folder, table):
            found.setdefault((table['kind'], row[table['key']]), []).append((table['name'], row))
    deleted = {
        table['kind']: [row[table['key']] for row in rows_in(folder, table)]
        for table in described['deletes']
    }
    return {key: told(rows) for key, rows in found.items()}, deleted

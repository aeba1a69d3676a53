"""Tests of samples/make_large: what it makes of so many domains, as bundles and as a document."""
import csv
import os
import subprocess
import sys
import tempfile
import unittest
from collections import Counter

from tests.support import TOP
from tests.support.acceptance import Seen
from tests.support.acceptance import is_accepted
from tests.support.acceptance import tests_of
from tests.support.escrow import objects_in
from tests.support.files import read
from tests.support.formats import deposit
from tests.support.formats import read_record
from tests.support.model import Desk
from tests.support.unpacking import Unpacked


def made(folder: str, *words: str) -> str:
    subprocess.run([sys.executable, f'{TOP}/samples/make_large', *words, f'{folder}/made'],
                   check=True)
    return f'{folder}/made'


def filled(record: bytes) -> list:
    """The rows of an object, in an order of their own, each with the cells that aren't empty."""
    return sorted(
        (table, sorted(it for it in cells if it[1])) for table, cells in read_record(record))


class Thick(unittest.TestCase):
    def test_its_bundles_and_its_document_have_the_same_objects(self) -> None:
        with tempfile.TemporaryDirectory() as folder:
            out = made(folder, '--domains', '150')
            bodies = [read(f'{out}/deposits/{it}') for it in sorted(os.listdir(f'{out}/deposits'))]
            desk = Desk(read(f'{out}/manifest.csv'),
                        [(f'n{at}', it) for at, it in enumerate(bodies)])
            self.assertEqual({it.verdict for it in desk.receipts.values()}, {'A1'})
            self.assertEqual({kind: number
                              for kind, number in deposit(bodies[-1]).counts.items()},
                             dict(Counter(kind for kind, _ in desk.objects)))
            tests = list(tests_of(Seen(desk)))
            self.assertTrue(is_accepted(tests), tests)
        with tempfile.TemporaryDirectory() as folder:
            (document,) = os.listdir(made(folder, '--domains', '150', '--xml'))
            found = Unpacked(folder, read(f'{folder}/made/{document}'))
            self.assertEqual((found.status, found.lines), (0, []))
            objects, _ = objects_in(found.out)
        wanted = {(kind, key.decode()): filled(record)
                  for (kind, key), record in desk.objects.items()}
        self.assertEqual(objects, wanted)

    def test_links_lead_to_objects(self) -> None:
        with tempfile.TemporaryDirectory() as folder:
            (document,) = os.listdir(made(folder, '--domains', '40', '--xml'))
            found = Unpacked(folder, read(f'{folder}/made/{document}'))
            rows = {}
            for name in ('registrar', 'contact', 'host', 'domain', 'domainContacts', 'domainNs'):
                with open(f'{found.out}/{name}.csv', encoding='utf-8', newline='') as file:
                    rows[name] = list(csv.DictReader(file))
        keys = {
            kind: {it[key]
                   for it in rows[kind]}
            for kind, key in (('registrar', 'id'), ('contact', 'id'), ('host', 'name'))
        }
        for table, field, kind in (('domain', 'clID', 'registrar'), ('domain', 'registrant',
                                                                     'contact'), ('host', 'clID',
                                                                                  'registrar'),
                                   ('domainContacts', 'contactId',
                                    'contact'), ('domainNs', 'hostName', 'host')):
            self.assertLessEqual({it[field] for it in rows[table]}, keys[kind])

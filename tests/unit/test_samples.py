"""Tests of the samples: a whole one may be taken over, and all are valid by RFC 9022 as they
are."""
import subprocess
import sys
import tempfile
import unittest

from tests.support import TOP
from tests.support.acceptance import Seen
from tests.support.acceptance import tests_of
from tests.support.formats import read_record
from tests.support.releases import SAMPLES
from tests.support.tables import write_tables

PACK_RDE = (sys.executable, f'{TOP}/packaging/pack_rde', '--id', 'F6', '--watermark',
            '2024-03-10T00:00:00Z', '--tld', 'example')


class Samples(unittest.TestCase):
    def test_a_whole_one_passes_each_test_of_the_plain_model(self) -> None:
        for name in ('the first sample', 'the whole release'):
            with self.subTest(name):
                tests = tests_of(Seen(SAMPLES[name].desk()))
                self.assertEqual([test for test, passes, _ in tests if not passes], [])

    def test_pack_rde_writes_each_as_it_is(self) -> None:
        for name, release in SAMPLES.items():
            objects = [[(table, dict(cells)) for table, cells in read_record(it)]
                       for it in release.desk().objects.values()]
            with self.subTest(name), tempfile.TemporaryDirectory() as folder:
                write_tables(f'{folder}/tables', objects)
                ran = subprocess.run([*PACK_RDE, f'{folder}/tables', f'{folder}/out'],
                                     capture_output=True, text=True)
                self.assertEqual((ran.returncode, ran.stderr), (0, ''))

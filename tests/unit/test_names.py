"""The names of the contracts: what specs/ define publicly is defined in one file, so that a name
has one meaning in all crates."""
import collections
import pathlib
import re
import unittest

from tests.support import TOP

# `pub use` and `pub mod` define nothing. An operator may stand for what is done in order in one
# type and in another.
DEFINITION = re.compile(
    r'^(?:abbrev |unfoldable )?pub (?!use |mod )(?:record |data )?([^\s(:{\[◌]+) ', re.M)


class Names(unittest.TestCase):
    def test_each_is_defined_once(self) -> None:
        places = collections.defaultdict(set)
        for path in pathlib.Path(TOP).glob('crates/*/specs/**/*.antt'):
            for name in DEFINITION.findall(path.read_text()):
                places[name].add(str(path.relative_to(TOP)))
        self.assertGreater(len(places), 1_000)
        shared = {name: sorted(files) for name, files in places.items() if len(files) > 1}
        self.assertEqual({}, shared)

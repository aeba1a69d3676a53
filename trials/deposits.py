"""python3 -m trials.deposits [--cells N] [--registries N] [--seed N] SCHEMAS: holds what pack_rde
writes against the schemas of the RFCs, which trials/schemas.py made in the folder SCHEMAS.

Registries at random that are valid (samples/making/registry.py) are written in both models:
xmllint has to take each document. Then one cell after the other of a valid registry is given an odd
text: what pack_rde takes, xmllint has to take too. Where pack_rde alone refuses a text that is
counted: dates that are not in UTC, for one, or signs that XML can't have, and that are replaced.

It needs xmllint (Debian: libxml2-utils). The last line is `N alike, M refused here alone, wrong K`;
the status is 0 where K is 0."""
import argparse
import contextlib
import io
import pathlib
import random
import runpy
import shutil
import subprocess
import sys
import tempfile

from samples.making.registry import Registry
from samples.making.registry import TABLES
from tests.support import TOP
from tests.support.tables import in_tables
from tests.support.tables import write_tables

MAIN = runpy.run_path(f'{TOP}/packaging/pack_rde', run_name='pack_rde')['main']
WORDS = ('--id', 'F1', '--watermark', '2024-03-04T00:00:00Z', '--tld', 'example')
NUMBERS = {'registrar': 3, 'contact': 12, 'host': 8, 'domain': 24, 'idn': 2, 'nndn': 3}
# What a cell may be given: the limits of forms, and what is none.
TEXTS = (
    'x', 'ok', 'int', 'RAR-1', 'a b', '  a  b ', 'é', '\U0001f600', 'a\nb', 'a\x07', 'x' * 3,
    'x' * 16, 'x' * 17,
    'x' * 45, 'x' * 46, 'x' * 64, 'x' * 65, 'x' * 255, 'x' * 256, '0', '1', '-1', '+1', '01', '255',
    '256', '65535',
    '65536', '2147483647', '2147483648', '1.5', '1 ', '2021-02-28T00:00:00Z',
    '2021-02-29T00:00:00Z',
    '2021-01-01T24:00:00Z', '2021-01-01T00:00:60Z', '2021-01-01T00:00:00',
    '2021-01-01T00:00:00+01:00',
    '2021-01-01T00:00:00.123456789Z', '0000-01-01T00:00:00Z', '21-1-1', 'http://a.example/',
    'http://a b/', '1:2',
    'a:b', ':', '%zz', '%20', 'a#b', 'a#b#c', 'a?b?c', '//x/y', '/x:y', 'x/y:z', '?', '#',
    'http://é/', '<>', '{}',
    'a^b', 'mailto:x', '+1.5', '+1234.5', '+1.', '+999.12345678901234', '+1.123456789012345',
    'D1-EX', 'D_1-EX',
    'D-1-EX', 'D1-EXEXEXEXE', 'É1-EX', 'D1_EX', '-EX', 'D-', 'FR', 'FRA', 'F', 'en', 'en-US',
    'en_US', 'toolonglang',
    'true', 'false', 'yes', 'v4', 'v6', 'v5', 'AB', 'ABC', 'A B', 'AwEA', 'AwE', 'Aw==', 'A===',
    'A w E A', 'admin',
    'owner', 'pending', 'linked', 'clientHold', 'pendingRenew', 'addPeriod', 'blocked', 'mirrored',
    'readonly')


DAY, WHO = '2021-05-01T08:00:00Z', 'RAR-1'
HISTORY = {'clID': WHO, 'crRr': WHO, 'crID': 'client', 'crDate': DAY, 'upRr': WHO, 'upID': 'client',
           'upDate': DAY, 'trDate': DAY}
ADDRESS = {'street.0': 'x', 'street.1': 'x', 'street.2': 'x', 'city': 'x', 'sp': 'x', 'pc': 'x',
           'cc': 'FR'}
PHONES = {'voice': '+1.5', 'voiceExt': '1', 'fax': '+1.5', 'faxExt': '1'}
MOVED = {'trStatus': 'pending', 'reRr': WHO, 'reID': 'client', 'reDate': DAY, 'acRr': WHO,
         'acID': 'client', 'acDate': DAY}
DS = {'keyTag': '1', 'dsAlg': '13', 'digestType': '2', 'digest': 'AB'}
KEY = {'flags': '257', 'protocol': '3', 'keyAlg': '13', 'pubKey': 'AwEA'}
# Objects that have all fields there are.
RICH = [
    [('registrar', {'id': 'RAR-X', 'name': 'x', 'gurid': '1', 'status': 'ok', **PHONES, **ADDRESS,
                    **{f'loc.{it}': text for it, text in ADDRESS.items()}, 'email': 'x', 'url': 'x',
                    'whoisName': 'x', 'whoisUrl': 'x', 'crDate': DAY, 'upDate': DAY})],
    [('contact', {'id': 'C-X', 'roid': 'CX-EX', **PHONES, 'email': 'x', **HISTORY}),
     ('contactStatuses', {'status': 'ok', 'statusDescription': 'x', 'lang': 'en'}),
     ('contactPostal', {'postalType': 'int', 'name': 'x', 'org': 'x', **ADDRESS}),
     ('contactTransfer', MOVED),
     ('contactDisclose', {'discloseFlag': '1', 'discloseNameInt': '1', 'discloseVoice': '1'})],
    [('host', {'name': 'ns.example', 'roid': 'HX-EX', **HISTORY}),
     ('hostStatuses', {'status': 'ok'}),
     ('hostAddresses', {'addr': '192.0.2.1', 'addrVersion': 'v4'})],
    [('domain', {'name': 'x.example', 'roid': 'DX-EX', 'uName': 'x', 'idnTableId': 'x', **HISTORY,
                 'originalName': 'x', 'registrant': 'C-X', 'exDate': DAY}),
     ('domainStatuses', {'status': 'ok', 'statusDescription': 'x', 'lang': 'en'}),
     ('domainStatuses', {'rgpStatus': 'addPeriod', 'statusDescription': 'x', 'lang': 'en'}),
     ('domainContacts', {'contactId': 'C-X', 'contactType': 'tech'}),
     ('domainHostAttr', {'hostName': 'ns.example', 'addr': '192.0.2.1', 'addrVersion': 'v4'}),
     ('secDNS', {'maxSigLife': '1', **DS, **KEY}), ('domainTransfer', {**MOVED, 'exDate': DAY})],
    [('domain', {'name': 'y.example', 'roid': 'DY-EX', 'clID': WHO}),
     ('domainStatuses', {'status': 'ok'}),
     ('secDNS', KEY)],
    [('nndn', {'aName': 'z.example', 'uName': 'x', 'idnTableId': 'x', 'originalName': 'x',
               'nameState': 'mirrored', 'mirroringNS': '1', 'crDate': DAY})],
]


def packed(folder: pathlib.Path, out: pathlib.Path, *words: str) -> int:
    with contextlib.redirect_stdout(io.StringIO()), contextlib.redirect_stderr(io.StringIO()):
        return MAIN([*WORDS, *words, str(folder), str(out)])


class Trial:
    """Counts verdicts, and tells those that are wrong."""

    def __init__(self, schemas: pathlib.Path, room: pathlib.Path) -> None:
        self.schemas, self.room = schemas, room
        self.alike = self.alone = self.wrong = 0

    def is_valid(self, document: pathlib.Path) -> bool:
        words = ['xmllint', '--stream', '--noout', '--schema', self.schemas / 'all.xsd', document]
        return subprocess.run(words, capture_output=True).returncode == 0

    def tell_wrong(self, what: str) -> None:
        self.wrong += 1
        print(f'wrong: {what}', flush=True)

    def check_registry(self, objects: list) -> None:
        """A registry that has to be taken in both models."""
        folder = self.written(objects)
        for model in ('xml', 'csv'):
            out = self.room / f'whole.{model}'
            status = packed(folder, out, '--model', model)
            document = out if model == 'xml' else out / f'{out.name}.xml'
            if status or not self.is_valid(document):
                self.tell_wrong(f'a registry in {model}: status {status}')
            else:
                self.alike += 1
            shutil.rmtree(out) if out.is_dir() else out.unlink(missing_ok=True)

    def check_cell(self, objects: list, at: tuple[int, int], field: str, text: str) -> None:
        """A registry of which one cell has another text, at the place of an object and a row."""
        changed = [list(rows) for rows in objects]
        table, cells = changed[at[0]][at[1]]
        if text in in_tables(objects).get(table, ()):
            return None  # It might be the key of two objects.
        changed[at[0]][at[1]] = (table, {**cells, field: text})
        folder, out = self.written(changed), self.room / 'cell.xml'
        status = packed(folder, out)
        if status and packed(folder, out, '--anyway'):
            return self.tell_wrong(f'{table}.{field} {text!r}: it is not written anyway')
        is_valid = self.is_valid(out)
        out.unlink()
        self.alike += is_valid == (status == 0)
        self.alone += is_valid and status != 0
        if not is_valid and status == 0:
            self.tell_wrong(f'{table}.{field} {text!r}: pack_rde takes it, and xmllint does not')

    def written(self, objects: list) -> pathlib.Path:
        folder = self.room / 'tables'
        shutil.rmtree(folder, ignore_errors=True)
        write_tables(str(folder), objects)
        return folder


def registry_of(seed: int) -> list:
    made = Registry(seed, NUMBERS, 0)
    return [[(table, dict(zip(TABLES[table][2], row))) for table, row in rows]
            for its in made.objects.values() for rows in its.values()]


def main() -> int:
    arguments = argparse.ArgumentParser(description=__doc__,
                                        formatter_class=argparse.RawDescriptionHelpFormatter)
    arguments.add_argument('--cells', type=int, default=1_000, metavar='N')
    arguments.add_argument('--registries', type=int, default=10, metavar='N')
    arguments.add_argument('--seed', type=int, default=1, metavar='N')
    arguments.add_argument('schemas', type=pathlib.Path, metavar='SCHEMAS')
    given = arguments.parse_args()
    maker = random.Random(given.seed)
    with tempfile.TemporaryDirectory() as room:
        trial = Trial(given.schemas, pathlib.Path(room))
        for at in range(given.registries):
            trial.check_registry(registry_of(given.seed + at))
        objects = [*registry_of(given.seed)[:8], *RICH]
        for _ in range(given.cells):
            place = maker.randrange(len(objects))
            row = maker.randrange(len(objects[place]))
            field = maker.choice(sorted(objects[place][row][1]))
            trial.check_cell(objects, (place, row), field, maker.choice(('', *TEXTS)))
    print(f'{trial.alike} alike, {trial.alone} refused here alone, wrong {trial.wrong}')
    return int(trial.wrong > 0)


if __name__ == '__main__':
    sys.exit(main())

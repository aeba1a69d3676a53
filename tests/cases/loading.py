"""`handover tables --postgres`: what `load.sql` makes of the tables of registries, against a plain
model; and what PostgreSQL can't load. (trials/postgres.py has a PostgreSQL load it.)"""
import functools
import hashlib
import os
import shutil
from collections.abc import Callable

from tests.cases.handovers import CHILD
from tests.cases.handovers import FIRST
from tests.cases.handovers import check_contents_refused
from tests.cases.handovers import check_refused
from tests.cases.handovers import children
from tests.cases.handovers import contacts
from tests.cases.handovers import played_apart
from tests.cases.handovers import store_of
from tests.cases.tables import sheets_of
from tests.support.bundles import Table
from tests.support.documents import csv_text
from tests.support.files import read
from tests.support.formats import KINDS
from tests.support.releases import SAMPLES
from tests.support.releases import Release
from tests.support.stage import Stage
from tests.support.stage import Wanted
from tests.support.stage import compare
from tests.support.stage import compare_all
from tests.support.stores import run

LOAD = 'tables --store a.db --postgres out'
# The kinds that columns name objects of (FORMATS, links).
LINKS = {
    ('contact', 'clID'): 'registrar', ('host', 'clID'): 'registrar',
    ('domain', 'clID'): 'registrar', ('domain', 'registrant'): 'contact',
    ('domain', 'idnTableId'): 'idn',
    ('nndn', 'idnTableId'): 'idn', ('domainContacts', 'contactId'): 'contact',
    ('domainNs', 'hostName'): 'host'}

Sheets = dict[str, tuple[bool, list[str], list[tuple]]]


def statements_of(sheets: Sheets) -> list[str]:
    """The lines of `load.sql` from the first table on."""
    made, settled, kind = [], [], ''
    for name, (is_parent, columns, _) in sheets.items():
        kind = name if is_parent else kind
        fields = ''.join(f', "{it}" text' for it in columns)
        role = 'PRIMARY KEY' if is_parent else 'NOT NULL'
        made += [f'CREATE TABLE "{name}" ("key" text {role}{fields});',
                 f'\\copy "{name}" FROM \'{name}.csv\' '
                 "WITH (FORMAT csv, HEADER, ENCODING 'UTF8')"]
        if is_parent:
            made.append(f'COMMENT ON TABLE "{name}" IS \'The {kind} objects.\';')
        else:
            made += [f'ALTER TABLE "{name}" ADD FOREIGN KEY ("key") REFERENCES "{kind}";',
                     f'CREATE INDEX ON "{name}" ("key");',
                     f'COMMENT ON TABLE "{name}" IS \'Child rows of {kind} objects.\';']
        for it in columns:
            target = LINKS.get((name, it))
            what, last = ('refer', f", '{target}'") if target else ('settle', '')
            settled.append(f'CALL pg_temp.{what}(\'"{name}"\', \'{it}\'{last});')
    return [*made, *settled, '', 'COMMIT;']


def check_script(stage: Stage, release: Release) -> None:
    release.rebuild(stage)
    objects = release.desk().objects
    if not release.desk().steps:
        check_refused(stage, 'H7', LOAD)
        return
    run(stage, LOAD, 'handover')
    sheets = sheets_of(objects)
    files = [*(f'{it}.csv' for it in sheets), 'load.sql']
    compare_all('files', sorted([*files, 'sha256sums']), sorted(os.listdir(stage.at('out'))))
    compare_all('sums', (f'{hashlib.sha256(read(stage.at(f"out/{it}"))).hexdigest()}  {it}'
                         for it in files), read(stage.at('out/sha256sums')).decode().splitlines())
    lines = read(stage.at('out/load.sql')).decode().splitlines()
    first = next(at for at, it in enumerate(lines) if it.startswith('CREATE TABLE'))
    compare_all('statements', statements_of(sheets), lines[first:])
    compare('one transaction', '1 1', f'{lines.count("BEGIN;")} {lines.count("COMMIT;")}')
    shutil.rmtree(stage.at('out'))


CASES: dict[str, Callable[[Stage], None]] = {
    f'load.sql of {name}': functools.partial(check_script, release=it)
    for name, it in SAMPLES.items()
}
LONG = 'a' * 64
# The tables of a Full and of a Differential, of which PostgreSQL can't load one: by a name, a NUL,
# or a line at which psql stops.
UNLOADED = (
    ('H11 contact', (contacts(b'C1,c1\n', ('id', 'ctid')),)),
    ('H11 contact', (contacts(b'C1,c1\n', ('id', 'key')),)),
    ('H11 contact', (contacts(b'C1,c1\n', ('id', LONG)),)),
    (f'H11 {LONG}', (FIRST, children(b'C1\n', LONG, ('id',)))),
    ('H11 more', (FIRST, CHILD), (contacts(b'C2,X2\n'), children(b'C2,x\x00y\n'))),
    ('H11 contact', (contacts(csv_text((('C1', 'a\n\\.\nb'),), ',')),)),
    ('H11 contact', (contacts(csv_text((('C1', '\n\\.\r\n'),), ',')),)),
)
CASES['Tables that PostgreSQL can not load'] = played_apart(
    functools.partial(check_contents_refused, lines=(LOAD,)), UNLOADED)


def check_loaded(stage: Stage, *tables: Table) -> None:
    store_of(stage, tables)
    run(stage, LOAD, 'handover')
    shutil.rmtree(stage.at('out'))


# Tables that are near to those.
LOADED = (
    (contacts(b'C1,c1,c2\n', ('id', 'ID', 'Key')),),
    (contacts(b'C1,c1\n', ('id', LONG[1:])),),
    (contacts(csv_text((('C1', 'a\\.\n\\.b\n \\.\n\\..\n.'),), ',')),),
)
CASES['Tables that PostgreSQL can load'] = played_apart(check_loaded, LOADED)


def test_words(stage: Stage) -> None:
    """Words of `--postgres`, with a database too."""
    store_of(stage, (FIRST,))
    for line in ('tables --store a.db --postgres', 'tables --store a.db --postgres=yes out',
                 'tables --store a.db --postgres --postgres out'):
        stage.check(line, Wanted(2, '', None), program='handover')
    told = ''.join(f'{it}.csv: written\n' for it in KINDS)
    stage.check(f'{LOAD} --sqlite --progress', Wanted(
        0, '', f'opening a.db\n{told}load.sql: written\nregistry.sqlite: written\n'),
        program='handover')

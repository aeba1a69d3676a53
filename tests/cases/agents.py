"""From an agent's deposits to the registry: `unpack_rde`, `pack` and `restore` one after the
other."""
import csv
import io
import json
import os
import random
import subprocess
import sys
from collections.abc import Iterable
from collections.abc import Mapping
from collections.abc import Sequence

from tests.cases.handovers import clear
from tests.cases.large_files import WAY
from tests.support import TOP
from tests.support.documents import KEYS
from tests.support.documents import Object
from tests.support.documents import document
from tests.support.escrow import Told
from tests.support.escrow import as_written
from tests.support.escrow import folders_in
from tests.support.escrow import some_objects
from tests.support.escrow import told
from tests.support.files import read
from tests.support.formats import KINDS
from tests.support.stage import Failed
from tests.support.stage import Stage
from tests.support.stage import Wanted
from tests.support.stage import case
from tests.support.stage import compare_all
from tests.support.stores import run

# Objects by kind and key.
Objects = dict[tuple[str, str], Told]
# Kinds whose keys are told apart without regard to case.
LOWERED = ('host', 'domain')
FULL = {'id': 'F1', 'type': 'FULL', 'watermark': '2024-03-03T00:00:00Z'}


def check_same(wanted: Objects, found: Objects) -> None:
    for key in wanted.keys() | found.keys():
        if wanted.get(key) != found.get(key):
            raise Failed(f'{key}: wanted {wanted.get(key)}, got {found.get(key)}')


def rebuild(stage: Stage, *bundles: Iterable[str]) -> None:
    """Rebuilds a store from bundles in the folder of these."""
    stage.write('manifest.csv',
                run(stage, ' '.join(['manifest', *(f'bundles/{it}' for it in bundles)]), 'pack'))
    run(stage, 'init --store desk.db --manifest manifest.csv')
    run(stage, 'take --store desk.db bundles')


def restored(stage: Stage, *deposits: str) -> Objects:
    """The objects that are in a store after these deposits, each the folder of its description."""
    os.mkdir(stage.at('bundles'))
    bundles = []
    for name in deposits:
        for part in (os.path.relpath(it, stage.room.name) for it in folders_in(stage.at(name))):
            bundles.append(part.replace('/', '-'))
            run(stage, f'bundle --envelope {part}/envelope.json {part} bundles/{bundles[-1]}',
                'pack')
    rebuild(stage, *bundles)
    return exported(stage)


def exported(stage: Stage) -> Objects:
    """The objects of the store, by kind and key, as `export` prints them."""
    rows: dict[tuple[str, str], dict[tuple[str, str], dict[str, str]]] = {}
    for kind in KINDS:
        text = io.StringIO(run(stage, f'export --store desk.db {kind}').decode(), newline='')
        for _, key, table, row, field, value in list(csv.reader(text, strict=True))[1:]:
            rows.setdefault((kind, key), {}).setdefault((table, row), {})[field] = value
    return {
        key: told((table, cells) for (table, _), cells in its.items())
        for key, its in rows.items()
    }


def lowered(objects: Iterable[Object]) -> Objects:
    return {(kind, key.lower() if kind in LOWERED else key): rows
            for (kind, key), rows in as_written(objects).items()}


def unpacked(stage: Stage, header: Mapping[str, str], model: str, objects: Sequence[Object],
             deletes: Mapping[str, Sequence[str]] | None = None, words: Sequence[str] = (),
             **more: object) -> None:
    """Writes a deposit in a model, and unpacks it into a folder of its id."""
    name = header['id']
    os.mkdir(stage.at(f'{name}-files'))
    path = document(stage.at(f'{name}-files'), f'{name}.xml', header, objects, deletes or {}, {},
                    model, **more)
    ran = subprocess.run([sys.executable, f'{TOP}/packaging/unpack_rde', *words, path, name],
                         cwd=stage.room.name, capture_output=True)
    told = [it for it in ran.stderr.decode().splitlines() if ': a series of ' not in it]
    if ran.returncode or told:
        raise Failed(f'unpack_rde {name}: status {ran.returncode}: {ran.stderr}')


def test_models(stage: Stage) -> None:
    """Objects at random are restored as they were, from deposits of both models."""
    for seed in range(4):
        objects = some_objects(random.Random(f'restored {seed}'))
        for model in ('XML', 'CSV'):
            with case(f'seed {seed}, {model}'):
                unpacked(stage, FULL, model, objects)
                check_same(lowered(objects), restored(stage, 'F1'))
            clear(stage)


def test_changes(stage: Stage) -> None:
    """A Differential of files, on a Full of XML, changes and deletes objects."""
    first = some_objects(random.Random('changes'), most=9)
    hosts = {rows[0][1]['name']: rows[0][1]['roid'] for rows in first if rows[0][0] == 'host'}
    # Of each kind the first object is deleted, and the second one is replaced by one of the same
    # key.
    kinds = {kind: [it for it in first if it[0][0] == kind] for kind in KINDS}
    deletes = {kind: [its[0][0][1][KEYS[kind]]] for kind, its in kinds.items() if its}
    changed = [[(table, {**cells, 'uName': 'new'} if table in ('domain', 'nndn') else cells)
                for table, cells in its[1]] for kind, its in kinds.items() if len(its) > 1]
    unpacked(stage, FULL, 'XML', first)
    unpacked(stage,
             {'id': 'D2', 'type': 'DIFF', 'watermark': '2024-03-04T02:00:00+02:00', 'prevId': 'F1'},
             'CSV', changed, deletes, ['--known', 'F1'], roids=hosts)
    wanted = {**lowered(first), **lowered(changed)}
    for kind, (key,) in deletes.items():
        del wanted[kind, key.lower() if kind in LOWERED else key]
    check_same(wanted, restored(stage, 'F1', 'D2'))


def test_series(stage: Stage) -> None:
    """Deposits that are larger than one bundle are restored as they were, and what is based on
    them."""
    for seed, limit in enumerate((['--part-rows', '25'], ['--part-bytes', '1800'])):
        first, second = (some_objects(random.Random(f'series {seed} {it}'), most=9)
                         for it in range(2))
        hosts = {rows[0][1]['name']: rows[0][1]['roid'] for rows in first if rows[0][0] == 'host'}
        gone = {'domain': [rows[0][1]['name'] for rows in first if rows[0][0] == 'domain'][:2]}
        wanted = {**lowered(first), **lowered(second)}
        for name in gone.get('domain', []):
            wanted.pop(('domain', name.lower()), None)
        wanted |= lowered(second)
        for model in ('XML', 'CSV'):
            with case(f'seed {seed}, {model}'):
                unpacked(stage, FULL, model, first, words=limit)
                more = {
                    'type': 'DIFF',
                    'id': 'D2',
                    'prevId': 'F1',
                    'watermark': '2024-03-04T00:00:00Z'
                }
                unpacked(stage, more, model, second, gone, ['--known', 'F1', *limit], roids=hosts)
                check_same(wanted, restored(stage, 'F1', 'D2'))
            clear(stage)


def test_bare_files(stage: Stage) -> None:
    """Bare CSV files with their description, larger than one bundle, are restored as they were."""
    for seed in range(2):
        objects = some_objects(random.Random(f'bare {seed}'), most=9)
        with case(f'seed {seed}'):
            unpacked(stage, FULL, 'XML', objects)
            words = [
                sys.executable, f'{TOP}/packaging/unpack_rde', '--described', '--part-rows', '20',
                'F1', 'parts'
            ]
            subprocess.run(words, cwd=stage.room.name, check=True, capture_output=True)
            os.mkdir(stage.at('bundles'))
            run(stage, 'series parts bundles/F1', 'pack')
            rebuild(stage, *sorted(os.listdir(stage.at('bundles'))))
            check_same(lowered(objects), exported(stage))
        clear(stage)


def test_described_by_headings(stage: Stage) -> None:
    """A file that is larger than a bundle may be is described by its heading, and restored."""
    rows = {f'd{at}.example': f'{at}' * 250_000 for at in range(10, 50)}
    stage.write('files/domain-1.csv',
                ''.join(f'{it}\n' for it in ['name,note', *map(','.join, rows.items())]).encode())
    described = stage.end(stage.begin(['describe', 'files'], 'pack')).out.decode()
    stage.write('files/envelope.json',
                described.replace('"ID"', '"F1"').replace('1970', '2024').encode())
    stage.check('bundle --envelope files/envelope.json files out',
                Wanted(1, '', f'E2 files/domain-1.csv\n{WAY}\n'), program='pack')
    subprocess.run([sys.executable, f'{TOP}/packaging/unpack_rde', '--described', 'files', 'F1'],
                   cwd=stage.room.name, check=True, capture_output=True)
    os.mkdir(stage.at('bundles'))
    run(stage, 'series F1 bundles/F1', 'pack')
    names = sorted(os.listdir(stage.at('bundles')))
    compare_all('names', ['F1-001', 'F1-002'], names)
    rebuild(stage, *names)
    check_same(
        {('domain', key): told([('domain', {'name': key, 'note': note})])
         for key, note in rows.items()}, exported(stage))


# The table, its fields, a heading of its file, and whether that names the fields.
HEADINGS = (
    ('domain', 'name clID registrant idnTableId crDate exDate',
     'name,fClID,fRegistrant,fIdnTableId,fCrDate,fExDate', True),
    ('domain', 'name clID registrant', 'name,clID,fRegistrant', True),
    ('domain', 'fName fClID', 'fName,fClID', True),
    ('domain', 'name clID', 'fName,clID', False),
    ('domain', 'name clID', 'name,fClId', False),
    ('domain', 'name clID registrant', 'name,fRegistrant,fClID', False),
    ('domain', 'name fClID', 'name,clID', False),
    ('domain', 'name clID', 'name', False),
    ('domain', 'name clID', 'name,fClID,more', False),
    ('domain', 'name contactId', 'name,fId', False),
    ('domainContacts', 'name contactId', 'name,fId', True),
    ('domainNs', 'name hostName', 'name,fHostName', True),
    ('domainStatuses', 'name hostName', 'name,fHostName', False),
    ('domainStatuses', 'name status', 'name,fStatus', True),
)
# A folder's files by the names that RFC 9022 gives, the description that is proposed of them, and
# what is said of it.
NAMED = {
    'domain-1.csv': 'fName,fClID,fRegistrant,fCrDate\na.example,R1,C1,2024-03-04T00:00:00Z\n',
    'domainContacts-1.csv': 'fName,fId,fContactType\na.example,C2,admin\n',
    'domainStatuses-1.csv': 'fName,fStatus\na.example,banana\n',
    'domainNameServers-1.csv': 'fName,fHostName\na.example,ns.example\n',
    'domain-2.csv': 'fName,clID,fRegistrant,fCrDate,more\n',
    'host-1.csv': 'fName,cl_id\nns2.example,R1\n',
    'contact-1.csv': 'C1,R1\n',
    'notes.txt': ''
}
PROPOSED = """\
{"id":"ID","type":"FULL","watermark":"1970-01-01T00:00:00Z",
"contents":[{"name":"host","kind":"host","role":"parent","key":"fName","file":"host.csv",\
"heading":true,"fields":["fName","cl_id"],"from":["host-1.csv"]},
{"name":"domain","kind":"domain","role":"parent","key":"fName","file":"domain.csv",\
"heading":true,"fields":["fName","clID","registrant","crDate"],"from":["domain-1.csv"]},
{"name":"domainContacts","kind":"domain","role":"child","key":"fName",\
"file":"domaincontacts.csv","heading":true,"fields":["fName","contactId","fContactType"],\
"from":["domainContacts-1.csv"]},
{"name":"domainNs","kind":"domain","role":"child","key":"fName","file":"domainns.csv",\
"heading":true,"fields":["fName","hostName"],"from":["domainNameServers-1.csv"]},
{"name":"domainStatuses","kind":"domain","role":"child","key":"fName",\
"file":"domainstatuses.csv","heading":true,"fields":["fName","status"],\
"from":["domainStatuses-1.csv"]}],
"deletes":[]}
"""
UNKNOWN = """unknown id
unknown type
unknown watermark
unknown file "contact-1.csv": its first row is no heading with a known key
unknown file "domain-2.csv": an earlier file of its table has another heading
unknown file "notes.txt": no table is known by its name
unknown field "cl_id" of table host: the desk looks for clID
"""
# What the desk finds of them, which it would not without the names.
FINDINGS = """code,kind,key,field,value,other
V1,domain,a.example,clID,R1,registrar
V1,domain,a.example,contactId,C2,contact
V1,domain,a.example,hostName,ns.example,host
V1,domain,a.example,registrant,C1,contact
V3,domain,a.example,status,banana,
V5,domain,a.example,crDate,2024-03-04T00:00:00Z,2024-03-03T00:00:00Z
"""


def test_headings(stage: Stage) -> None:
    """In a heading a field may have the name of the CSV model for the desk's, and no other."""
    for at, (table, fields, heading, is_named) in enumerate(HEADINGS):
        names = fields.split()
        declared = {
            'name': table,
            'kind': 'domain',
            'role': 'parent' if table == 'domain' else 'child',
            'key': names[0],
            'fields': names,
            'file': 't.csv',
            'heading': True
        }
        row = ','.join('x' * len(names))
        stage.write('files/t.csv', f'{heading}\n{row}\n'.encode())
        stage.write('envelope.json', json.dumps({**FULL, 'contents': [declared]}).encode())
        with case(f'{table}: {heading}'):
            told = ''
            if is_named and 'fClID' in names:
                told = 'unknown field "fClID" of table domain: the desk looks for clID\n'
            stage.check(f'bundle --envelope envelope.json files n{at}',
                        Wanted(err=told) if is_named else Wanted(1, '', 'H1 files/t.csv\n'),
                        program='pack')
            if is_named and not read(stage.at(f'n{at}')).endswith(
                    f't.csv {len(row) + 1}\n{row}\n\nend\n'.encode()):
                raise Failed('its bundle has other rows')


def test_findings(stage: Stage) -> None:
    """Files with the names of RFC 9022 are proposed under the desk's, and what is wrong in them is
    found."""
    for name, text in NAMED.items():
        stage.write(f'files/{name}', text.encode())
    stage.check('describe files', Wanted(0, PROPOSED, UNKNOWN), program='pack')
    described = PROPOSED.replace('"ID"', '"F1"').replace('1970-01-01',
                                                         '2024-03-03').replace('cl_id', 'other')
    stage.write('files/host-1.csv', b'fName,other\nns2.example,R1\n')
    stage.write('envelope.json', described.encode())
    os.mkdir(stage.at('bundles'))
    stage.check('bundle --envelope envelope.json files bundles/F1', Wanted(), program='pack')
    rebuild(stage, 'F1')
    stage.check('report --store desk.db links', Wanted(0, FINDINGS))

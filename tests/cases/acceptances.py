"""`handover check` over random releases, and over stores that went bad, against the plain model:
the line of each test."""
import hashlib
import random
from collections import defaultdict
from collections.abc import Callable
from collections.abc import Iterable
from collections.abc import Mapping
from collections.abc import Sequence

from tests.support.acceptance import RULES
from tests.support.acceptance import Seen
from tests.support.acceptance import is_accepted
from tests.support.acceptance import is_bundle
from tests.support.acceptance import line_of
from tests.support.acceptance import tests_of
from tests.support.acceptance import word_of
from tests.support.bundles import Header
from tests.support.bundles import Table
from tests.support.bundles import deposit
from tests.support.bundles import manifest
from tests.support.first_store import first_rows
from tests.support.first_store import write_store
from tests.support.flawed import draw_release
from tests.support.flawed import draw_series
from tests.support.flawed import misnamed_releases
from tests.support.formats import KINDS
from tests.support.formats import read_record
from tests.support.formats import record
from tests.support.model import Desk
from tests.support.releases import Release
from tests.support.releases import numbered
from tests.support.stage import Failed
from tests.support.stage import Stage
from tests.support.stage import Wanted
from tests.support.stage import case
from tests.support.stage import compare
from tests.support.stage import compare_all
from tests.support.stage import text_of
from tests.support.stores import contents
from tests.support.stores import change_row
from tests.support.stores import run

# What changes a store behind its back, and with it the model's desk.
Change = Callable[[Stage, str, Desk, random.Random], None]
# The seeds of the releases. The last ones are rare: in these the day of the chain's end has a later
# place, a revision is missing below the one that is used, a place is missing on the day of the end,
# and a deposit before the last one has orphans.
SEEDS = (*range(26), 305, 129, 68, 28)
# Those of releases whose deposits are series.
SERIES = (2, 3, 4, 7, 9, 13, 15, 16, 18, 29, 33, 37)
# The tests that each pass in some of these releases, and not in others.
TESTS = ('end', 'resends', 'gaps', 'moment', 'parked', 'findings', 'addresses', 'orphans', 'counts',
         'fields', 'names', 'bodies', 'tables')


def changed_body(change: Callable[[bytes], bytes]) -> Change:
    """Changes a held body, mostly one of the chain."""
    def spoil(stage: Stage, store: str, desk: Desk, chance: random.Random) -> None:
        row = chance.choice(desk.steps if chance.random() < 0.7 else sorted(desk.held))
        desk.held[row] = change(desk.held[row])
        change_row(stage, store, 'UPDATE held SET body = ? WHERE row = ?', (desk.held[row], row))
    return spoil


def change_object(stage: Stage, store: str, desk: Desk, chance: random.Random) -> None:
    """The last cell of an object has another text."""
    kind, key = chance.choice(sorted(desk.objects))
    *before, (table, [*others, (field, text)]) = read_record(desk.objects[kind, key])
    desk.objects[kind, key] = record([*before, (table, [*others, (field, text + 'x')])])
    change_row(stage, store, 'UPDATE object SET record = ? WHERE kind = ? AND key = ?',
               (desk.objects[kind, key], KINDS.index(kind), key))


def delete_object(stage: Stage, store: str, desk: Desk, chance: random.Random) -> None:
    kind, key = chance.choice(sorted(desk.objects))
    del desk.objects[kind, key]
    change_row(stage, store, 'DELETE FROM object WHERE kind = ? AND key = ?',
               (KINDS.index(kind), key))


def add_object(stage: Stage, store: str, desk: Desk, chance: random.Random) -> None:
    kind, key = chance.choice(sorted(desk.objects))
    new, made = b'new-' + key, desk.objects[kind, key]
    desk.objects[kind, new] = made
    change_row(stage, store, 'INSERT INTO object (kind, key, record) VALUES (?, ?, ?)',
               (KINDS.index(kind), new, made))


# A name in a held body is another one; it ends too early; a row of it has one field more; and so
# on.
SPOILINGS = {
    'another name': changed_body(lambda body: body.replace(b'.example', b'.exbmple', 1)),
    'an early end': changed_body(lambda body: body[:-1]),
    'one field more': changed_body(lambda body: body.replace(b'.example', b',example', 1)),
    'another object': change_object,
    'an object less': delete_object,
    'an object more': add_object,
}


def check_store(stage: Stage, store: str, desk: Desk, seen: Mapping[str, set[str]]) -> None:
    """Compares what is said of a store, which stays as it is, and notes the word of each test.
    Nothing but S1 is said where the body of the chain's last deposit is no bundle."""
    before = contents(stage.at(store))
    is_read = not desk.steps or is_bundle(desk.held[desk.steps[-1]])
    tests = list(tests_of(Seen(desk))) if is_read else []
    got = stage.end(stage.begin(['check', '--store', store], 'handover'))
    compare('standard error', '' if is_read else 'S1\n', got.err.decode())
    lines = [it for it in got.out.decode().splitlines() if not it.startswith('told note: ')]
    compare_all('lines', (line_of(*it) for it in tests), lines)
    compare('status', '3' if not is_read else '0' if is_accepted(tests) else '1', f'{got.status}')
    if contents(stage.at(store)) != before:
        raise Failed('the store is changed')
    for name, passes, _ in tests:
        seen[name].add(word_of(name, passes))


def test_wrong_names(stage: Stage) -> None:
    """What is said of a Full whose fields or tables have other names, or aren't there."""
    for at, (name, release) in enumerate(misnamed_releases()):
        release.rebuild(stage, f'{at}.db')
        with case(name):
            check_store(stage, f'{at}.db', release.desk(), defaultdict(set))


def test_random_releases(stage: Stage) -> None:
    """What is said of random releases, and of their stores once these went bad."""
    seen: dict[str, set[str]] = defaultdict(set)
    for seed in SEEDS:
        release, store = draw_release(seed), f'{seed}.db'
        release.rebuild(stage, store)
        desk, (name, spoil) = release.desk(), list(SPOILINGS.items())[seed % len(SPOILINGS)]
        with case(f'seed {seed}'):
            check_store(stage, store, desk, seen)
            if desk.objects:
                spoil(stage, store, desk, random.Random(seed))
                with case(name):
                    check_store(stage, store, desk, seen)
    check_words(seen, TESTS)


def test_random_series(stage: Stage) -> None:
    """What is said of random releases whose deposits are series."""
    seen: dict[str, set[str]] = defaultdict(set)
    for seed in SERIES:
        release, store = draw_series(seed), f'{seed}.db'
        release.rebuild(stage, store)
        with case(f'seed {seed}'):
            check_store(stage, store, release.desk(), seen)
    check_words(seen, [it for it in TESTS if it not in ('addresses', 'bodies', 'moment', 'tables')])


def check_words(seen: Mapping[str, set[str]], tests: Iterable[str]) -> None:
    """The releases are such that each of these tests passes in some of them, and not in others."""
    compare('words', text_of(f'{it} {word_of(it, False)} ok' for it in tests),
            text_of(' '.join([it, *sorted(seen[it], reverse=True)]) for it in tests))


# ---- what is no all-clear, each by a release made by hand

# A Full, a later revision of it, and a Differential on it, on the day after.
F1, F1_AGAIN = Header('F1', 'FULL',
                      '2024-03-03T00:00:00Z'), Header('F1', 'FULL', '2024-03-03T00:00:00Z',
                                                      resend=1)
D2 = Header('D2', 'DIFF', '2024-03-04T00:00:00Z', 'F1')
DATES = '2020-01-01T00:00:00Z,2030-01-01T00:00:00Z'
FIELDS = ('name', 'clID', 'registrant', 'crDate', 'exDate', 'roid')
REGISTRARS = Table('registrar', 'registrar', 'parent', ('id', 'name', 'crDate'),
                   b'R1,One,2020-01-01T00:00:00Z\n')
CHILDREN = (Table('domainContacts', 'domain', 'child', ('domainName', 'contactId')),
            Table('domainNs', 'domain', 'child', ('domainName', 'hostName')),
            Table('domainStatuses', 'domain', 'child', ('domainName', 'status'), b'a.example,ok\n'))


def domains(*rows: str, fields: tuple[str, ...] = FIELDS) -> Table:
    return Table('domain', 'domain', 'parent', fields, ''.join(f'{it}\n' for it in rows).encode())


A, B = domains(f'a.example,R1,,{DATES},D1-EX'), domains(f'b.example,R1,,{DATES},D2-EX')
B_STATUS = Table('domainStatuses', 'domain', 'child', ('domainName', 'status'), b'b.example,ok\n')


def body_of(header: Header, *tables: Table, domain: int = 1, **besides: object) -> bytes:
    """A deposit that declares one registrar and so many domains."""
    counts = dict.fromkeys(KINDS, 0) | {'registrar': 1, 'domain': domain}
    return deposit(header, tables, counts=counts, **besides)


def full(header: Header, **besides: object) -> bytes:
    return body_of(header, REGISTRARS, A, *CHILDREN, **besides)


def release_of(*deposits: tuple[Header, bytes], moment: str | None = None) -> Release:
    return Release(manifest(deposits), numbered(body for _, body in deposits), moment)


def lines_but(*others: str, end: str = '2024-03-03T00:00:00Z FULL',
              tld: str = 'no held deposit names one', notes: Sequence[str] = ()) -> str:
    """The lines where all tests pass, but for those that are given, and then those of notes."""
    passed = {
        f'{it}': f'ok {it}'
        for it in ('tld', 'end', 'future', 'chain', 'resends', 'gaps', 'moment', 'parked', 'early',
                   'findings', *RULES, 'orphans', 'counts', 'fields', 'names', 'bodies', 'tables',
                   'notes')
    }
    passed |= {'tld': f'ok tld: {tld}', 'end': f'ok end: {end}'
               } | {it.split()[1].rstrip(':'): it
                    for it in others}
    return ''.join(f'{it}\n' for it in (*passed.values(), *notes))


def check_lines(stage: Stage, store: str, status: int, *others: str, strict: int | None = None,
                **told: object) -> None:
    stage.check(f'check --store {store}', Wanted(status, lines_but(*others, **told)),
                program='handover')
    stage.check(f'check --store {store} --strict',
                Wanted(status if strict is None else strict, lines_but(*others, **told)),
                program='handover')


def test_all_clear(stage: Stage) -> None:
    """A registry that may be taken over, with a TLD and without."""
    release_of((F1, full(F1))).rebuild(stage)
    check_lines(stage, 'a.db', 0)
    release_of((F1, full(F1, tld='example'))).rebuild(stage, 'b.db')
    check_lines(stage, 'b.db', 0, tld='example')


def test_a_field_that_not_each_object_has(stage: Stage) -> None:
    """The domains of a Full have no registrar, and the one of a Differential has."""
    bare = body_of(F1, REGISTRARS, domains(f'a.example,,{DATES},D1-EX',
                                           fields=('name', *FIELDS[2:])), *CHILDREN)
    release_of((F1, bare), (D2, body_of(D2, B, *CHILDREN[:2], B_STATUS, domain=2))).rebuild(stage)
    check_lines(
        stage, 'a.db', 1,
        'wrong fields: domain clID declared by no deposit of the chain, or not for each object, '
        'and so not checked; ask the agent which fields they are', end='2024-03-04T00:00:00Z DIFF')


# A table that a Full declares besides, if any, and one of a Differential, which hides a field and
# differs from the other, or from the one of the domains, by its fields, its name, its kind or its
# role alone; and the field.
OTHER = tuple(it.replace('registrant', 'f_registrant') for it in FIELDS)
NOTES = ('name', 'note')
SERVERS = Table('domain_ns', 'domain', 'child', NOTES)
HIDDEN = {
    'fields': (None, domains(f'b.example,R1,,{DATES},D2-EX', fields=OTHER), 'domain registrant'),
    'name': (Table('more', 'domain', 'child', NOTES), SERVERS, 'domainNs hostName'),
    'kind': (Table('domain_ns', 'host', 'child', NOTES), SERVERS, 'domainNs hostName'),
    'role': (Table('more', 'domain', 'child', OTHER),
             Table('more', 'domain', 'parent', OTHER, b'b.example,R1,,%b,D2-EX\n' %
                   DATES.encode()), 'domain registrant')
}


def test_a_table_that_hides_a_field(stage: Stage) -> None:
    """A table of a later deposit hides a field. It differs little from an earlier one."""
    for name, (earlier, later, field) in HIDDEN.items():
        first = (REGISTRARS, A, *CHILDREN, *([earlier] if earlier else []))
        tables = (later, B_STATUS) if later.role == 'parent' else (B, B_STATUS, later)
        store = f'{name}.db'
        release_of((F1, body_of(F1, *first)),
                   (D2, body_of(D2, *tables, domain=2))).rebuild(stage, store)
        missing = (f'wrong fields: {field} declared by no deposit of the chain, or not for each '
                   'object, and so not checked; ask the agent which fields they are')
        with case(name):
            check_lines(
                stage, store, 1, *([missing] if later.role == 'parent' else []),
                f'wrong names: {field} under another name, and so not checked; have the deposits '
                'declared by these names', end='2024-03-04T00:00:00Z DIFF')


def test_a_chain_that_is_not_the_latest(stage: Stage) -> None:
    """The steps of a file name a revision, and a later one of it is held."""
    release_of((F1, full(F1)), (F1_AGAIN, full(F1_AGAIN))).rebuild(stage)
    check_lines(stage, 'a.db', 0)
    change_row(stage, 'a.db', 'UPDATE step SET row = ?', (0,))
    check_lines(
        stage, 'a.db', 1,
        'wrong chain: not the latest one of the held rows; go back to a copy of the store, or '
        'make it anew'
    )


def test_two_tlds(stage: Stage) -> None:
    """Deposits of two TLDs, whose Fulls follow one another: the later one is the chain."""
    other = Header('F2', 'FULL', '2024-03-04T00:00:00Z')
    release_of((F1, full(F1, tld='example')), (other, full(other, tld='EXAMPLE'))).rebuild(stage)
    check_lines(stage, 'a.db', 0, end='2024-03-04T00:00:00Z FULL', tld='example')
    release_of((F1, full(F1, tld='example')),
               (other, full(other, tld='other'))).rebuild(stage, 'b.db')
    check_lines(stage, 'b.db', 1,
                'wrong tld: example, other are named by the held deposits; make a store for each',
                end='2024-03-04T00:00:00Z FULL')


def test_a_held_body_that_is_gone(stage: Stage) -> None:
    """The body of a revision that the chain goes past."""
    release_of((F1, full(F1)), (F1_AGAIN, full(F1_AGAIN))).rebuild(stage)
    change_row(stage, 'a.db', 'DELETE FROM held WHERE row = ?', (0,))
    check_lines(
        stage, 'a.db', 1,
        'wrong bodies: 1 held are gone or have another SHA-256 than listed, the first of row 1; go '
        'back to a copy of the store, or make it anew')


def test_a_body_of_the_chain_that_is_no_deposit(stage: Stage) -> None:
    """A body before the last one is cut, and the row lists it as it is now."""
    release_of((F1, full(F1)), (D2, body_of(D2, B, B_STATUS, domain=2))).rebuild(stage)
    check_lines(stage, 'a.db', 0, end='2024-03-04T00:00:00Z DIFF')
    cut = full(F1)[:-1]
    change_row(stage, 'a.db', 'UPDATE held SET body = ? WHERE row = 0', (cut,))
    change_row(stage, 'a.db', 'UPDATE listed SET digest = ? WHERE row = 0',
               (hashlib.sha256(cut).digest(), ))
    tests = stage.end(stage.begin(['check', '--store', 'a.db'], 'handover'))
    compare('status', '1', f'{tests.status}')
    for line in (
            'wrong bodies: one of the chain is gone or is no deposit; go back to a copy of the '
            'store, or make it anew',
            'wrong tables: not those of the chain\'s deposits; go back to a copy of the store, or '
            'make it anew'
    ):
        if line not in tests.out.decode().splitlines():
            raise Failed(f'no line {line!r}')


def test_a_registrar_that_is_not_there(stage: Stage) -> None:
    """A domain was created by a registrar that is not there, and another asked for its transfer."""
    made = domains(f'a.example,R1,,{DATES},D1-EX,R9', fields=(*FIELDS, 'crRr'))
    moving = Table('domainTransfer', 'domain', 'child', ('name', 'reRr', 'acRr'),
                   b'b.example,R8,R1\n')
    release_of((F1, body_of(F1, REGISTRARS, made, *CHILDREN)),
               (D2, body_of(D2, B, B_STATUS, moving, domain=2))).rebuild(stage)
    check_lines(
        stage, 'a.db', 1,
        "wrong registrars: 2 name a registrar that isn't there, by crRr, upRr, reRr or acRr; ask "
        "the agent for it: domain a.example, domain b.example", end='2024-03-04T00:00:00Z DIFF')


def test_a_name_of_a_domain_and_an_nndn(stage: Stage) -> None:
    """An NNDN has a domain's name, in other letters."""
    nndns = Table('nndn', 'nndn', 'parent', ('aName', 'idnTableId'), b'A.example,\n')
    counts = dict.fromkeys(KINDS, 0) | {'registrar': 1, 'domain': 1, 'nndn': 1}
    release_of((F1, deposit(F1, (REGISTRARS, A, *CHILDREN, nndns), counts=counts))).rebuild(stage)
    check_lines(
        stage, 'a.db', 1,
        "wrong nndns: 1 have a domain's name; ask the agent which the name is: nndn A.example")


def test_equal_roids(stage: Stage) -> None:
    """Two domains have one ROID, which a host has too."""
    host = Table('host', 'host', 'parent', ('name', 'roid', 'clID', 'crDate'),
                 b'ns.a.example,D1-EX,R1,2020-01-01T00:00:00Z\n')
    statuses = Table('hostStatuses', 'host', 'child', ('name', 'status'), b'ns.a.example,ok\n')
    same = domains(f'a.example,R1,,{DATES},D1-EX', f'b.example,R1,,{DATES},D1-EX',
                   f'c.example,R1,,{DATES},D3-EX')
    of_all = Table('domainStatuses', 'domain', 'child', ('domainName', 'status'),
                   b'a.example,ok\nb.example,ok\nc.example,ok\n')
    counts = dict.fromkeys(KINDS, 0) | {'registrar': 1, 'host': 1, 'domain': 3}
    release_of(
        (F1, deposit(F1, (REGISTRARS, host, statuses, same, *CHILDREN[:2], of_all),
                     counts=counts))).rebuild(stage)
    check_lines(
        stage, 'a.db', 0,
        'told roids: 2 have a ROID that another of their kind has; ask the agent which has it: '
        'domain a.example, domain b.example', strict=1)


def test_what_is_required(stage: Stage) -> None:
    """A registrar has no name, a domain no ROID, another no status, a third an empty registrar; a
    contact has no city."""
    registrars = Table('registrar', 'registrar', 'parent', ('id', 'name', 'crDate'),
                       b'R1,,2020-01-01T00:00:00Z\n')
    contact = Table('contact', 'contact', 'parent', ('id', 'roid', 'clID', 'crDate'),
                    b'C1,C1-EX,R1,2020-01-01T00:00:00Z\nC2,C2-EX,R1,2020-01-01T00:00:00Z\n')
    statuses = Table('contactStatuses', 'contact', 'child', ('id', 'status'), b'C1,ok\nC2,ok\n')
    postal = Table('contactPostal', 'contact', 'child', ('id', 'name', 'city', 'cc'),
                   b'C1,Ann,,CH\nC2,Bo,Rome,IT\n')
    lacking = domains(f'a.example,R1,,{DATES},D1-EX', f'b.example,R1,,{DATES},',
                      f'c.example,R1,,{DATES},D3-EX', f'd.example,,,{DATES},D4-EX')
    of_most = Table('domainStatuses', 'domain', 'child', ('domainName', 'status'),
                    b'a.example,ok\nb.example,ok\nd.example,ok\n')
    counts = dict.fromkeys(KINDS, 0) | {'registrar': 1, 'contact': 2, 'domain': 4}
    tables = (registrars, contact, statuses, postal, lacking, *CHILDREN[:2], of_most)
    release_of((F1, deposit(F1, tables, counts=counts))).rebuild(stage)
    check_lines(
        stage, 'a.db', 0,
        'told required: 5 lack what RFC 9022 requires of them; `pack_rde` says what, ask the '
        'agent for it: '
        'registrar R1, contact C1, domain b.example, domain c.example, domain d.example', strict=1)


def test_names_outside(stage: Stage) -> None:
    """Of the names of a TLD one ends like it alone, one is of another, and an NNDN is the TLD
    itself. Without a TLD all are within."""
    names = domains(f'a.example,R1,,{DATES},D1-EX', f'b.test,R1,,{DATES},D2-EX',
                    f'anexample,R1,,{DATES},D3-EX')
    of_all = Table('domainStatuses', 'domain', 'child', ('domainName', 'status'),
                   b'a.example,ok\nb.test,ok\nanexample,ok\n')
    nndns = Table('nndn', 'nndn', 'parent', ('aName', 'idnTableId'), b'c.Example,\nexample,\n')
    counts = dict.fromkeys(KINDS, 0) | {'registrar': 1, 'domain': 3, 'nndn': 2}
    tables = (REGISTRARS, names, *CHILDREN[:2], of_all, nndns)
    release_of((F1, deposit(F1, tables, counts=counts, tld='EXAMPLE'))).rebuild(stage)
    check_lines(
        stage, 'a.db', 0,
        'told outside: 3 are not below the TLD; ask the agent why they are there: domain '
        'anexample, domain b.test, nndn example', tld='EXAMPLE', strict=1)
    release_of((F1, deposit(F1, tables, counts=counts))).rebuild(stage, 'b.db')
    check_lines(stage, 'b.db', 0)


def test_digests(stage: Stage) -> None:
    """DS with digests of the three types, and of another; the same a digit short, with a sign that
    is none, and with numbers out of range; and a row without a DS."""
    parts = {
        'a': '1,8,1,' + '0aF9' * 10, 'b': '65535,255,2,' + 'A' * 64, 'c': '0,13,4,' + '1' * 96,
        'd': '1,8,3,' + 'bB' * 32, 'e': ',,,', 'f': '1,8,1,' + 'a' * 39, 'g': '1,8,2,' + 'g' * 64,
        'h': '65536,8,1,' + 'a' * 40, 'i': '1,256,1,' + 'a' * 40, 'j': '1,8,,' + 'a' * 40,
        'k': '-1,8,1,' + 'a' * 40, 'l': '1,8,3,', 'm': '1,8,4,' + 'a' * 64
    }
    names = domains(*(f'{it}.example,R1,,{DATES},D{it}-EX' for it in parts))
    of_all = Table('domainStatuses', 'domain', 'child', ('domainName', 'status'),
                   ''.join(f'{it}.example,ok\n' for it in parts).encode())
    signed = Table('secDNS', 'domain', 'child', ('name', 'keyTag', 'dsAlg', 'digestType', 'digest'),
                   ''.join(f'{it}.example,{ds}\n' for it, ds in parts.items()).encode())
    counts = dict.fromkeys(KINDS, 0) | {'registrar': 1, 'domain': len(parts)}
    release_of((F1, deposit(F1, (REGISTRARS, names, *CHILDREN[:2], of_all, signed),
                            counts=counts))).rebuild(stage)
    wrong = ', '.join(f'domain {it}.example' for it in 'fghijklm')
    check_lines(
        stage, 'a.db', 0,
        'told digests: 8 have a DS that is none, which a zone leaves out; ask the agent for it: '
        f'{wrong}',
        strict=1)


def test_addresses(stage: Stage) -> None:
    """Hosts with addresses of both versions, with texts that are none, with addresses of another
    version than said, and one without. The same of servers of domains, which may be without."""
    addresses = {
        'a': '192.0.2.255,v4', 'b': '2001:DB8::1,v6', 'c': '192.0.2.1,', 'd': '::ffff:192.0.2.1,v6',
        'e': '1:2:3:4:5:6:7:8,v6', 'f': ',v4', 'g': '192.0.2.01,v4', 'h': '192.0.2.256,v4',
        'i': '192.0.2.1 ,v4', 'j': '::1%eth0,v6', 'k': '1::2::3,v6', 'l': '2001:db8::1,',
        'm': '192.0.2.1,v6', 'n': '2001:db8::1,V6', 'o': '2001:db8::1,v4'
    }
    hosts = Table('host', 'host', 'parent', ('name', 'roid', 'clID', 'crDate'), ''.join(
        f'{it}.test,H{it}-EX,R1,2020-01-01T00:00:00Z\n' for it in [*addresses, 'p']).encode())
    statuses = Table('hostStatuses', 'host', 'child', ('name', 'status'),
                     ''.join(f'{it}.test,ok\n' for it in [*addresses, 'p']).encode())
    of_hosts = Table('hostAddresses', 'host', 'child', ('name', 'addr', 'addrVersion'),
                     ''.join(f'{it}.test,{text}\n' for it, text in addresses.items()).encode())
    servers = {'a': ',', 'b': ',v6', 'c': '192.0.2.1,v4', 'd': '::1,v6', 'e': '::1,', 'f': 'no,v4'}
    names = domains(*(f'{it}.example,R1,,{DATES},D{it}-EX' for it in servers))
    of_all = Table('domainStatuses', 'domain', 'child', ('domainName', 'status'),
                   ''.join(f'{it}.example,ok\n' for it in servers).encode())
    rows = ''.join(f'{it}.example,ns.test,{text}\n' for it, text in servers.items())
    of_domains = Table('domainHostAttr', 'domain', 'child',
                       ('domainName', 'hostName', 'addr', 'addrVersion'), rows.encode())
    counts = dict.fromkeys(KINDS, 0) | {
        'registrar': 1, 'host': len(addresses) + 1, 'domain': len(servers)}
    tables = (REGISTRARS, hosts, statuses, of_hosts, names, *CHILDREN[:2], of_all, of_domains)
    release_of((F1, deposit(F1, tables, counts=counts))).rebuild(stage)
    wrong = ', '.join([*(f'host {it}.test' for it in 'fghijklmno'),
                       *(f'domain {it}.example' for it in 'ef')])
    check_lines(
        stage, 'a.db', 0,
        'told addresses: 12 have an address that is none, or of another version than said; ask the '
        f'agent for it: {wrong}', strict=1)


def test_an_end_in_the_future(stage: Stage) -> None:
    """The watermark of the chain's end is later than the clock's time."""
    late = Header('F1', 'FULL', '2260-01-01T00:00:00Z')
    release_of((late, full(late))).rebuild(stage)
    check_lines(
        stage, 'a.db', 1,
        "wrong future: 2260-01-01T00:00:00Z FULL is later than now; set this machine's clock, or "
        "ask the agent which watermark it has", end='2260-01-01T00:00:00Z FULL')


def test_a_moment(stage: Stage) -> None:
    """A moment is only told; --strict lets nothing be told."""
    release_of((F1, full(F1)), (D2, body_of(D2, B, B_STATUS, domain=2)),
               moment='2024-03-03T00:00:00Z').rebuild(stage)
    check_lines(
        stage, 'a.db', 0,
        "told moment: 2024-03-03T00:00:00Z is set, and what is later doesn't count; take it back "
        "by `restore as-of` with `latest`",
        end='2024-03-03T00:00:00Z FULL, up to the moment 2024-03-03T00:00:00Z', strict=1)


def test_notes(stage: Stage) -> None:
    """What was told when a bundle was made is told again, each text on one line."""
    release_of((F1, full(F1, notes=['unknown: eppParams 1', 'left\nout']))).rebuild(stage)
    check_lines(
        stage, 'a.db', 0,
        "told notes: 2 in the chain's deposits, from when their bundles were made; each has a "
        "line below",
        notes=('told note: unknown: eppParams 1', 'told note: left\\nout'), strict=1)


def test_an_early_arrival(stage: Stage) -> None:
    """Version 1 kept no body that no row listed."""
    write_store(stage.at('a.db'),
                first_rows(manifest([(F1, full(F1))]), [('1', full(F1)), ('2', full(D2))]))
    run(stage, 'migrate --store a.db')
    check_lines(
        stage, 'a.db', 0,
        "told early: 1 arrivals of version 1 had no row, and their bodies weren't kept; take them "
        "again unless they are held", strict=1)

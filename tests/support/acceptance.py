"""A plain model of `handover check`, by the words of docs/HANDOVER.md and docs/DEFINITIONS.md.

It looks at what a store keeps (model.py), and says each line. Nothing of the program is used."""
import hashlib
import ipaddress
import re
import time
import unicodedata
from collections import Counter
from collections.abc import Callable
from collections.abc import Iterable
from collections.abc import Iterator
from collections.abc import Mapping
from collections.abc import Sequence
from typing import TypeVar

from tests.support import formats
from tests.support.formats import KINDS
from tests.support.formats import Declared
from tests.support.formats import Deposit
from tests.support.formats import Named
from tests.support.formats import Refused
from tests.support.formats import Rows
from tests.support.formats import counts_in
from tests.support.formats import envelope_in
from tests.support.formats import found_in
from tests.support.formats import in_order
from tests.support.formats import moment_text
from tests.support.formats import place_text
from tests.support.formats import read_record
from tests.support.model import Desk
from tests.support.model import made_by

It = TypeVar('It')
# Of a guide the kind, the child table or none, and the field; of a finding the code, the kind, the
# key, the field, the value and what is told besides; of a test its name, whether it passes, and
# what is said of it.
Guide = tuple[str, str | None, str]
Finding = tuple[int, str, str, str, str, str]
Tested = tuple[str, bool, str]
Objects = Mapping[Named, bytes]
# The fields by which links, statuses and dates go: the kind of the objects, the child table, or
# none where the parent rows have it, and the field.
GUIDES: tuple[Guide, ...] = (
    ('registrar', None, 'crDate'),
    ('contact', None, 'clID'),
    ('contact', None, 'crDate'),
    ('contact', 'contactStatuses', 'status'),
    ('host', None, 'clID'),
    ('host', None, 'crDate'),
    ('host', 'hostStatuses', 'status'),
    ('domain', None, 'clID'),
    ('domain', None, 'registrant'),
    ('domain', None, 'idnTableId'),
    ('domain', None, 'crDate'),
    ('domain', None, 'exDate'),
    ('domain', 'domainContacts', 'contactId'),
    ('domain', 'domainNs', 'hostName'),
    ('domain', 'domainStatuses', 'status'),
    ('nndn', None, 'idnTableId'),
)
# The tests that are only told.
TOLD_ALONE = ('gaps', 'moment', 'early', 'roids', 'required', 'outside', 'digests', 'addresses',
              'notes')
# What the line of a rule of RFC 9022, section 8, says between the number of objects that break it
# and the first of them.
RULES = {
    'registrars':
        "name a registrar that isn't there, by crRr, upRr, reRr or acRr; ask the agent for it",
    'nndns': "have a domain's name; ask the agent which the name is",
    'roids': 'have a ROID that another of their kind has; ask the agent which has it',
    'required':
        'lack what RFC 9022 requires of them; `pack_rde` says what, ask the agent for it',
    'outside': 'are not below the TLD; ask the agent why they are there',
    'digests': 'have a DS that is none, which a zone leaves out; ask the agent for it',
    'addresses':
        'have an address that is none, or of another version than said; ask the agent for it'
}
# How many objects such a line names.
MOST_NAMED = 20
# The fields of a parent row, by kind, and those of a postal address, that have a text (RFC 9022,
# sections 5.1 to 5.4).
REQUIRED = {
    'registrar': ('id', 'name'), 'contact': ('id', 'roid'), 'host': ('name', 'roid'),
    'domain': ('name', 'roid')
}
POSTAL = ('name', 'city', 'cc')
# The parts of a DS, and how many hexadecimal digits a digest of these types has.
DS_PARTS = ('keyTag', 'dsAlg', 'digestType', 'digest')
DIGEST_DIGITS = {1: 40, 2: 64, 4: 96}
# The kind that a link by a field leads to.
TARGETS = {
    'clID': 'registrar', 'registrant': 'contact', 'contactId': 'contact', 'hostName': 'host',
    'idnTableId': 'idn'
}
# What is accepted of each kind.
HOST_STATUSES = {
    'clientDeleteProhibited', 'serverDeleteProhibited', 'clientUpdateProhibited',
    'serverUpdateProhibited', 'linked', 'ok', 'pendingCreate', 'pendingDelete', 'pendingTransfer',
    'pendingUpdate'
}
CONTACT_STATUSES = HOST_STATUSES | {'clientTransferProhibited', 'serverTransferProhibited'}
STATUSES = {
    'host': HOST_STATUSES, 'contact': CONTACT_STATUSES, 'domain': CONTACT_STATUSES - {'linked'} | {
        'clientHold', 'serverHold', 'clientRenewProhibited', 'serverRenewProhibited', 'inactive',
        'pendingRenew'
    }
}


def cells_of(rows: Rows, table: str | None, field: str) -> list[str]:
    """The texts of a field in the rows of a child table, or in the parent row, which is the first
    one; without empty ones."""
    chosen = rows[:1] if table is None else [it for it in rows[1:] if it[0] == table]
    return [text for _, cells in chosen if (text := dict(reversed(cells)).get(field))]


def findings_of(kind: str, key: str, rows: Rows, objects: Objects,
                watermark: int) -> Iterator[Finding]:
    for _, table, field in (it for it in GUIDES if it[0] == kind and it[2] in TARGETS):
        for text in cells_of(rows, table, field):
            target = text.lower() if field == 'hostName' else text
            if (TARGETS[field], target.encode()) not in objects:
                yield 1, kind, key, field, target, TARGETS[field]
    found = cells_of(rows, f'{kind}Statuses', 'status') if kind in STATUSES else []
    yield from ((3, kind, key, 'status', it, '') for it in found if it not in STATUSES[kind])
    if kind == 'domain' and 'ok' in found and set(found) != {'ok'}:
        yield 4, kind, key, 'status', 'ok', ''
    texts = {
        field: text
        for of, _, field in GUIDES if of == kind and field.endswith('Date')
        for text in cells_of(rows, None, field)
    }
    moments = {field: formats.moment(text) for field, text in texts.items()}
    yield from ((7, kind, key, field, texts[field], '') for field in texts
                if moments[field] is None)
    created, expired = moments.get('crDate'), moments.get('exDate')
    if created is not None and created > watermark:
        yield 5, kind, key, 'crDate', texts['crDate'], moment_text(watermark)
    if created is not None and expired is not None and expired < created:
        yield 6, kind, key, 'exDate', texts['exDate'], texts['crDate']


def findings(objects: Objects, watermark: int, counts: dict[str, int]) -> list[Finding]:
    """The findings V1 to V7 in objects, which are records by kind and key, in order."""
    found = {(2, kind, '', 'count', f'{count}', f'{count_of(objects, kind)}')
             for kind, count in counts.items() if count != count_of(objects, kind)}
    for (kind, key), record in objects.items():
        found |= {*findings_of(kind, key.decode(), read_record(record), objects, watermark)}
    return sorted(found, key=lambda it:
                  (it[0], KINDS.index(it[1]), *(text.encode() for text in it[2:])))


def count_of(objects: Iterable[Named], kind: str) -> int:
    return sum(it[0] == kind for it in objects)


# ---- names


def bare(name: str) -> str:
    return ''.join(it for it in name.lower() if it not in '._-')


def looks_like(name: str, wanted: str) -> bool:
    """Whether a name is another but for case and signs, and an f before it."""
    return bare(name) == wanted.lower() or bare(name[:1]) == 'f' and bare(
        name[1:]) == wanted.lower()


def is_disguised(name: str, wanted: str) -> bool:
    return name != wanted and looks_like(name, wanted)


def is_table_of(guide: Guide, table: Declared) -> bool:
    """Whether a declared table is the one that has the field of a guide."""
    kind, child, _ = guide
    return table['kind'] == kind and (table['role'] == 'parent' if child is None else
                                      (table['role'], table['name']) == ('child', child))


def is_under_other_name(guide: Guide, tables: Sequence[Declared]) -> bool:
    kind, child, field = guide
    children = [it for it in tables if (it['kind'], it['role']) == (kind, 'child')] if child else []
    fields = [name for it in tables if is_table_of(guide, it) for name in it['fields']]
    return any(is_disguised(it, field) for it in fields) or any(
        is_disguised(it['name'], child)
        or child == 'domainNs' and looks_like(it['name'], 'domainNameServers') for it in children)


def guide_text(guide: Guide) -> str:
    kind, child, field = guide
    return f'{child or kind} {field}'


def is_bundle(body: bytes) -> bool:
    try:
        return envelope_in(body) is not None
    except Refused:
        return False


def has_guide(guide: Guide, kind: str, record: bytes) -> bool:
    """Whether an object has the field of a guide, if it is of the kind that does: in its parent
    row, or in each row of that child table."""
    rows = read_record(record)
    rows = rows[:1] if guide[1] is None else [it for it in rows[1:] if it[0] == guide[1]]
    return kind != guide[0] or all(guide[2] in dict(cells) for _, cells in rows)


def names_stranger(record: bytes, objects: Objects) -> bool:
    """Whether a row of an object names a registrar that is not there."""
    return any(text and ('registrar', text.encode()) not in objects
               for _, cells in read_record(record)
               for text in map(dict(reversed(cells)).get, ('crRr', 'upRr', 'reRr', 'acRr')))


def roid_of(record: bytes) -> str:
    return ''.join(cells_of(read_record(record), None, 'roid'))


def lacks_required(kind: str, record: bytes) -> bool:
    """Whether an object lacks what is required of its kind. That its parent row has a `clID` is
    asked by another test."""
    rows = read_record(record)
    postal = [dict(reversed(cells)) for table, cells in rows[1:] if table == 'contactPostal']
    return any((
        any(not cells_of(rows, None, it) for it in REQUIRED.get(kind, ())),
        kind in STATUSES and dict(reversed(rows[0][1])).get('clID') == '',
        kind in STATUSES and not cells_of(rows, f'{kind}Statuses', 'status'),
        kind == 'contact' and not any(all(map(row.get, POSTAL)) for row in postal)))


def is_number(text: str, most: int) -> bool:
    return re.fullmatch('[0-9]{1,9}', text) is not None and int(text) <= most


def is_wrong_ds(cells: list[tuple[str, str]]) -> bool:
    """Whether a row of secDNS has a part of a DS, and is none."""
    tag, algorithm, kind, digest = (dict(reversed(cells)).get(it, '') for it in DS_PARTS)
    if not (tag or algorithm or kind or digest):
        return False
    if not (is_number(tag, 65535) and is_number(algorithm, 255) and is_number(kind, 255)):
        return True
    wanted = DIGEST_DIGITS.get(int(kind))
    is_long = len(digest) == wanted if wanted else len(digest) > 0 and len(digest) % 2 == 0
    return not (is_long and re.fullmatch('[0-9A-Fa-f]*', digest))


def version_of(text: str) -> str | None:
    """The version of the IP address that a text writes, or None. (Python knows addresses with a
    scope, as `fe80::1%eth0`.)"""
    try:
        return None if '%' in text else f'v{ipaddress.ip_address(text).version}'
    except ValueError:
        return None


def is_wrong_address(kind: str, table: str, cells: list[tuple[str, str]]) -> bool:
    """Whether a child row has an address that is none, or of another version than it says. The
    server of a domain may be without."""
    row = dict(reversed(cells))
    is_address = kind == 'host' and table == 'hostAddresses' or (
        kind == 'domain' and table == 'domainHostAttr' and row.get('addr', '') != '')
    return is_address and version_of(row.get('addr', '')) != (row.get('addrVersion') or 'v4')


def flaws_of(objects: Objects, tld: str | None) -> dict[str, list[Named]]:
    """The objects that break each rule, in order; tld is the one that is known, or None."""
    keys = sorted(objects, key=lambda it: (KINDS.index(it[0]), it[1]))
    roids = Counter((kind, roid) for (kind, _), it in objects.items() if (roid := roid_of(it)))
    # Where no TLD is known, or several are, each name is within.
    below = b'' if tld is None else f'.{tld}'.encode().lower()
    breaks = {
        'registrars': lambda kind, key: names_stranger(objects[kind, key], objects),
        'nndns': lambda kind, key: kind == 'nndn' and ('domain', key.lower()) in objects,
        'roids': lambda kind, key: roids[kind, roid_of(objects[kind, key])] > 1,
        'required': lambda kind, key: lacks_required(kind, objects[kind, key]),
        'outside': lambda kind, key: kind in ('domain', 'nndn') and not key.lower().endswith(below),
        'digests': lambda kind, key: kind == 'domain' and any(
            table == 'secDNS' and is_wrong_ds(cells)
            for table, cells in read_record(objects[kind, key])[1:]),
        'addresses': lambda kind, key: any(
            is_wrong_address(kind, table, cells)
            for table, cells in read_record(objects[kind, key])[1:]),
    }
    return {rule: [it for it in keys if breaks[rule](*it)] for rule in RULES}


class Seen:
    """What is seen of a store where the body of the chain's last deposit is a bundle. (One that
    went bad may have rows of which no deposit is read. It still declares tables.)"""

    def __init__(self, desk: Desk) -> None:
        bodies = [desk.held[it] for it in desk.steps]
        read = list(map(found_in, bodies))
        deposits = [it for it in read if isinstance(it, Deposit)]
        self.moment, self.gaps, self.parked = desk.moment, desk.gaps(), len(desk.parked)
        self.is_latest = desk.steps == desk.latest_chain()
        self.early = sum(it.verdict == 'A2' for it in desk.receipts.values())
        self.end = desk.place(desk.steps[-1]) if bodies else None
        self.counts = counts_in(envelope_in(bodies[-1])) if bodies else {}
        self.findings = findings(desk.objects, self.end[0], self.counts) if bodies else []
        self.objects = {kind: count_of(desk.objects, kind) for kind in KINDS}
        envelopes = [envelope_in(it) for it in filter(is_bundle, bodies)]
        self.tables = [it for envelope in envelopes for it in envelope.get('contents', [])]
        named = [
            it['tld'] for it in (envelope_in(body) for _, body in sorted(desk.held.items())
                                 if is_bundle(body)) if it.get('tld')
        ]
        self.tlds = [
            it for at, it in enumerate(named) if it.lower() not in map(str.lower, named[:at])
        ]
        self.notes = [
            control_spelled(it) for envelope in envelopes for it in envelope.get('notes', [])
        ]
        self.orphans = sum(it.orphans for it in deposits)
        self.spoiled = [
            at for at, body in sorted(desk.held.items())
            if hashlib.sha256(body).hexdigest() != desk.listed[at][4]
        ]
        self.are_read, self.made = deposits == read, made_by(deposits)
        self.is_rebuilt = self.are_read and self.made == desk.objects
        self.stored = desk.objects
        self.flaws = flaws_of(self.stored, self.tlds[0] if len(self.tlds) == 1 else None)


# ---- the lines

# What to do, where it is said of more than one test.
TAKE = 'take what `restore report gaps` names'
ANEW = 'go back to a copy of the store, or make it anew'


def end_line(seen: Seen) -> tuple[bool, str]:
    """Whether no place is listed after the end, up to the moment; and what is said of it."""
    if seen.end is None:
        return False, f'there is no chain; {TAKE}'
    listed = [it.place for it in seen.gaps if seen.moment is None or it.place[0] <= seen.moment]
    by = '' if seen.moment is None else f', up to the moment {moment_text(seen.moment)}'
    last = max(listed, key=in_order)
    later = '' if last == seen.end else f', and listed up to {place_text(last)}; {TAKE}'
    return not later, place_text(seen.end) + by + later


def control_spelled(text: str) -> str:
    """A text as it is shown: if it has control characters, these and its backslashes are
    escaped."""
    controls = {it: f'\\u{{{ord(it):x}}}' for it in text if unicodedata.category(it) == 'Cc'}
    others = {'\t': '\\t', '\n': '\\n', '\r': '\\r', '\\': '\\\\'}
    signs: dict[str, str | int | None] = {**controls, **others}
    return text.translate(str.maketrans(signs)) if controls else text


def counted(found: Sequence[It], words: Callable[[It], str]) -> str:
    """How many there are, and these words of the first one."""
    return f'{len(found)}{words(found[0])}' if found else ''


def named(found: Iterable[str], words: str) -> str:
    names = ', '.join(found)
    return f'{names} {words}' if names else ''


def undeclared(seen: Seen) -> list[Guide]:
    """The fields that a test needs and the deposits of the chain don't declare, or not for each
    object."""
    wanted = [it for it in GUIDES
              if seen.objects[it[0]] and (it[2] != 'idnTableId' or seen.objects['idn'])]
    declared = [it for it in wanted
                if any(is_table_of(it, table) and it[2] in table['fields']
                       for table in seen.tables)]
    return [it for it in wanted
            if it not in declared
            or not all(has_guide(it, kind, of) for (kind, _), of in seen.stored.items())]


def wrong_gaps(seen: Seen) -> dict[str, str]:
    """What is wrong with the chain and the places before its end, by the test."""
    outdated = [it for it in seen.gaps if it.state == 'chain' and it.awaited is not None]
    passed = [it for it in seen.gaps
              if it.state in ('missing', 'blocked')
              and seen.end and in_order(it.place) < in_order(seen.end)]
    is_late = seen.end and seen.end[0] > time.time_ns()
    return {
        'future': f"{place_text(seen.end)} is later than now; set this machine's clock, or ask the "
                  'agent which watermark it has' if is_late else '',
        'chain': '' if seen.is_latest else f'not the latest one of the held rows; {ANEW}',
        'resends': counted(
            outdated, lambda it: ' of the chain await a later resend, the first '
            f'{place_text(it.place)} resend {it.awaited}; ask the agent for it'),
        'gaps': counted(
            passed, lambda it: ' before the end are missing or blocked, the first '
            f'{place_text(it.place)} {it.state}; the chain goes past them'),
        'moment': '' if seen.moment is None else
                  f"{moment_text(seen.moment)} is set, and what is later doesn't count; take it "
                  'back by `restore as-of` with `latest`',
        'parked': f'{seen.parked} are listed by no row; ask the agent for the manifest that lists '
                  'them, see `restore report parked`' if seen.parked else '',
        'early': f"{seen.early} arrivals of version 1 had no row, and their bodies weren't kept; "
                 'take them again unless they are held' if seen.early else '',
    }


def finding_text(finding: Finding) -> str:
    code, kind, key, more, *_ = finding
    return ' '.join(filter(None, (f'V{code}', kind, control_spelled(key), more)))


def rule_text(found: Sequence[Named], words: str) -> str:
    """How many objects break a rule, these words, and the first of the objects."""
    first = ', '.join(f'{kind} {control_spelled(key.decode())}' for kind, key in found[:MOST_NAMED])
    return f'{len(found)} {words}: {first}' if found else ''


def wrong_objects(seen: Seen) -> dict[str, str]:
    """What is wrong with the objects, by the test."""
    broken = {rule: rule_text(seen.flaws[rule], words) for rule, words in RULES.items()}
    other_names = (guide_text(it) for it in GUIDES if is_under_other_name(it, seen.tables))
    return {
        'findings': counted(
            seen.findings,
            lambda it: f', the first {finding_text(it)}; see `restore report links`'),
        **broken,
        'orphans': f"{seen.orphans} child rows in the chain's deposits have no parent row, and are "
                   'lost; ask the agent by which field they belong to it' if seen.orphans else '',
        'counts': named([it for it in KINDS if it not in seen.counts],
                        "not declared by the chain's last deposit; ask the agent how many there "
                        'are'),
        'fields': named(map(guide_text, undeclared(seen)),
                        'declared by no deposit of the chain, or not for each object, and so not '
                        'checked; ask the agent which fields they are'),
        'names': named(other_names, 'under another name, and so not checked; have the deposits '
                       'declared by these names'),
    }


def wrong_bodies(seen: Seen) -> dict[str, str]:
    """What is wrong with the bodies that are held, by the test."""
    spoiled = counted(seen.spoiled, lambda it: ' held are gone or have another SHA-256 than '
                      f'listed, the first of row {it + 1}; {ANEW}')
    unread = '' if seen.are_read else f'one of the chain is gone or is no deposit; {ANEW}'
    return {
        'bodies': spoiled or unread,
        'tables': '' if seen.is_rebuilt else f"not those of the chain's deposits; {ANEW}",
        'notes': f"{len(seen.notes)} in the chain's deposits, from when their bundles were made; "
                 'each has a line below' if seen.notes else '',
    }


def tests_of(seen: Seen) -> Iterator[Tested]:
    """Each test in order: its name, whether it passes, and what its line says if it doesn't. Of the
    TLD and of the end this is said in any case."""
    tlds = ', '.join(map(control_spelled, seen.tlds)) or 'no held deposit names one'
    several = ' are named by the held deposits; make a store for each' if seen.tlds[1:] else ''
    yield 'tld', not several, tlds + several
    yield 'end', *end_line(seen)
    for name, wrong in {**wrong_gaps(seen), **wrong_objects(seen), **wrong_bodies(seen)}.items():
        yield name, not wrong, wrong


def is_accepted(tests: Iterable[Tested]) -> bool:
    """Whether the registry may be taken over: each test passes, but for those that are told
    alone."""
    return all(passes or name in TOLD_ALONE for name, passes, _ in tests)


def word_of(name: str, passes: bool) -> str:
    return 'ok' if passes else 'told' if name in TOLD_ALONE else 'wrong'


def line_of(name: str, passes: bool, said: str) -> str:
    """The line of a test."""
    line = f'{word_of(name, passes)} {name}'
    return f'{line}: {said}' if not passes or name in ('tld', 'end') else line

"""Small releases at random, with flaws: what an agent may leave out or get wrong, and what it may
name otherwise. Their deposits may be series, which `unpack_rde --described` makes of them."""
import functools
import random
import tempfile
from collections.abc import Callable
from collections.abc import Iterable
from collections.abc import Iterator
from collections.abc import Sequence

from tests.support.acceptance import GUIDES
from tests.support.acceptance import Guide
from tests.support.bundles import Header
from tests.support.bundles import manifest
from tests.support.formats import KINDS
from tests.support.formats import envelope_in
from tests.support.formats import sections
from tests.support.registries import TABLES
from tests.support.registries import Registry
from tests.support.registries import deposit
from tests.support.releases import Release
from tests.support.releases import numbered
from tests.support.unpacking import Described

# What makes another name of one.
Renaming = Callable[[str], str]
# How many objects of each kind there are at first.
FIRST = {'registrar': 2, 'idn': 1, 'contact': 3, 'host': 3, 'domain': 4, 'nndn': 1}
# What may be wrong with a release, beside its names.
FLAWS = ('uncounted', 'miscounted', 'orphans', 'cells', 'lost', 'unlisted', 'damaged', 'awaited',
         'revised', 'unknown base', 'same day')
# Other names for a table or a field: some look like it, the last ones don't.
TABLE_NAMES = (str.upper, lambda it: f'f{it[0].upper()}{it[1:]}', lambda it: f'{it[:2]}_{it[2:]}',
               lambda it: f'F_{it}', lambda it: f'{it}s', lambda it: f'ff{it}')
FIELD_NAMES = (lambda it: f'{it[:2]}-{it[2:]}.', *TABLE_NAMES)
# Texts by which a link leads to no object, a status is none, or a date is too early or too late.
OTHER_TEXTS = {
    'clID': 'GONE',
    'registrant': 'GONE',
    'contactId': 'GONE',
    'hostName': 'ns.gone.example',
    'idnTableId': 'GONE',
    'status': 'unheardOf',
    'crDate': '2031-01-01T00:00:00Z',
    'exDate': '2009-12-31T00:00:00Z'
}
NO_DATE = 'never'
# Addresses with the version that a row says: some are right, others are none, or of another one.
ADDRESSES = (('192.0.2.255', 'v4'), ('192.0.2.1', ''), ('2001:DB8::1', 'v6'),
             ('::ffff:192.0.2.1', 'v6'), ('1:2:3:4:5:6:7:8', 'v6'), ('', 'v4'), ('192.0.2', 'v4'),
             ('192.0.2.01', 'v4'), ('192.0.2.256', 'v4'), ('192.0.2.1 ', ''), ('::1%eth0', 'v6'),
             ('1::2::3', 'v6'), ('1:2:3:4:5:6:7:8::', 'v6'), ('12345::', 'v6'), ('::1', ''),
             ('2001:db8::1', 'v4'), ('192.0.2.1', 'v6'), ('2001:db8::1', 'V6'), ('', ''))


class Contents:
    """The tables of a deposit: of each its kind, its role, and its fields with the rows below
    them."""

    def __init__(self, registry: Registry, objects: Iterable[tuple[str, str]]) -> None:
        self.tables = {
            name: (kind, role, [[*fields]])
            for name, (kind, role, fields) in TABLES.items()
        }
        for kind, key in objects:
            for name, row in registry.objects[kind][key]:
                self.tables[name][2].append([*row])

    def lines_of(self, guide: Guide) -> tuple[list[list[str]], int]:
        """The fields and the rows of a table, and where the field of a guide is in each."""
        lines = self.tables[guide[1] or guide[0]][2]
        return lines, lines[0].index(guide[2])

    def leave_out(self, guide: Guide) -> None:
        lines, at = self.lines_of(guide)
        for it in lines:
            del it[at]

    def rename(self, guide: Guide, other_name: Renaming) -> None:
        lines, at = self.lines_of(guide)
        lines[0][at] = other_name(guide[2])

    def double(self, guide: Guide, other_name: Renaming) -> None:
        """Adds a field under another name beside the one of a guide."""
        lines, _ = self.lines_of(guide)
        for it in lines:
            it.append('')
        lines[0][-1] = other_name(guide[2])

    def rename_table(self, name: str, other: str) -> None:
        self.tables[other] = self.tables.pop(name)

    def spoil_cell(self, guide: Guide, text: str) -> None:
        """Gives a row another text. Of a status there is then a second row, which says `ok`."""
        lines, at = self.lines_of(guide)
        if len(lines) > 1:
            if guide[2] == 'status':
                lines.append([*lines[1][:at], 'ok', *lines[1][at + 1:]])
            lines[1][at] = text

    def spoil_addresses(self, chance: random.Random) -> None:
        """Gives some hosts and the servers of some domains other addresses."""
        for it in self.tables['hostAddresses'][2][1:]:
            if chance.random() < 0.3:
                it[1:] = chance.choice(ADDRESSES)
        keys = [it[0] for it in self.tables['domain'][2][1:] if chance.random() < 0.3]
        fields = ['name', 'hostName', 'addr', 'addrVersion']
        self.tables['domainHostAttr'] = ('domain', 'child', [
            fields, *([it, 'ns.other.example', *chance.choice(ADDRESSES)] for it in keys)
        ])

    def body(self, header: Header, deletes: Sequence[str], counts: dict[str, int]) -> bytes:
        tables = {
            name: it
            for name, it in self.tables.items() if len(it[2]) > 1 or header.type == 'FULL'
        }
        told = {
            'id': header.id,
            'type': header.type,
            'watermark': header.watermark,
            'prevId': header.prev,
            'resend': header.resend
        }
        return deposit(
            told, {name: lines[1:]
                   for name, (*_, lines) in tables.items()}, {'domain': deletes}, counts,
            {name: (kind, role, lines[0])
             for name, (kind, role, lines) in tables.items()})


def day_text(day: int, hour: int = 0) -> str:
    return f'2024-03-{day:02}T{hour:02}:00:00Z'


def header_of(kind: str, day: int) -> Header:
    return Header(f'{kind[0]}{day}', kind, day_text(day))


class Agent:
    """Makes the deposits of a registry, and gets them wrong in these ways."""

    def __init__(self, seed: int, flaws: Sequence[str] = ()) -> None:
        self.random, self.flaws = random.Random(seed), flaws
        # What draws addresses, so that all else of a seed is the same with them and without.
        self.chance = random.Random(f'addresses {seed}')
        self.registry = Registry(seed, FIRST, words=0)
        self.last_id = ''
        self.deleted: list[str] = []
        self.listed: list[tuple[Header, bytes]] = []
        self.bodies: list[bytes] = []
        # The field of this guide is misnamed, in this way.
        self.guide, self.other_name = self.random.choice(GUIDES), self.random.choice(TABLE_NAMES)

    def has(self, flaw: str, share: float = 1.0) -> bool:
        return flaw in self.flaws and self.random.random() < share

    def change(self) -> tuple[list[tuple[str, str]], list[str]]:
        """Some domains go, and others come. Gives the objects that a Differential has, and those
        that it deletes."""
        keys = self.registry.keys
        gone = self.random.sample(keys['domain'], self.random.randint(0,
                                                                      min(2, len(keys['domain']))))
        keys['domain'] = [it for it in keys['domain'] if it not in gone]
        self.deleted += gone
        made = [(kind, self.registry.add(kind)) for kind in ('contact', 'domain')]
        changed = [(kind, self.registry.some(kind)) for kind in ('contact', 'host')]
        for it in changed:
            self.registry.change(*it)
        return list(dict.fromkeys(made + changed)), gone

    def all_objects(self) -> list[tuple[str, str]]:
        return [(kind, key) for kind, keys in self.registry.keys.items() for key in keys]

    def spoil(self, contents: Contents) -> None:
        if 'addresses' in self.flaws:
            contents.spoil_addresses(self.chance)
        if self.has('cells', 0.7):
            for guide in self.random.sample(GUIDES, 4):
                contents.spoil_cell(
                    guide, NO_DATE if guide[2].endswith('Date') and self.random.random() < 0.5 else
                    OTHER_TEXTS[guide[2]])
        if self.has('orphans', 0.7):
            contents.tables['domainNs'][2].append(['nobody.example', self.registry.some('host')])
        name = self.guide[1] or self.guide[0]
        if self.has('left out', 0.8):
            contents.leave_out(self.guide)
        elif self.has('doubled', 0.8):
            contents.double(self.guide, self.other_name)
        elif self.has('renamed table', 0.8) and self.guide[1]:
            contents.rename_table(name, self.other_name(name))
        elif self.has('renamed', 0.8):
            contents.rename(self.guide, self.other_name)

    def counts(self) -> dict[str, int]:
        counts = {kind: len(self.registry.keys[kind]) for kind in KINDS}
        if self.has('miscounted', 0.7):
            counts[self.random.choice(KINDS)] += 1
        if self.has('uncounted', 0.7):
            return {it: counts[it] for it in self.random.sample(KINDS, self.random.randint(0, 5))}
        return counts

    def body(self, header: Header, objects: Iterable[tuple[str, str]],
             deletes: Sequence[str]) -> bytes:
        contents = Contents(self.registry, objects)
        self.spoil(contents)
        return contents.body(header, deletes, self.counts())

    def bundles(self, header: Header, body: bytes) -> list[tuple[Header, bytes]]:
        """A deposit, or the bundles of the series that it is made."""
        return [(header, body)]

    def hand_in(self, header: Header, body: bytes, is_awaited: bool) -> None:
        """Lists a deposit and lets it arrive; or one of both, or no deposit at all."""
        is_late = self.listed != [] or self.random.random() < 0.2
        if is_late and self.has('unlisted', 0.3):
            self.bodies.append(body)
            return
        if is_late and self.has('damaged', 0.3):
            body = body[:-1]
        self.listed.append((header, body))
        if not (is_awaited or is_late and self.has('lost', 0.4)):
            self.bodies.append(body)

    def add(self, kind: str, day: int, objects: Sequence[tuple[str, str]],
            deletes: Sequence[str]) -> None:
        """A deposit of this day, and sometimes a later revision of it, for which the desk may have
        to wait."""
        header = header_of(kind, day)
        if kind == 'DIFF':
            header = header._replace(prev='X9' if self.has('unknown base', 0.3) else self.last_id)
        is_awaited = self.has('awaited', 0.4)
        for resend in range(2 if is_awaited or self.has('revised', 0.4) else 1):
            header = header._replace(resend=resend)
            for its, body in self.bundles(header, self.body(header, objects, deletes)):
                self.hand_in(its, body, is_awaited and resend > 0)
        self.last_id = header.id

    def add_later(self, day: int) -> None:
        """A deposit of a later day, and sometimes a Full of the same one."""
        kind = self.random.choices(('DIFF', 'INCR', 'FULL'), (6, 2, 1))[0]
        changed, gone = self.change()
        if kind == 'DIFF':
            self.add(kind, day, changed, gone)
        elif kind == 'INCR':
            self.add(kind, day, self.all_objects(), list(self.deleted))
        if kind == 'FULL' or self.has('same day', 0.6):
            self.add('FULL', day, self.all_objects(), [])

    def make(self) -> Release:
        last, moment = self.random.randint(1, 6), None
        self.add('FULL', 1, self.all_objects(), [])
        for day in range(2, last + 1):
            self.add_later(day)
        self.random.shuffle(self.bodies)
        if self.random.random() < 0.4:
            moment = day_text(self.random.randint(1, last), self.random.choice((0, 12)))
        return Release(manifest(self.listed), numbered(self.bodies), moment)


class AgentOfSeries(Agent):
    """An agent whose deposits are series: a bundle has fewer rows or bytes than it may."""

    def __init__(self, seed: int, flaws: Sequence[str] = ()) -> None:
        super().__init__(seed, flaws)
        self.full: tempfile.TemporaryDirectory[str] | None = None  # the folder of the last Full

    def limits(self) -> list[str]:
        pick = self.random.randint
        return ['--part-rows', f'{pick(9, 30)}'] if pick(
            0, 1) else ['--part-bytes', f'{pick(900, 2000)}']

    def bundles(self, header: Header, body: bytes) -> list[tuple[Header, bytes]]:
        (_, envelope), *files = sections(body)
        folder = tempfile.TemporaryDirectory(prefix='case-')
        known = ['--known', f'{self.full.name}/out'] if self.full else []
        made = Described(folder.name, envelope, dict(files), ['--series', *self.limits(), *known])
        if made.status:
            raise AssertionError(made.lines)
        if header.type == 'FULL':
            self.full = folder
        return [(header_in(it), it) for it in made.bundles()]


def header_in(body: bytes) -> Header:
    """The header of a bundle."""
    told = envelope_in(body)
    resend = told['resend'].whole() if 'resend' in told else 0
    return Header(told['id'], told['type'], told['watermark'], told.get('prevId', ''), resend)


def draw_flaws(chance: random.Random, flaws: Sequence[str]) -> list[str]:
    """Of some there are none, of most a few, and half of them have wrong names."""
    names = [chance.choice(
        ('left out', 'doubled', 'renamed', 'renamed table'))] if chance.random() < 0.5 else []
    return names + chance.sample(flaws, chance.randint(0, 6))


def draw_series(seed: int) -> Release:
    """The release of a seed whose deposits are series. (The last bundle of a Full would be a
    Differential of the same day.)"""
    chance = random.Random(f'series {seed}')
    return AgentOfSeries(seed, draw_flaws(chance, [it for it in FLAWS if it != 'same day'])).make()


def draw_release(seed: int) -> Release:
    """The release of a seed. Of two in three some addresses are wrong."""
    flaws = draw_flaws(random.Random(seed), FLAWS)
    return Agent(seed, [*flaws, *(['addresses'] if seed % 3 else [])]).make()


def some_release(seed: int) -> Release:
    """The release of a seed whose tables are all there, and may not be right."""
    return Agent(seed, ('revised', 'lost', 'same day', 'cells', 'orphans', 'unlisted')).make()


# ---- releases with other names


def empty(contents: Contents, kind: str, *guides: Guide) -> None:
    """Takes the objects of a kind away, and the fields of guides."""
    del contents.tables[kind][2][1:]
    for it in guides:
        contents.leave_out(it)


def add_elsewhere(contents: Contents) -> None:
    """Adds names that look like those of guides to tables of other kinds."""
    contents.tables |= {
        'domain_ns': ('host', 'child', [['name']]),
        'fContactStatuses': ('domain', 'child', [['domainName']])
    }
    for guide in (('host', None, 'clID'), ('domain', 'domainNs', 'hostName')):
        contents.double(guide, lambda _: 'fRegistrant')


def full_release(change: Callable[[Contents], object]) -> Release:
    """A release of one Full without a flaw but what is changed in its contents."""
    agent = Agent(1)
    contents = Contents(agent.registry, agent.all_objects())
    change(contents)
    header = header_of('FULL', 1)
    body = contents.body(header, [], agent.counts())
    return Release(manifest([(header, body)]), numbered([body]))


def each(change: Callable[..., None], *more: Renaming) -> Callable[[Contents], object]:
    return lambda contents: [change(contents, it, *more) for it in GUIDES]


def renamed_tables(names: Iterable[str], other_name: Renaming) -> Callable[[Contents], object]:
    def change(contents: Contents) -> None:
        for it in names:
            contents.rename_table(it, other_name(it))
    return change


def misnamed_releases() -> Iterator[tuple[str, Release]]:
    """Releases of one Full each, with what is changed in it: fields of all guides are left out, or
    have other names, or tables have."""
    children = sorted({it[1] for it in GUIDES if it[1]})
    yield 'nothing', full_release(lambda _: None)
    yield 'left out', full_release(each(Contents.leave_out))
    for other_name in FIELD_NAMES:
        yield f'fields as {other_name("clID")}', full_release(each(Contents.rename, other_name))
        yield f'fields as {other_name("clID")} too', full_release(each(Contents.double, other_name))
    for other_name in TABLE_NAMES:
        yield f'tables as {other_name("domainNs")}', full_release(
            renamed_tables(children, other_name))
    for other in ('domainNameServers', 'fdomain_nameservers', 'domainNameServer'):
        yield f'hosts in {other}', full_release(
            functools.partial(Contents.rename_table, name='domainNs', other=other))
    # A parent table may have any name.
    yield 'parent tables', full_release(renamed_tables(KINDS, lambda it: f'my_{it}'))
    yield 'names in tables of other kinds', full_release(add_elsewhere)
    # What no object has, or leads to, needs no field.
    yield 'no NNDN objects', full_release(lambda it: empty(it, 'nndn',
                                                           ('nndn', None, 'idnTableId')))
    yield 'no IDN tables', full_release(lambda it: empty(it, 'idn', ('nndn', None, 'idnTableId'),
                                                         ('domain', None, 'idnTableId')))

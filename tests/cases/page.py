"""`handover page`: what stands on the page of a store, against the plain model, and pages of texts
that look like markup. (handovers.py has where no page is written.)"""
import random
from collections import Counter
from collections.abc import Iterator
from collections.abc import Mapping
from collections.abc import Sequence
from itertools import groupby

from tests.cases.acceptances import full
from tests.cases.acceptances import release_of
from tests.cases.handovers import clear
from tests.support.acceptance import Seen
from tests.support.acceptance import control_spelled
from tests.support.acceptance import is_accepted
from tests.support.acceptance import line_of
from tests.support.acceptance import tests_of
from tests.support.acceptance import word_of
from tests.support.bundles import Header
from tests.support.bundles import Table
from tests.support.bundles import deposit
from tests.support.bundles import manifest
from tests.support.files import read
from tests.support.flawed import draw_release
from tests.support.formats import KINDS
from tests.support.formats import moment_text
from tests.support.limits import MOST_LISTED
from tests.support.model import Desk
from tests.support.model import Gap
from tests.support.pages import Element
from tests.support.pages import counted_tables
from tests.support.pages import read_page
from tests.support.pages import rows_of
from tests.support.pages import section
from tests.support.registries import csv_text
from tests.support.releases import SAMPLES
from tests.support.releases import Release
from tests.support.releases import numbered
from tests.support.stage import Failed
from tests.support.stage import Stage
from tests.support.stage import Wanted
from tests.support.stage import case
from tests.support.stage import compare
from tests.support.stage import compare_all
from tests.support.stores import run

# A mark: its look, where it is, and its title; and an end of a part of the chain's line.
Mark = tuple[str, str, str, str]
Stand = tuple[str, str]
SEEDS = (*range(26), 305, 129, 68, 28)
# How many of what may be many are shown, and how far apart two marks of one look are at least, in
# thousandths.
SHOWN, APART = 20, 16
LANES = {'FULL': 'Full', 'INCR': 'Incremental', 'DIFF': 'Differential'}
STATES = {
    'standing': 'standing',
    'chain': 'in the chain',
    'blocked': 'blocked',
    'missing': 'missing'
}
# What a page says of each code of findings and of each verdict, and of each mark; and the headings
# of its tables, by the section.
MEANINGS = {
    'V1': 'a link leads to no object',
    'V2': 'a kind has another number of objects than declared',
    'V3': "a status is none of its kind's",
    'V4': 'a domain is ok, and has another status',
    'V5': "created after the chain's end",
    'V6': 'expires before it was created',
    'V7': 'a date has another form, or is no date',
    'A1': 'held, as the deposit of a listed row',
    'A2': 'listed by no row, and not kept',
    'A3': 'listed, and no deposit',
    'A4': 'another deposit than its row says',
    'A5': 'listed by no row when it came, and kept'
}
MARKS = {
    'chain': 'in the chain, which is the line',
    'standing': "standing: a chain ends there, and it isn't the latest",
    'blocked': "blocked: what it builds on isn't held",
    'missing': 'missing: not held',
    'awaited': 'held, and a later resend is awaited'
}
HEADINGS = {
    'tests': ('Test', 'Result', 'What was found, and what to do'),
    'release':
        ('Type', 'From', 'To', 'Places', 'State', 'Resend held', 'Blocked by', 'Resend awaited'),
    'objects': ('Kind', 'Objects', 'Declared', 'Compared', 'Bars'),
    'findings': ('Kind', 'Key', 'Field', 'Value', 'Besides'),
    'receipts': ('Receipt', 'Number', 'Fault', 'Id', 'Resend'),
    'parked': ('SHA-256', 'Bytes')
}
# The height of a lane, and of a state in it.
HEIGHTS, TRACKS = dict(zip(
    LANES, (0, 76, 152))), {'standing': 39, 'chain': 52, 'missing': 65, 'blocked': 78}


# ---- the plain model


def cell(value: object) -> str:
    return '' if value is None else f'{value}'


def runs_of(gaps: Sequence[Gap]) -> Iterator[list[str]]:
    """The rows of the release: those of one type that follow one another and are alike."""
    for kind, name in LANES.items():
        for (state, *others), its in groupby((it for it in gaps if it.place[1] == kind),
                                             key=lambda it: it[1:]):
            moments = [moment_text(it.place[0]) for it in its]
            used, blocker, awaited = map(cell, others)
            yield [
                name, moments[0], moments[-1], f'{len(moments)}', STATES[state], used, blocker,
                awaited
            ]


def position(gaps: Sequence[Gap], moment: int) -> int:
    """Where a moment stands between the first and the last one, in percent, and in thousandths."""
    first, span = gaps[0].place[0], gaps[-1].place[0] - gaps[0].place[0]
    return min(max(moment - first, 0), span) * 1000 // span if span else 0


def percent(thousandths: int) -> str:
    return f'{thousandths // 10}.{thousandths % 10}%'


def marks_of(gaps: Sequence[Gap]) -> Iterator[Mark]:
    """The marks of places: those of one look are one mark where they stand close to its first."""
    for kind in LANES:
        for state in STATES:
            for is_awaited in (False, True):
                marks: list[tuple[int, list[Gap]]] = []
                for it in gaps:
                    if (it.place[1], it.state, it.awaited is not None) == (kind, state, is_awaited):
                        x = position(gaps, it.place[0])
                        if marks and x < marks[-1][0] + APART:
                            marks[-1][1].append(it)
                        else:
                            marks.append((x, [it]))
                for x, places in marks:
                    at = percent(x), f'{HEIGHTS[kind] + TRACKS[state]}'
                    yield f'#{state}', *at, title_of(kind, places)
                    if is_awaited and state != 'missing':
                        yield '#awaited', *at, ''


def title_of(kind: str, places: Sequence[Gap]) -> str:
    ((first, _), state, _, blocker, awaited), count = places[0], len(places)
    when = moment_text(
        first
    ) if count == 1 else f'{count} from {moment_text(first)} to {moment_text(places[-1].place[0])}'
    by = '' if blocker is None else f', by {blocker}'
    return f'{LANES[kind]}, {when}: {STATES[state]}{by}' + ('' if awaited is None else
                                                            f', awaited resend {awaited}')


def way_of(gaps: Sequence[Gap]) -> list[tuple[Stand, Stand]]:
    """The ends of the straight parts of the chain's line: along a lane it is one part."""
    parts: list[tuple[Stand, Stand]] = []
    for (moment, kind), state, *_ in gaps:
        if state == 'chain':
            stand = percent(position(gaps, moment)), kind
            if not parts:
                parts = [(stand, stand)]
            elif parts[-1][0][1] == parts[-1][1][1] == kind:
                parts[-1] = parts[-1][0], stand
            else:
                parts.append((parts[-1][1], stand))
    return parts


def labels_of(gaps: Sequence[Gap], moment: int | None) -> Iterator[str]:
    """What is written in the picture, with its place along the axis: the lanes, the moments at the
    ends, and where the moment is that is set."""
    yield from (f'lane 0.0% {it}' for it in LANES.values())
    yield f'from 0.0% {moment_text(gaps[0].place[0])}'
    yield f'to 100.0% {moment_text(gaps[-1].place[0])}'
    if moment is not None:
        x = position(gaps, moment)
        yield f'moment {"from" if x < 500 else "to"} {percent(x)} moment'


# ---- a page, section by section


def check_headings(page: Element, _: Seen) -> None:
    for name, wanted in HEADINGS.items():
        for table in section(page, name).all('table'):
            row = table.one('thead').one('tr')
            compare_all(f'headings of {name}', wanted, (it.text() for it in row.elements()))


def check_tests(page: Element, seen: Seen) -> None:
    tests = list(tests_of(seen))
    rows = rows_of(section(page, 'tests').one('table'))
    compare_all('tests', (line_of(*it) for it in tests),
                (f'{word} {name}: {detail}' if detail else f'{word} {name}'
                 for name, word, detail in rows))
    wrong = sum(word_of(name, passes) == 'wrong' for name, passes, _ in tests)
    verdict = (
        f"The registry isn't to be taken over as it is. Tests that are wrong: {wrong} of "
        f"{len(tests)}."
        if wrong else 'The registry may be taken over: no test is wrong.')
    told = next(it for it in page.one('header').all('p')
                if 'verdict' in it.attributes.get('class', ''))
    compare('verdict', f'{verdict} {"ok" if is_accepted(tests) else "wrong"}',
            f'{told.text()} {told.attributes["class"].split()[1]}')


def check_facts(page: Element, seen: Seen) -> None:
    chain = sum(it.state == 'chain' for it in seen.gaps)
    facts = [
        f'Deposits in the chain: {chain}', f'Objects: {sum(seen.objects.values())}',
        f'Findings: {len(seen.findings)}', f'Orphans: {seen.orphans}',
        f'Parked bodies: {seen.parked}'
    ]
    compare_all('facts', facts, (it.text() for it in page.one('header').all('li')))
    moment = page.one('header').elements()[2].text()
    compare(
        'moment', 'No moment is set: the latest chain counts.' if seen.moment is None else
        f"It is rebuilt as of the moment {moment_text(seen.moment)}: chains that end later don't "
        "count.",
        moment)


def check_release(page: Element, seen: Seen) -> None:
    part, gaps = section(page, 'release'), seen.gaps
    compare_all('runs', runs_of(gaps), rows_of(part.one('table')))
    picture = next(it for it in part.all('svg') if it.attributes.get('role') == 'img')
    compare_all('marks', marks_of(gaps), ((*map(it.attributes.get, ('href', 'x', 'y')), it.text())
                                          for it in picture.all('use')))
    lines = [it.attributes for it in picture.all('line')]
    heights = {kind: HEIGHTS[kind] + TRACKS['chain'] for kind in LANES}
    compare_all('way',
                (f'{x} {heights[kind]} {to} {heights[of]}' for (x, kind), (to, of) in way_of(gaps)),
                (f'{it["x1"]} {it["y1"]} {it["x2"]} {it["y2"]}'
                 for it in lines if it['class'] == 'way'))
    compare_all('moment', [] if seen.moment is None else [percent(position(gaps, seen.moment))],
                (it['x1'] for it in lines if it['class'] == 'moment'))
    counts = Counter(it.state for it in gaps) | Counter(awaited=sum(
        it.awaited is not None and it.state != 'missing' for it in gaps))
    compare_all('key', (f'{it} {counts[it]} {words}' for it, words in MARKS.items()),
                (f'{it.one("use").attributes["href"][1:]} {it.text()}' for it in part.all('li')))
    labels = [(it.attributes, it.text()) for it in picture.all('text')]
    compare_all('labels', labels_of(gaps, seen.moment),
                (f'{it["class"]} {it["x"]} {text}' for it, text in labels))
    compare_all('lanes', (f'{HEIGHTS[kind] + 24} {name}' for kind, name in LANES.items()),
                (f'{it["y"]} {text}' for it, text in labels if it['class'] == 'lane'))


def check_objects(page: Element, seen: Seen) -> None:
    def compared(kind: str) -> str:
        count = seen.counts.get(kind)
        return 'not declared' if count is None else 'as declared' if count == seen.objects[
            kind] else 'otherwise than declared'

    table = section(page, 'objects').one('table')
    wanted = ([kind, f'{seen.objects[kind]}',
               cell(seen.counts.get(kind)),
               compared(kind), ''] for kind in KINDS)
    compare_all('objects', wanted, rows_of(table))
    most = max([*seen.objects.values(), *seen.counts.values()])
    counts = (it for kind in KINDS for it in (seen.objects[kind], seen.counts.get(kind, 0)))
    compare_all('bars', (percent(it * 1000 // most if most else 0) for it in counts),
                (it.attributes['width'] for it in table.all('rect')))


def check_counted(what: str, part: Element, wanted: Mapping[str, list[list[str]]]) -> None:
    """Compares tables of what is found, by their codes: what each says, how many there are, and the
    first of them."""
    found, some = counted_tables(part), {name: rows for name, rows in wanted.items() if rows}
    compare_all(what, (f'{name}: {MEANINGS[name]}: {len(rows)}' for name, rows in some.items()),
                (f'{it.meaning}: {it.number}' for it in found))
    for (name, rows), it in zip(some.items(), found):
        compare(f'caption of {name}', 'All' if len(rows) <= SHOWN else f'The first {SHOWN}',
                it.caption)
        compare_all(f'{what} {name}', rows[:SHOWN], it.rows)


def check_lists(page: Element, seen: Seen, desk: Desk) -> None:
    shown = [(code, [kind, *map(control_spelled, texts)]) for code, kind, *texts in seen.findings]
    check_counted('findings', section(page, 'findings'), {
        f'V{code}': [it for at, it in shown if at == code]
        for code in sorted({at
                            for at, _ in shown})
    })
    replies = [line.split(',') for line in desk.receipt_rows()]
    receipts = {
        f'A{at}': [[receipt, number, fault, name, resend]
                   for receipt, number, verdict, fault, name, resend, *_ in replies
                   if verdict == f'A{at}']
        for at in range(1, 6)
    }
    check_counted('receipts', section(page, 'receipts'), receipts)
    parked = section(page, 'parked')
    rows = rows_of(parked.one('table')) if desk.parked else [it.text() for it in parked.all('p')]
    compare_all('parked', [it.split(',') for it in desk.parked_rows()]
                or ['None: each body that is kept is listed.'], rows)


def check_page(stage: Stage, release: Release, store: str = 'a.db') -> bytes:
    """Compares the page of a release's store, which stays as it is, and of which a second page is
    the same. Gives its bytes."""
    release.rebuild(stage, store)
    before, desk = read(stage.at(store)), release.desk()
    for it in ('page', 'again'):
        stage.check(f'page --store {store} {store}-{it}', Wanted(), program='handover')
    body = read(stage.at(f'{store}-page'))
    if body != read(stage.at(f'{store}-again')) or read(stage.at(store)) != before:
        raise Failed('two pages differ, or the store is changed')
    page, seen = read_page(body), Seen(desk)
    verdict = 'May be taken over' if is_accepted(list(tests_of(seen))) else 'Not to be taken over'
    registry = ' '.join(['registry', *map(control_spelled, seen.tlds)])
    told = f'{registry} as of {moment_text(seen.end[0])}' if seen.end else ('no registry, since '
                                                                            'there is no chain')
    compare('title', f'{verdict}: {told}', page.one('h1').text())
    notes = [it.text() for it in section(page, 'notes').all('li')] if seen.notes else []
    compare_all('notes', seen.notes, notes)
    for check in (check_headings, check_tests, check_facts, check_release, check_objects):
        check(page, seen)
    check_lists(page, seen, desk)
    return body


def test_random_releases(stage: Stage) -> None:
    """The pages of random releases."""
    for seed in SEEDS:
        with case(f'seed {seed}'):
            check_page(stage, draw_release(seed), f'{seed}.db')


def test_told(stage: Stage) -> None:
    """The page of a release with a TLD and notes."""
    check_page(
        stage,
        release_of((F1, full(F1, tld='example', notes=['unknown: <eppParams> 1', 'left\nout']))))


def test_twenty(stage: Stage) -> None:
    """The pages of what is found twenty times, which is shown whole, and once more."""
    for count in (SHOWN, SHOWN + 1):
        keys = [f'C{at:02}' for at in range(count)]
        tables = [
            Table('contact', 'contact', 'parent', ('id', 'clID', 'crDate'),
                  csv_text([it, 'R1', 'never'] for it in keys)),
            Table('contactStatuses', 'contact', 'child', ('id', 'status'),
                  csv_text([it, 'unheardOf'] for it in keys))
        ]
        bodies = [deposit(F1, tables), *(it.encode() for it in keys)]
        release = Release(manifest([(F1, bodies[0])]), numbered(bodies))
        found = Counter(code for code, *_ in Seen(release.desk()).findings)
        compare('findings', f'{[count] * 3}', f'{[found[it] for it in (1, 3, 7)]}')
        with case(f'{count} times'):
            check_page(stage, release, f'{count}.db')


def test_blockers(stage: Stage) -> None:
    """The page of deposits that others block: two that are not held, and two that are not
    listed."""
    def at(day: int) -> str:
        return f'2024-03-{day:02}T00:00:00Z'

    fulls = [Header(f'F{day}', 'FULL', at(day)) for day in (1, 2, 3)]
    others = [Header(f'D{day}', 'DIFF', at(day), prev)
              for day, prev in ((4, 'F2'), (5, 'F3'), (6, 'X1'), (7, 'X2'))]
    listed = [(it, deposit(it)) for it in (*fulls, *others)]
    held = [body for it, body in listed if it.id not in ('F2', 'F3')]
    release = Release(manifest(listed), numbered(held))
    blockers = [it.blocker for it in Seen(release.desk()).gaps if it.state == 'blocked']
    compare_all('blockers', (f'{at(2)} FULL', f'{at(3)} FULL', 'unlisted X1', 'unlisted X2'),
                blockers)
    check_page(stage, release)


def test_samples(stage: Stage) -> None:
    """The pages of the samples."""
    for name, release in SAMPLES.items():
        with case(name):
            check_page(stage, release)
        clear(stage)


HOSTILE = ('<script>alert(1)</script>', '"><img src=x onerror=alert(1)>', "' onload='alert(1)",
           '&lt;b&gt; &amp; &#39;', '</style><style>*{}', '<!--', ']]>', '\x00\x01\x1b[31m',
           'a\rb\nc\td', 'C:\\n\x7f', '\u202eevil\u2069', '\ufeff', '\u2028', '\U0001f600', 'é',
           '%s%n', 'http://example.com/x.js')
F1 = Header('F1', 'FULL', '2024-03-03T00:00:00Z')


def has_controls(text: bytes, most_lines: int) -> bool:
    return any(it < 32 and it != 10 for it in text) or text.count(b'\n') != most_lines


def test_hostile_texts(stage: Stage) -> None:
    """The page of a registry whose texts look like markup, or have control characters."""
    # A Full in which each of these is a key, a link, a status and a date that is none.
    tables = [
        Table('contact', 'contact', 'parent', ('id', 'clID', 'crDate'),
              csv_text([it, it, it] for it in HOSTILE)),
        Table('contactStatuses', 'contact', 'child', ('id', 'status'),
              csv_text([it, it] for it in HOSTILE))
    ]
    body = deposit(F1, tables, counts={'contact': 999})
    text = check_page(stage, Release(manifest([(F1, body)]), numbered([body])))
    if b'<script' in text or b'<img' in text or has_controls(text, 2):
        raise Failed('a text of a deposit stands in the page as it is')
    if has_controls(run(stage, 'check --store a.db', 'handover', (1,)), 24):
        raise Failed('a text of a deposit stands in the lines of check as it is')


def many_places() -> Release:
    """A release of 4,096 places, where some of the bodies arrive: all from the last Full on."""
    chance, listed, bodies = random.Random(1), [], []
    for at in range(MOST_LISTED):
        kind, prev = ('FULL', '') if at % 64 == 0 else ('DIFF', f'N{at - 1}')
        header = Header(f'N{at}', kind, moment_text(at * 43_200 * 10**9), prev)
        body = deposit(header)
        listed.append((header, body))
        if at >= MOST_LISTED - 64 or chance.random() < 0.2:
            bodies.append(body)
    return Release(manifest(listed), numbered(bodies))


def test_many_places(stage: Stage) -> None:
    """The page of a release of 4,096 places, of which some are held: it is short, and no mark
    stands close to another one."""
    if len(check_page(stage, many_places())) > 500_000:
        raise Failed('the page is too long')

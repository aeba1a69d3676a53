"""Transcripts: test cases as plain text. Each plays in an empty folder, where nothing of another
one is.

    == TITLE                        a case begins
    # TEXT                          a comment
    folder PATH                     makes a folder
    file PATH = NAME                makes a file: a copy of tests/files/NAME
    file PATH = "TEXT"              .. with this text
    zeros PATH = COUNT              .. with this many zero bytes
    link PATH -> TARGET             makes a link
    sql PATH = "STATEMENTS"         changes a database, or makes it
    store-1 PATH = NAME N:NAME ..   makes a store of version 1: of a manifest, with bodies that it
    took under their numbers
    parked PATH = COUNT             parks the bodies 0001, 0002 .. in a store
    bodies BODY ..                  makes files of these names: worked bodies
    (tests/support/bodies.py)
    manifest PATH = BODY .. "ROWS"  makes a manifest that lists worked bodies, and has further rows
    if there is such a text
    first-store PATH = FILE N:BODY ..
                                    writes the statements that make a store of version 1: of a
                                    manifest that is in the folder, with
                                    worked bodies that it took under their numbers
    $ restore WORDS, $ pack WORDS, $ handover WORDS
                                    runs that program. Up to an empty line there follow the lines of
                                    standard output, and
    ~ TEXT                          .. in their place: what standard output must have somewhere
    ! TEXT                          .. a line of standard error; `! ...` is any text, but some
    ? STATUS                        .. the status, if it isn't 0
    $ desk_harness                  runs desk_harness. Up to an empty line there follow
    > LINE                          .. what it is told, with the lines of its answer below. Below
    `run N` are N lines that it is told, and
                                    then the lines of the one answer

A word or a text in quotes is a JSON string: the empty word is "". A line of standard output or of
an answer that is empty, or begins like a line of another kind, has a backslash before it; so has a
line of standard error after its mark."""
import json
import os
import re
from collections.abc import Callable
from collections.abc import Iterator
from collections.abc import Sequence
from dataclasses import dataclass
from dataclasses import field

from tests.support.bodies import BODIES
from tests.support.harness import Harness
from tests.support.stage import Stage
from tests.support.stage import Wanted
from tests.support.stage import case
from tests.support.steps import FILES
from tests.support.steps import Bodies
from tests.support.steps import Copy
from tests.support.steps import FirstScript
from tests.support.steps import FirstStore
from tests.support.steps import Folder
from tests.support.steps import Link
from tests.support.steps import Manifest
from tests.support.steps import Parked
from tests.support.steps import Statements
from tests.support.steps import Step
from tests.support.steps import Text
from tests.support.steps import Zeros
from tests.support.steps import step

WORD = re.compile(r' *("(?:[^"\\]|\\.)*"|[^\s"]\S*)(?= |$)')
# The programs that are run on words, and the marks below a run of them.
RUN, MARKS = ('restore', 'pack', 'handover'), '~!?'
# The mark below a run of desk_harness, and what stands before a text that begins with a character
# of the format.
TOLD, ESCAPE = '> ', '\\'


# A line with its place.
Placed = tuple[str, str]


class Misread(Exception):
    """A line of a transcript is none of its form."""


@step
def Command(stage: Stage, place: str, program: str, line: str, words: Sequence[str],
            wanted: Wanted) -> None:
    """A run of a program on words, and what it must give."""
    with case(place):
        stage.check(line, wanted, words, program)


@dataclass
class Exchange:
    """A line that a desk is told, with the events that it says follow, and the lines of the
    answer."""
    place: str
    told: list
    answer: list = field(default_factory=list)

    def is_told(self) -> bool:
        """Whether all events are there."""
        run = re.fullmatch('run ([0-9]+)', self.told[0])
        return len(self.told) == 1 + (int(run[1]) if run else 0)


@step
def Talk(stage: Stage, exchanges: Sequence[Exchange]) -> None:
    """A run of desk_harness: what it is told, and what it must answer."""
    with Harness(stage) as desk:
        for exchange in exchanges:
            line, *events = exchange.told
            with case(exchange.place):
                desk.check(line, text_of(exchange.answer), *events)


@dataclass
class Transcript:
    title: str
    steps: list = field(default_factory=list)

    def play(self, stage: Stage) -> None:
        for it in self.steps:
            it.do(stage)


def words_of(text: str) -> list[str]:
    """The words of a line as they are written, those in quotes with these."""
    words, at = [], 0
    while at < len(text):
        found = WORD.match(text, at)
        if not found:
            raise Misread(f'these are no words: {text}')
        words.append(found[1])
        at = found.end()
    return words


def plain(word: str) -> str:
    try:
        return json.loads(word) if word.startswith('"') else word
    except ValueError as error:
        raise Misread(f'{word}: {error}') from None


def named(name: str) -> str:
    """The name of a file of tests/files, which must be there."""
    if not os.path.isfile(f'{FILES}/{name}'):
        raise Misread(f'there is no file tests/files/{name}')
    return name


def count_of(word: str) -> int:
    if not re.fullmatch('[0-9]+', word):
        raise Misread(f'{word} is no count')
    return int(word)


def worked(name: str) -> str:
    if name not in BODIES:
        raise Misread(f'there is no worked body {name}')
    return name


def body_of(word: str, known: Callable[[str], str]) -> tuple[str, str]:
    """A number and the name of a body, which must be known."""
    number, _, name = word.partition(':')
    return number, known(name)


def step_of(line: str) -> Step:
    """The step of a line that is no command."""
    match words_of(line):
        case ['folder', path]:
            return Folder(plain(path))
        case ['file', path, '=', text] if text.startswith('"'):
            return Text(plain(path), plain(text))
        case ['file', path, '=', name]:
            return Copy(plain(path), named(name))
        case ['zeros', path, '=', count]:
            return Zeros(plain(path), count_of(count))
        case ['link', path, '->', target]:
            return Link(plain(path), plain(target))
        case ['sql', path, '=', text] if text.startswith('"'):
            return Statements(plain(path), plain(text))
        case ['store-1', path, '=', manifest, *bodies]:
            return FirstStore(plain(path), named(manifest),
                              tuple(body_of(it, named) for it in bodies))
        case ['parked', path, '=', count]:
            return Parked(plain(path), count_of(count))
        case ['bodies', *names]:
            return Bodies(tuple(map(worked, names)))
        case ['manifest', path, '=', *names, more] if more.startswith('"'):
            return Manifest(plain(path), tuple(map(worked, names)), plain(more))
        case ['manifest', path, '=', *names]:
            return Manifest(plain(path), tuple(map(worked, names)))
        case ['first-store', path, '=', manifest, *bodies]:
            return FirstScript(plain(path), plain(manifest),
                               tuple(body_of(it, worked) for it in bodies))
    raise Misread(f'this is no line of a transcript: {line}')


def text_of(lines: Sequence[str]) -> str:
    return ''.join(f'{it[1:] if it.startswith(ESCAPE) else it}\n' for it in lines)


def wanted_of(lines: Sequence[str]) -> Wanted:
    """What a run must give, by the lines below it."""
    marked = {mark: [it[2:] for it in lines if it.startswith(f'{mark} ')] for mark in MARKS}
    out = [it for it in lines if it[0] not in MARKS]
    if len(out) + sum(map(len, marked.values())) != len(lines):
        raise Misread('a mark has a space after it')
    parts, statuses, errors = marked['~'], marked['?'], marked['!']
    if len(parts) > 1 or len(statuses) > 1 or parts and out:
        raise Misread('a run has one status, and one part of standard output or its lines')
    if '...' in errors and errors != ['...']:
        raise Misread('`! ...` stands alone')
    told = None if '...' in errors else text_of(errors)
    return Wanted(count_of(statuses[0]) if statuses else 0, text_of(out), told, *parts)


def exchanges_of(below: Sequence[Placed]) -> list[Exchange]:
    """What a desk is told, and what it must answer, by the lines below a run of desk_harness."""
    found: list[Exchange] = []
    for place, line in below:
        is_told = bool(found) and found[-1].is_told()
        if line.startswith(TOLD) and (is_told or not found):
            found.append(Exchange(place, [line.removeprefix(TOLD)]))
        elif line.startswith(TOLD):
            found[-1].told.append(line.removeprefix(TOLD))
        elif is_told and not line.startswith('>'):
            found[-1].answer.append(line)
        else:
            raise Misread(f'nothing is answered here: {line}')
    if not found or not found[-1].is_told():
        raise Misread('desk_harness is told lines, and as many events as they say')
    return found


def run_of(lines: Sequence[Placed]) -> Step:
    """A run of a program, by its line and those below it, each with its place."""
    (place, line), *below = lines
    if line == '$ desk_harness':
        return Talk(exchanges_of(below))
    program, _, words = line.removeprefix('$ ').partition(' ')
    if not line.startswith('$ ') or program not in RUN:
        raise Misread(f'this is no run of a program: {line}')
    return Command(place, program, words, list(map(plain, words_of(words))),
                   wanted_of([it for _, it in below]))


def blocks_of(lines: Sequence[Placed]) -> Iterator[list[Placed]]:
    """Lines, each with its place: those that stand alone, and a run of a program with those below
    it up to an empty one."""
    run: list[Placed] = []
    for place, line in lines:
        if run and (not line or line.startswith(('$', '=='))):
            yield run
            run = []
        if run or line.startswith('$'):
            run.append((place, line))
        elif line:
            yield [(place, line)]


def read_transcripts(path: str) -> list[Transcript]:
    name, cases = os.path.basename(path), []
    with open(path, encoding='utf-8', newline='\n') as file:
        numbered = enumerate([*file.read().split('\n'), ''], 1)
        lines = [(f'{name}:{at}', it) for at, it in numbered if not it.startswith('#')]
    for block in blocks_of(lines):
        place, line = block[0]
        try:
            if line.startswith('== '):
                cases.append(Transcript(line[3:]))
            elif cases:
                cases[-1].steps.append(run_of(block) if line.startswith('$') else step_of(line))
            else:
                raise Misread('it belongs to no case')
        except Misread as error:
            raise Misread(f'{place}: {error}') from None
    idle = [it.title for it in cases
            if not any(isinstance(done, (Command, Talk)) for done in it.steps)]
    if idle or not cases:
        raise Misread(f'{name}: nothing is run: {", ".join(idle)}')
    return cases

"""Pages of HTML as a browser reads them: their elements, which have to be balanced, and what stands
in them."""
from collections.abc import Iterator
from dataclasses import dataclass
from dataclasses import field
from html.parser import HTMLParser
from typing import NamedTuple

from tests.support.stage import Failed

# Elements that have nothing inside, and no end.
VOID = ('meta',)
# What a page may be made of. None of it loads or runs anything.
HEAD = 'html head meta title style body'.split()
ELEMENTS = HEAD + (
    'header main footer section h1 h2 h3 p div span strong ul li table caption thead tbody tr th td'
    ' svg defs path circle line rect text use title').split()
ATTRIBUTES = (
    'lang charset name content http-equiv id class scope role aria-label aria-hidden tabindex '
    'width height x y x1 y1 x2 y2 r d'
    ' href').split()
SIGNS = {'&': '&amp;', '<': '&lt;', '>': '&gt;', '"': '&quot;', "'": '&#39;'}


@dataclass
class Element:
    name: str
    attributes: dict = field(default_factory=dict)
    inside: list = field(default_factory=list)

    def elements(self) -> list['Element']:
        return [it for it in self.inside if isinstance(it, Element)]

    def all(self, *names: str) -> Iterator['Element']:
        """The elements in it that have one of these names, in order."""
        for it in self.elements():
            if it.name in names:
                yield it
            yield from it.all(*names)

    def one(self, name: str) -> 'Element':
        found = list(self.all(name))
        if len(found) != 1:
            raise Failed(f'{len(found)} elements {name} in {self.name} {self.attributes}')
        return found[0]

    def text(self) -> str:
        return ''.join(it if isinstance(it, str) else it.text() for it in self.inside)

    def written(self) -> str:
        """Its text, where an attribute's value is in double quotes and each of five signs is
        escaped."""
        front = self.name + ''.join(f' {name}="{escaped(value)}"'
                                    for name, value in self.attributes.items())
        if self.name in VOID:
            return f'<{front}>'
        inside = (escaped(it) if isinstance(it, str) else it.written() for it in self.inside)
        return f'<{front}>{"".join(inside)}</{self.name}>'


def escaped(text: str) -> str:
    return ''.join(SIGNS.get(it, it) for it in text)


class Reader(HTMLParser):
    def __init__(self, text: str) -> None:
        super().__init__(convert_charrefs=True)
        self.root = Element('page')
        self.open = [self.root]
        self.feed(text)
        self.close()
        if len(self.open) != 1:
            raise Failed(f'{self.open[-1].name} has no end')

    def handle_starttag(self, tag: str, attrs: list[tuple[str, str | None]]) -> None:
        made = Element(tag, dict(attrs))
        if len(made.attributes) != len(attrs) or tag not in ELEMENTS or set(
                made.attributes) - set(ATTRIBUTES):
            raise Failed(f'{tag} with {attrs}')
        self.open[-1].inside.append(made)
        if tag not in VOID:
            self.open.append(made)

    def handle_endtag(self, tag: str) -> None:
        if self.open[-1].name != tag:
            raise Failed(f'{tag} ends in {self.open[-1].name}')
        self.open.pop()

    def handle_data(self, data: str) -> None:
        self.open[-1].inside.append(data)

    def handle_decl(self, decl: str) -> None:
        if decl != 'DOCTYPE html' or self.root.inside:
            raise Failed(f'declared: {decl}')

    def refuse(self, what: str, _: object = None) -> None:
        raise Failed(f'this is none of a page: {what}')

    handle_startendtag = refuse  # type: ignore[assignment]
    handle_comment = handle_pi = unknown_decl = refuse  # type: ignore[assignment]


def read_page(body: bytes) -> Element:
    """The element html of a page, which has to be written as `written` does, and to have what every
    page must."""
    text = body.decode()
    page = Reader(text).root.one('html')
    # (The signs in the policy and in the style are as they are.)
    start = text.index('<body>')
    if text[start:] != f'{page.one("body").written()}</html>\n':
        raise Failed('the body is written in another way')
    for check in (check_links, check_safety, check_headings, check_tables, check_pictures):
        check(page)
    return page


def check_links(page: Element) -> None:
    ids = [it.attributes['id'] for it in page.all(*ELEMENTS) if 'id' in it.attributes]
    links = {it.attributes['href'] for it in page.all(*ELEMENTS) if 'href' in it.attributes}
    if len(set(ids)) != len(ids) or links - {f'#{it}' for it in ids}:
        raise Failed(f'ids {ids}, links {links}')


def check_safety(page: Element) -> None:
    """A page loads and runs nothing."""
    style = page.one('style').text()
    if any(it in style for it in ('url(', '@import', 'expression', '<', '>', '&', '"', "'")):
        raise Failed('the style has what it may not')
    policy = [it.attributes['content'] for it in page.all('meta')
              if it.attributes.get('http-equiv') == 'Content-Security-Policy']
    if policy != ["default-src 'none'; style-src 'unsafe-inline'"]:
        raise Failed(f'policy {policy}')


def check_headings(page: Element) -> None:
    """A page can be listened to: one first heading, and none is left out between."""
    levels = [int(it.name[1]) for it in page.all('h1', 'h2', 'h3')]
    skips = any(later > level + 1 for level, later in zip(levels, levels[1:]))
    if levels.count(1) != 1 or levels[0] != 1 or skips:
        raise Failed(f'headings {levels}')


def check_tables(page: Element) -> None:
    for it in page.all('th'):
        if it.attributes.get('scope') not in ('col', 'row'):
            raise Failed(f'a heading of a table without a scope: {it.text()}')
    for it in page.all('table'):
        it.one('caption')
        heads = len(it.one('thead').one('tr').elements())
        if any(len(row.elements()) != heads for row in it.one('tbody').all('tr')):
            raise Failed(f'rows of {it.one("caption").text()}')


def check_pictures(page: Element) -> None:
    """A picture has words, or is left out where a page is listened to."""
    for it in page.all('svg'):
        is_hidden = it.attributes.get('aria-hidden') == 'true'
        has_words = it.attributes.get('role') == 'img' and it.attributes.get('aria-label')
        if not is_hidden and not has_words:
            raise Failed('a picture without words')


def section(page: Element, name: str) -> Element:
    found = [it for it in page.all('section') if it.attributes.get('id') == name]
    if len(found) != 1:
        raise Failed(f'{len(found)} sections {name}')
    return found[0]


def rows_of(table: Element) -> list[list[str]]:
    return [[cell.text() for cell in row.elements()] for row in table.one('tbody').all('tr')]


class Counted(NamedTuple):
    """A table with a number in its heading: what the heading says before it, the number, what the
    caption says, and the rows."""
    meaning: str
    number: int
    caption: str
    rows: list[list[str]]


def counted_tables(part: Element) -> list[Counted]:
    """The tables of a section that have a heading of their own."""
    found = []
    for heading, frame in zip(part.all('h3'), part.all('div')):
        words, _, number = heading.text().rpartition(': ')
        table = frame.one('table')
        found.append(Counted(words, int(number), table.one('caption').text(), rows_of(table)))
    return found

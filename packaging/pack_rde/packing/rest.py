"""Objects that no table has (EPP parameters, policies), which a deposit carries as they are in a
file: `unpack_rde` keeps those of an earlier deposit in one. Its root element holds the objects;
nothing is known of what is in them."""
import re
from collections import Counter
from collections.abc import Callable
from xml.parsers import expat

from faults import Refusal
from names import Names
from packing.xml_model import escaped
from packing.xml_model import quoted

ROOT = ('urn:restore-desk:rest-1.0', 'rest')
PIECE = 1 << 16
# Credentials are never escrowed (RFC 8909 9).
CREDENTIALS = re.compile(r'auth_?info|pass_?word|passwd|secret|pw', re.IGNORECASE)
SPACE = 'xmlns'

Attributes = dict[str, str]


def spaces_of(attributes: Attributes) -> dict[str, str]:
    """The namespaces that attributes declare, by their prefixes."""
    return {name.partition(':')[2]: uri for name, uri in attributes.items()
            if name.partition(':')[0] == SPACE}


class Rest:
    """The objects of a file. It is read twice: at first what they are, then to be written again."""

    def __init__(self, path: str, names: Names) -> None:
        self.path, self.names = path, names
        self.counts: Counter[str] = Counter()
        self.spaces: dict[str, str] = {}
        self.depth = 0
        self.read(lambda _: None)

    def refused(self, what: str) -> Refusal:
        place = f'{self.parser.CurrentLineNumber}:{self.parser.CurrentColumnNumber + 1}'
        return Refusal(f'{self.path}:{place}', what)

    def read(self, take: Callable[[str], object]) -> None:
        """Reads the file, and hands on the text of its objects, piece by piece."""
        self.take, self.depth, self.counts = take, 0, Counter()
        self.parser = expat.ParserCreate()
        self.parser.StartDoctypeDeclHandler = self.refuse_doctype
        self.parser.StartElementHandler = self.start
        self.parser.EndElementHandler = self.end
        self.parser.CharacterDataHandler = self.characters
        try:
            with open(self.path, 'rb') as file:
                while piece := file.read(PIECE):
                    self.parser.Parse(piece, False)
            self.parser.Parse(b'', True)
        except expat.ExpatError as error:
            place = f'{self.path}:{error.lineno}:{error.offset + 1}'
            raise Refusal(place, expat.ErrorString(error.code)) from None
        except (ValueError, LookupError) as error:
            raise Refusal(self.path, f'its encoding cannot be read: {error}') from None

    def refuse_doctype(self, *_words: object) -> None:
        raise self.refused('a document type (DOCTYPE) is not read')

    def start(self, name: str, attributes: Attributes) -> None:
        prefix, _, local = name.rpartition(':')
        if self.depth == 0:
            spaces = spaces_of(attributes)
            if (spaces.get(prefix, ''), local) != ROOT:
                raise self.refused('its root element is not that of the rest of a deposit')
            self.spaces = {it: uri for it, uri in spaces.items() if uri != ROOT[0]}
        else:
            if CREDENTIALS.fullmatch(local):
                raise self.refused(f'{name}: credentials are not escrowed')
            if self.depth == 1:
                attributes = self.begin(name, attributes)
            given = ''.join(f' {it}="{quoted(value)}"' for it, value in attributes.items())
            self.take(f'<{name}{given}>')
        self.depth += 1

    # Counts an object. Its attributes, with the namespaces that the root declares for it.
    def begin(self, name: str, attributes: Attributes) -> Attributes:
        prefix, _, local = name.rpartition(':')
        spaces = self.spaces | spaces_of(attributes)
        uri = spaces.get(prefix, '')
        if not uri or self.has_table(self.names.spelled(f'{uri}}}{local}')):
            raise self.refused(f'{name} is no object that has no table')
        self.counts[uri] += 1
        return {f'{SPACE}:{it}' if it else SPACE: uri for it, uri in spaces.items()} | attributes

    # Whether an element is the header, an object of a table, or holds the files of tables.
    def has_table(self, name: str) -> bool:
        lines = self.names.lines
        is_of_files = any(it.startswith(f'{name}/') for it in lines['csv'])
        return name == 'rdeHeader:header' or name in lines['row'] or is_of_files

    def end(self, name: str) -> None:
        self.depth -= 1
        if self.depth > 0:
            self.take(f'</{name}>' if self.depth > 1 else f'</{name}>\n')

    def characters(self, text: str) -> None:
        if self.depth > 1:
            self.take(escaped(text))

"""The objects of a deposit that no table has (EPP parameters, policies, objects that are not
known), kept as they stood.

They are written as a document of their own, whose root is `rest` of this project: `rest.xml`. Each
element has the prefix that it had, and all namespaces are declared that were declared where it
stood, since a policy names elements by their prefixes in a text."""
from typing import TextIO

NAME, NAMESPACE = 'rest.xml', 'urn:restore-desk:rest-1.0'
XML = 'http://www.w3.org/XML/1998/namespace'
# What means something in XML, and what a reader would take for a line end, or in an attribute for
# spaces.
IN_TEXT = str.maketrans({'&': '&amp;', '<': '&lt;', '>': '&gt;', '\r': '&#13;'})
IN_ATTRIBUTE = IN_TEXT | str.maketrans({'"': '&quot;', '\n': '&#10;', '\t': '&#9;'})

# The namespaces that are declared at a place: of each prefix, or None for the default, its URI, or
# None.
Scope = dict[str | None, str | None]


def declared(prefix: str | None, uri: str | None) -> str:
    return attribute('xmlns' if prefix is None else f'xmlns:{prefix}', uri or '')


def attribute(name: str, value: str) -> str:
    return f' {name}="{value.translate(IN_ATTRIBUTE)}"'


class Rest:
    """Writes the file, which is there once something is written."""

    def __init__(self, path: str) -> None:
        self.path, self.prefix = path, ''
        self.file: TextIO | None = None
        self.scope: Scope = {}  # of the root
        self.open: list[str] = []  # the tags of the elements that are open

    def begin(self, scope: Scope) -> None:
        """The root, with the namespaces that are declared where the first object stands."""
        self.prefix = next(it for it in ('rest', *(f'rest{at}' for at in range(len(scope) + 1)))
                           if it not in scope)
        self.scope = {**scope, self.prefix: NAMESPACE}
        self.file = open(self.path, 'x', encoding='utf-8', newline='')
        spaces = ''.join(declared(*it) for it in self.scope.items() if it[1])
        self.file.write(f'<?xml version="1.0" encoding="UTF-8"?>\n<{self.prefix}:rest{spaces}>\n')

    def start(self, name: str, attributes: list[str], scope: Scope, fresh: Scope) -> None:
        """An element begins: where all these namespaces are declared, and these on itself."""
        if self.file is None:
            self.begin(scope)
        if not self.open:
            default = {} if None in scope or self.scope.get(None) is None else {None: None}
            fresh = {
                **default, **{it: uri
                              for it, uri in scope.items() if self.scope.get(it) != uri}
            }
        prefixes = {uri: prefix for prefix, uri in scope.items()}
        named = {uri: prefix for prefix, uri in scope.items() if prefix is not None} | {XML: 'xml'}
        tag = self.spelled(name, prefixes)
        said = ''.join(
            attribute(self.spelled(it, named), value)
            for it, value in zip(attributes[::2], attributes[1::2]))
        self.file.write(f'<{tag}{"".join(declared(*it) for it in fresh.items())}{said}>')
        self.open.append(tag)

    @staticmethod
    def spelled(name: str, prefixes: dict[str | None, str | None]) -> str:
        uri, bracket, local = name.rpartition('}')
        prefix = prefixes.get(uri) if bracket else None
        return local if prefix is None else f'{prefix}:{local}'

    def text(self, text: str) -> None:
        self.file.write(text.translate(IN_TEXT))

    def end(self) -> None:
        self.file.write(f'</{self.open.pop()}>' + ('' if self.open else '\n'))

    def close(self) -> bool:
        """Whether there is such a file, which is whole then."""
        if self.file is not None and not self.file.closed:
            self.file.write(f'</{self.prefix}:rest>\n')
            self.file.close()
        return self.file is not None

"""The folder of answers, which is written beside its place, and the notices that they have."""
import json
import os
import shutil

from faults import Refusal
from rdap.answers import Json
from rdap.names import MOST_BYTES
from rdap.names import unicode_name

KINDS = ('domain', 'nameserver', 'entity')
TEXTS = ('title', 'type')


class Folder:
    """A folder that is being written. Nothing is at its place until `finish`."""

    def __init__(self, target: str) -> None:
        self.target = target.rstrip('/')
        self.part, self.is_begun = f'{self.target}.part', False

    def begin(self) -> None:
        for it in (self.target, self.part):
            if os.path.lexists(it):
                raise FileExistsError(17, 'something is at its place', it)
        os.mkdir(self.part)
        self.is_begun = True
        for it in KINDS:
            os.mkdir(os.path.join(self.part, it))

    def write(self, path: str, answer: Json) -> None:
        """Writes a file of this name, which may have a folder before it."""
        text = json.dumps(answer, ensure_ascii=False, separators=(',', ':'))
        # The names of files are UTF-8, whatever the system takes them for.
        place = os.fsencode(self.part) + b'/' + path.encode()
        with open(place, 'xb') as file:
            file.write(f'{text}\n'.encode())

    def write_named(self, kind: str, name: str, answer: Json) -> None:
        """Writes the answer of a name, also under its U-labels (RFC 9082 3.1.3)."""
        self.write(f'{kind}/{name}', answer)
        other = unicode_name(name)
        if other is not None and len(other.encode()) <= MOST_BYTES:
            self.write(f'{kind}/{other}', answer)

    def finish(self) -> None:
        os.rename(self.part, self.target)

    def give_up(self) -> None:
        """Removes what was written. What was there before stays."""
        if self.is_begun:
            shutil.rmtree(self.part, ignore_errors=True)


def notices_in(path: str) -> tuple[Json, ...]:
    """The notices of a file: one, or a list of them (RFC 9083 4.3)."""
    try:
        with open(path, encoding='utf-8') as file:
            found = json.load(file)
    except (ValueError, RecursionError) as error:
        raise Refusal(path, f'it is no JSON: {error}') from None
    found = found if isinstance(found, list) else [found]
    for it in found:
        if not is_notice(it):
            what = 'a notice has a description, a list of texts; a title, a type, and links with'
            raise Refusal(path, f'{what} rel and href (RFC 9083 4.3), and nothing else')
    return tuple(found)


def is_notice(it: object) -> bool:
    if not isinstance(it, dict) or not set(it) <= {*TEXTS, 'description', 'links'}:
        return False
    texts, links = it.get('description'), it.get('links', [])
    return (isinstance(texts, list) and bool(texts) and isinstance(links, list)
            and all(isinstance(text, str) for text in texts)
            and all(isinstance(it[name], str) for name in TEXTS if name in it)
            and all(isinstance(link, dict) and {'rel', 'href'} <= set(link)
                    and all(isinstance(text, str) for text in link.values()) for link in links))

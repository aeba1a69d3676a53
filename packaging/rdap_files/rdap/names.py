"""Names of objects: as names of files, and with U-labels (RFC 5890 2.3.2.1)."""
import re
import unicodedata

# Nothing that means something to a web server or a file system. Domains and hosts are lower-case.
HOST, HANDLE = re.compile(r'[a-z0-9_-][a-z0-9._-]*'), re.compile(r'[A-Za-z0-9_-][A-Za-z0-9._-]*')
MOST_BYTES, PREFIX = 255, 'xn--'
# What a U-label has: letters, marks and digits (RFC 5892 2.1), and some signs beside (2.6).
CATEGORIES = ('Ll', 'Lo', 'Lm', 'Mn', 'Mc', 'Nd')
OTHER_SIGNS = '-\u00b7\u0375\u05f3\u05f4\u200c\u200d\u30fb'


def is_host(name: str) -> bool:
    return HOST.fullmatch(name) is not None and len(name) <= MOST_BYTES


def is_handle(name: str) -> bool:
    return HANDLE.fullmatch(name) is not None and len(name) <= MOST_BYTES


def unicode_label(label: str) -> str | None:
    """A label with its U-label in place of its A-label; None if there is none for it."""
    if not label.startswith(PREFIX):
        return label
    try:
        text = label.removeprefix(PREFIX).encode('ascii').decode('punycode')
        is_its = text.encode('punycode').decode('ascii') == label.removeprefix(PREFIX)
    except UnicodeError:
        return None
    return text if is_its and is_unicode_label(text) else None


def is_unicode_label(text: str) -> bool:
    """Whether a label can be a U-label: such a one has no other form, and begins with no mark."""
    if text.isascii() or text != unicodedata.normalize('NFKC', text.lower()):
        return False
    found = [unicodedata.category(it) for it in text if it not in OTHER_SIGNS]
    return set(found) <= set(CATEGORIES) and found[:1] not in (['Mn'], ['Mc'])


def unicode_name(name: str) -> str | None:
    """A name with U-labels in place of its A-labels; None if it has none."""
    labels = [unicode_label(it) for it in name.split('.')]
    if None in labels:
        return None
    found = '.'.join(it for it in labels if it is not None)
    return found if found != name else None

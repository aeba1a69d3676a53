#!/usr/bin/env python3
"""trials/schemas.py RFCS OUT: takes the XML schemas of deposits out of the texts of the RFCs.

The folder RFCS has the texts of RFC 3915, 5730 to 5733, 5910, 8909 and 9022, each as rfcNNNN.txt or
rfcNNNN.txt.gz: from https://www.rfc-editor.org, or those of Debian's packages doc-rfc-std and
doc-rfc-std-proposed (non-free) in /usr/share/doc/RFC/links. OUT is a new folder with a file for
each schema, and all.xsd, which has them all:

    xmllint --stream --noout --schema OUT/all.xsd DEPOSIT

The feet and heads of pages, which stand between the lines of a schema, are left out, and each
import is given the file that it imports. Nothing else is changed."""
import argparse
import gzip
import pathlib
import re
import sys

RFCS = (3915, 5730, 5731, 5732, 5733, 5910, 8909, 9022)
FOOT = re.compile(r'\S.*\[Page \d+\]\s*')
HEAD = re.compile(r'\f?RFC \d+ .* \d{4}\s*')
SCHEMA = re.compile(r'<schema\b.*?</schema>', re.DOTALL)
TARGET = re.compile(r'targetNamespace=\s*"([^"]+)"')
IMPORT = re.compile(r'<import\s+namespace=\s*"([^"]+)"\s*/>')
FIRST_LINE = '<?xml version="1.0" encoding="UTF-8"?>\n'


def text_of(folder: pathlib.Path, number: int) -> str:
    plain, zipped = folder / f'rfc{number}.txt', folder / f'rfc{number}.txt.gz'
    if plain.exists():
        return plain.read_text('utf-8-sig')
    if zipped.exists():
        return gzip.decompress(zipped.read_bytes()).decode('utf-8-sig')
    sys.exit(f'schemas: neither {plain} nor {zipped} is there')


def without_pages(text: str) -> str:
    """A text without the feet and heads of its pages, and the empty lines around them."""
    found: list[str] = []
    is_at_page = False
    for line in text.split('\n'):
        if FOOT.fullmatch(line) or HEAD.fullmatch(line):
            while found and not found[-1].strip():
                found.pop()
            is_at_page = True
        elif line.strip() or not is_at_page:
            found.append(line.lstrip('\f'))
            is_at_page = False
    return '\n'.join(found)


def schemas_in(folder: pathlib.Path) -> dict[str, str]:
    """The schemas, by their namespaces."""
    found = {}
    for number in RFCS:
        for schema in SCHEMA.findall(without_pages(text_of(folder, number))):
            if target := TARGET.search(schema):
                found[target[1]] = schema
    return found


def file_of(space: str) -> str:
    return f'{space.rpartition(":")[2]}.xsd'


def with_files(schema: str, known: dict[str, str]) -> str:
    """A schema whose imports name the files of the schemas that they import."""
    def located(found: re.Match[str]) -> str:
        space = found[1]
        if space not in known:
            return found[0]
        return f'<import namespace="{space}" schemaLocation="{file_of(space)}"/>'
    return IMPORT.sub(located, schema)


def main() -> int:
    arguments = argparse.ArgumentParser(description=__doc__,
                                        formatter_class=argparse.RawDescriptionHelpFormatter)
    arguments.add_argument('rfcs', type=pathlib.Path, metavar='RFCS')
    arguments.add_argument('out', type=pathlib.Path, metavar='OUT')
    given = arguments.parse_args()
    known = schemas_in(given.rfcs)
    given.out.mkdir()
    for space, schema in known.items():
        (given.out / file_of(space)).write_text(f'{FIRST_LINE}{with_files(schema, known)}\n',
                                                'utf-8')
    imports = ''.join(f'  <import namespace="{it}" schemaLocation="{file_of(it)}"/>\n'
                      for it in known)
    (given.out / 'all.xsd').write_text(
        f'{FIRST_LINE}<schema xmlns="http://www.w3.org/2001/XMLSchema">\n{imports}</schema>\n',
        'utf-8')
    print(f'{len(known)} schemas')
    return 0


if __name__ == '__main__':
    sys.exit(main())

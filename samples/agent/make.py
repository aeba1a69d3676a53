#!/usr/bin/env python3
"""samples/agent/make.py OUT [KEY]: writes a small release as an agent's archives would have it, in
the folder OUT.

    example_2024-03-03_full_S1_R0.tar   F1, a Full in the XML model: one document
                                        (samples/agent/full)
    example_2024-03-04_diff_S1_R0.tar   D2, a Differential on F1 in the CSV model: a document and
                                        its CSV files (samples/agent/diff)

With a KEY each is encrypted to it by gpg, as an agent's file `.ryde` is, and is there in place of
the archive."""
import argparse
import pathlib
import subprocess
import tarfile

HERE = pathlib.Path(__file__).parent


def archived(out: pathlib.Path, folder: pathlib.Path) -> pathlib.Path:
    """Puts the files of a folder into an archive that is named as its document."""
    path = out / next(folder.glob('*.xml')).with_suffix('.tar').name
    with tarfile.open(path, 'w', format=tarfile.USTAR_FORMAT) as archive:
        for file in sorted(folder.iterdir()):
            archive.add(file, file.name)
    return path


def main() -> None:
    arguments = argparse.ArgumentParser(description=__doc__,
                                        formatter_class=argparse.RawDescriptionHelpFormatter)
    arguments.add_argument('out', type=pathlib.Path, metavar='OUT')
    arguments.add_argument('key', nargs='?', metavar='KEY')
    given = arguments.parse_args()
    given.out.mkdir()
    for path in [archived(given.out, HERE / it) for it in ('full', 'diff')]:
        if given.key:
            words = ['gpg', '--batch', '--quiet', '--trust-model', 'always', '--encrypt',
                     '--recipient', given.key, '--output']
            subprocess.run([*words, path.with_suffix('.ryde'), path], check=True)
            path.unlink()


main()

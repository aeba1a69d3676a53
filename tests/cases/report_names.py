"""The names of reports: those that the help lists are printed, and the desk serves each under its
name."""
import re

from tests.support.messages import get
from tests.support.sockets import response_to
from tests.support.sockets import serve
from tests.support.stage import Stage
from tests.support.stage import Wanted
from tests.support.stage import compare
from tests.support.stage import compare_all
from tests.support.steps import Copy

NAMES = re.compile(r'\[possible values: ([a-z, ]+)\]')


def out_of(stage: Stage, *words: str) -> str:
    """What a run prints that ends well."""
    got = stage.end(stage.begin([*words]))
    compare_all(' '.join(words), ['0', ''], [str(got.status), got.err.decode()])
    return got.out.decode()


def names_in(text: str) -> list[str]:
    """The names that the help of a command lists."""
    return NAMES.search(text)[1].split(', ')


def paths_of(stage: Stage) -> dict[str, str]:
    """The path of each report and export that the help lists, with what the program prints."""
    reports, kinds = (names_in(out_of(stage, it, '--help')) for it in ('report', 'export'))
    texts = {f'/{it}': out_of(stage, 'report', '--store', 'a.db', it) for it in reports}
    return texts | {f'/export/{it}': out_of(stage, 'export', '--store', 'a.db', it) for it in kinds}


def test_names_of_reports(stage: Stage) -> None:
    """The reports and exports that the help lists, by the program and over HTTP."""
    Copy('listed.csv', 'with-contact.csv').do(stage)
    stage.check('init --store a.db --manifest listed.csv', Wanted(0, 'listed 1\n'))
    texts = paths_of(stage)
    child, port = serve(stage, 'a.db', len(texts))
    responses = {path: response_to(port, get(path)).decode() for path in texts}
    stage.compare('serve', Wanted(0), stage.end(child))
    for path, text in texts.items():
        head, _, body = responses[path].partition('\r\n\r\n')
        compare(f'the status of {path}', 'HTTP/1.1 200 OK', head.partition('\r\n')[0])
        compare(path, text, body)

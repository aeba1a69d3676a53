"""The reports of a desk, as a program prints them and a desk responds with them."""
from collections.abc import Iterable

from tests.support.formats import KINDS
from tests.support.stage import text_of

HEADINGS = {
    'receipts': 'receipt,number,verdict,fault,id,resend,copy,orphans',
    'parked': 'sha256,bytes',
    'gaps': 'watermark,type,used,state,blocker,awaited',
    'links': 'code,kind,key,field,value,other',
    'export': 'kind,key,table,row,field,value',
}


def report(name: str, rows: Iterable[str] = ()) -> str:
    return text_of([HEADINGS[name], *rows])


def status(listed: int, held: int, receipts: int, chain: int, end: str, **objects: int) -> str:
    """The numbers of a desk, where its chain ends, and how many objects it has of a kind."""
    told = {'listed': listed, 'held': held, 'receipts': receipts, 'chain': chain, 'end': end}
    told |= dict.fromkeys(KINDS, 0) | objects
    return text_of(f'{name} {number}' for name, number in told.items())

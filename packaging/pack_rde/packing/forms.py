"""The forms that RFC 9022 and the RFCs of EPP give to the texts of an object, by table and field.

The schemas are RFC 5730 4 (names, ids, ROIDs, transfers), RFC 5731 to 5733 4 (statuses, addresses),
RFC 3915 5 (grace periods), RFC 5910 4 (DNSSEC), RFC 8909 6.1 and RFC 9022 9. What they allow and a
common validator (libxml2) refuses is no form here either."""
import re
from collections.abc import Callable
from typing import NamedTuple

Check = Callable[[str], bool]
MOST = 1 << 31

# What XML Schema calls a word's sign; `_` is punctuation there.
WORD = r'[^\W_]'
STAMP = re.compile(r'(\d{4})-(\d\d)-(\d\d)T(\d\d):(\d\d):(\d\d)(\.\d+)?Z', re.ASCII)
SPACES = re.compile('[ \t\r\n]+')
UNSIGNED, NUMBER = re.compile(r'\d{1,10}', re.ASCII), re.compile(r'\+?\d{1,10}', re.ASCII)
BASE64 = re.compile(r'(?:[A-Za-z0-9+/]{4})*'
                    r'(?:[A-Za-z0-9+/]{2}==|[A-Za-z0-9+/]{3}=|[A-Za-z0-9+/]{4})')
# A URI or a reference to one (RFC 3986). Signs past ASCII and some others are taken for plain ones,
# as validators do.
OTHER_SIGNS = re.compile('[^\x20-\x7e]|[<>"{}|\\\\^`]')
SIGN = r"(?:[A-Za-z0-9._~!$&'()*+,;=@-]|%[0-9A-Fa-f]{2})"
URL = re.compile(rf'(?:[A-Za-z][A-Za-z0-9+.-]*:(?:{SIGN}|[:/])*|/(?:{SIGN}|[:/])*|'
                 rf'(?:{SIGN}+(?:/(?:{SIGN}|[:/])*)?)?)'
                 rf'(?:\?(?:{SIGN}|[:/?])*)?(?:#(?:{SIGN}|[:/?])*)?')


def collapsed(text: str) -> str:
    return SPACES.sub(' ', text).strip(' ')


def token(least: int = 0, most: int = MOST) -> Check:
    # Few texts have so many spaces that they count.
    def check(text: str) -> bool:
        is_plain = least <= len(text) <= most and ' ' not in text
        return is_plain or least <= len(collapsed(text)) <= most
    return check


def line(least: int = 0, most: int = MOST) -> Check:
    return lambda text: least <= len(text) <= most


def form(pattern: str) -> Check:
    found = re.compile(pattern)
    return lambda text: (found.fullmatch(text) or found.fullmatch(collapsed(text))) is not None


def up_to(most: int, least: int = 0) -> Check:
    """A number in these limits. Where it may be 0 its type is unsigned, and has no sign."""
    digits = NUMBER if least > 0 else UNSIGNED
    return lambda text: digits.fullmatch(text) is not None and least <= int(text) <= most


def one_of(words: str) -> Check:
    known = frozenset(words.split())
    return lambda text: text in known or collapsed(text) in known


def is_moment(text: str) -> bool:
    """A moment in UTC (RFC 8909 4.1), of a day that there is."""
    found = STAMP.fullmatch(text)
    if found is None:
        return False
    year, month, day, hour, minute, second = map(int, found.groups()[:6])
    leaps = year % 4 == 0 and (year % 100 != 0 or year % 400 == 0)
    days = (31, 29 if leaps else 28, 31, 30, 31, 30, 31, 31, 30, 31, 30, 31)
    is_day = year > 0 and 1 <= month <= 12 and 1 <= day <= days[month - 1]
    return is_day and hour < 24 and minute < 60 and second < 60


def is_url(text: str) -> bool:
    return URL.fullmatch(OTHER_SIGNS.sub('_', collapsed(text))) is not None


def is_base64(text: str) -> bool:
    return BASE64.fullmatch(re.sub('[ \t\r\n]', '', text)) is not None


# The greatest resend of a deposit (RFC 8909 6.1), which is less than the desk's.
MOST_RESEND = 65_535
ID, PREFIX = form(rf'{WORD}{{1,13}}'), form(rf'{WORD}{{1,8}}')
CLIENT, NAME, ROID = token(3, 16), token(1, 255), form(rf'({WORD}|_){{1,80}}-{WORD}{{1,8}}')
PHONE = form(r'(?=.{0,17}$)(\+[0-9]{1,3}\.[0-9]{1,14})?')
MAIL, LANGUAGE = token(1), form('[a-zA-Z]{1,8}(-[a-zA-Z0-9]{1,8})*')
LINE, SOME_LINE, CODE, COUNTRY, TEXT = line(1, 255), line(0, 255), token(0, 16), token(2, 2), line()
IDN, ADDRESS = token(1, 64), token(3, 45)
VERSION, BOOLEAN = one_of('v4 v6'), one_of('true false 0 1')
SHORT, BYTE, HEXADECIMAL = up_to(65_535), up_to(255), form('([0-9a-fA-F]{2})+')
TRANSFER = one_of('clientApproved clientCancelled clientRejected pending serverApproved '
                  'serverCancelled')
OF_HOST = ('clientDeleteProhibited clientUpdateProhibited linked ok pendingCreate pendingDelete '
           'pendingTransfer pendingUpdate serverDeleteProhibited serverUpdateProhibited')
OF_CONTACT = f'{OF_HOST} clientTransferProhibited serverTransferProhibited'
OF_DOMAIN = (f'{OF_CONTACT} clientHold serverHold clientRenewProhibited serverRenewProhibited '
             'inactive pendingRenew').replace(' linked ', ' ')
GRACE = one_of('addPeriod autoRenewPeriod renewPeriod transferPeriod pendingDelete pendingRestore '
               'redemptionPeriod')
DISCLOSED = 'NameInt NameLoc OrgInt OrgLoc AddrInt AddrLoc Voice Fax Email'
STREETS, LOCAL = 'street.0 street.1 street.2', 'loc.street.0 loc.street.1 loc.street.2'


class Form(NamedTuple):
    """The form of a field's texts, and whether a row of its element has to have one."""
    is_of_form: Check
    is_needed: bool


OTHER = Form(TEXT, False)
# Of some fields of a table their form, and whether they are mandatory where their element is there.
ROWS = (
    ('registrar', 'id', CLIENT, True),
    ('registrar', 'name city loc.city', LINE, True),
    ('registrar', 'cc loc.cc', COUNTRY, True),
    ('registrar', 'gurid', up_to(9_999_999_999, 1), False),
    ('registrar', 'status', one_of('ok readonly terminated'), False),
    ('registrar', 'voice fax', PHONE, False),
    ('registrar', 'email', MAIL, False),
    ('registrar', 'url whoisUrl', is_url, False),
    ('registrar', 'whoisName', NAME, False),
    ('registrar', 'crDate upDate', is_moment, False),
    ('registrar', f'{STREETS} {LOCAL} sp loc.sp', SOME_LINE, False),
    ('registrar', 'pc loc.pc', CODE, False),
    ('idn', 'idnTableId', IDN, True),
    ('idn', 'url urlPolicy', is_url, True),
    ('contact', 'id clID', CLIENT, True),
    ('contact', 'roid', ROID, True),
    ('contact', 'email', MAIL, True),
    ('contact', 'voice fax', PHONE, False),
    ('contact', 'crRr crID upRr upID', CLIENT, False),
    ('contact', 'crDate upDate trDate', is_moment, False),
    ('contactStatuses', 'status', one_of(OF_CONTACT), True),
    ('contactPostal', 'postalType', one_of('int loc'), True),
    ('contactPostal', 'name city', LINE, True),
    ('contactPostal', 'cc', COUNTRY, True),
    ('contactPostal', f'org {STREETS} sp', SOME_LINE, False),
    ('contactPostal', 'pc', CODE, False),
    ('contactDisclose', 'discloseFlag', BOOLEAN, True),
    ('contactDisclose', ' '.join(f'disclose{it}' for it in DISCLOSED.split()), BOOLEAN, False),
    ('host', 'name', NAME, True),
    ('host', 'roid', ROID, True),
    ('host', 'clID', CLIENT, True),
    ('host', 'crRr crID upRr upID', CLIENT, False),
    ('host', 'crDate upDate trDate', is_moment, False),
    ('hostStatuses', 'status', one_of(OF_HOST), True),
    ('hostAddresses', 'addr', ADDRESS, True),
    ('hostAddresses', 'addrVersion', VERSION, False),
    ('domain', 'name', NAME, True),
    ('domain', 'roid', ROID, True),
    ('domain', 'clID', CLIENT, True),
    ('domain', 'registrant crRr crID upRr upID', CLIENT, False),
    ('domain', 'uName originalName', NAME, False),
    ('domain', 'idnTableId', IDN, False),
    ('domain', 'crDate exDate upDate trDate', is_moment, False),
    ('domainContacts', 'contactId', CLIENT, True),
    ('domainContacts', 'contactType', one_of('admin billing tech'), False),
    ('domainStatuses', 'status', one_of(OF_DOMAIN), True),
    ('domainStatuses', 'rgpStatus', GRACE, True),
    ('domainNs', 'hostName', NAME, True),
    ('domainHostAttr', 'hostName', NAME, True),
    ('domainHostAttr', 'addr', ADDRESS, True),
    ('domainHostAttr', 'addrVersion', VERSION, False),
    ('secDNS', 'maxSigLife', up_to((1 << 31) - 1, 1), False),
    ('secDNS', 'keyTag flags', SHORT, True),
    ('secDNS', 'dsAlg digestType protocol keyAlg', BYTE, True),
    ('secDNS', 'digest', HEXADECIMAL, True),
    ('secDNS', 'pubKey', is_base64, True),
    ('contactTransfer domainTransfer', 'trStatus', TRANSFER, True),
    ('contactTransfer domainTransfer', 'reRr acRr', CLIENT, True),
    ('contactTransfer domainTransfer', 'reID acID', CLIENT, False),
    ('contactTransfer domainTransfer', 'reDate acDate', is_moment, True),
    ('domainTransfer', 'exDate', is_moment, False),
    ('contactStatuses hostStatuses domainStatuses', 'lang', LANGUAGE, False),
    ('nndn', 'aName', NAME, True),
    ('nndn', 'uName originalName', NAME, False),
    ('nndn', 'idnTableId', IDN, False),
    ('nndn', 'nameState', one_of('withheld blocked mirrored'), True),
    ('nndn', 'mirroringNS', BOOLEAN, False),
    ('nndn', 'crDate', is_moment, False),
)
FORMS = {(table, field): Form(check, is_needed) for tables, fields, check, is_needed in ROWS
         for table in tables.split() for field in fields.split()}


def form_of(table: str, field: str) -> Form:
    return FORMS.get((table, field), OTHER)

"""The answers of RDAP (RFC 9083), as JSON values: what is published of an object, and what never
is. Each is made of named fields of its rows, among which there is none of a contact."""
import ipaddress
from collections import Counter
from collections.abc import Iterable
from dataclasses import dataclass
from typing import Any

from keys import LETTERS
from packing.forms import is_moment
from packing.tables import Cells
from packing.tables import Object
from packing.telling import Fault
from packing.telling import Report
from rdap.names import is_host
from rdap.names import unicode_name
from rdap.zone import Ds

Json = dict[str, Any]
CONFORMANCE, MEDIA_TYPE = ['rdap_level_0'], 'application/rdap+json'
# The statuses of EPP in the words of RDAP (RFC 8056 2).
STATUSES = {
    'addPeriod': 'add period', 'autoRenewPeriod': 'auto renew period',
    'clientDeleteProhibited': 'client delete prohibited', 'clientHold': 'client hold',
    'clientRenewProhibited': 'client renew prohibited',
    'clientTransferProhibited': 'client transfer prohibited',
    'clientUpdateProhibited': 'client update prohibited', 'inactive': 'inactive',
    'linked': 'associated', 'ok': 'active', 'pendingCreate': 'pending create',
    'pendingDelete': 'pending delete', 'pendingRenew': 'pending renew',
    'pendingRestore': 'pending restore', 'pendingTransfer': 'pending transfer',
    'pendingUpdate': 'pending update', 'redemptionPeriod': 'redemption period',
    'renewPeriod': 'renew period', 'serverDeleteProhibited': 'server delete prohibited',
    'serverHold': 'server hold', 'serverRenewProhibited': 'server renew prohibited',
    'serverTransferProhibited': 'server transfer prohibited',
    'serverUpdateProhibited': 'server update prohibited', 'transferPeriod': 'transfer period',
}
# Dates of an object as events (RFC 9083 4.5), in their order.
EVENTS = {'crDate': 'registration', 'exDate': 'expiration', 'upDate': 'last changed',
          'trDate': 'transfer'}
REDACTED = {'title': 'Contacts', 'type': 'object truncated due to authorization',
            'description': ['The contacts of this domain are not published here.']}
# The answer where there is no object (RFC 9083 6).
ABSENT = {'rdapConformance': CONFORMANCE, 'errorCode': 404, 'title': 'Not Found',
          'description': ['No such object is known here.']}
HELP = {'title': 'Help', 'description': [
    'Answers to domain/NAME, nameserver/NAME and entity/HANDLE, of a registrar. There are no '
    'searches, and contacts are not published.']}


@dataclass(frozen=True)
class Service:
    """What all answers have in common: the URL before `domain/NAME`, the moment that the registry
    is of, and notices of the operator's own."""
    base: str
    updated: str
    notices: tuple[Json, ...] = ()

    def url(self, kind: str, name: str) -> str:
        return f'{self.base}{kind}/{name}'

    def answer(self, url: str, members: Json) -> Json:
        """A whole answer: the members of an object within what surrounds it (RFC 9083 4)."""
        # A link says which answer it is of (RFC 9083 4.2).
        notices = [{**it, 'links': [{'value': url, **link} for link in it['links']]}
                   if 'links' in it else it for it in self.notices]
        front: Json = {'rdapConformance': CONFORMANCE}
        return front | ({'notices': notices} if notices else {}) | members

    def help(self) -> Json:
        found = self.answer(f'{self.base}help', {})
        return found | {'notices': [HELP, *found.get('notices', ())]}


def filled(**members: Any) -> Json:
    """The members that have a value."""
    return {name: value for name, value in members.items() if value}


def named(name: str) -> Json:
    return filled(ldhName=name, unicodeName=unicode_name(name))


class Answers:
    """Makes answers of objects, and tells what of them has no place there."""

    def __init__(self, service: Service, registrars: Iterable[Object], report: Report) -> None:
        self.service, self.report = service, report
        self.registrars = {it.key: it.cells for it in registrars}
        self.handles = self.handles_of_registrars()

    # ---- registrars

    def handles_of_registrars(self) -> dict[str, str]:
        """The handle of each registrar by its key: its GURID, if this is a number and neither the
        GURID nor the key of another one; otherwise its key. So no two have one handle."""
        taken = Counter(text for key, cells in self.registrars.items()
                        for text in {key, cells.get('gurid', key)})
        found = {}
        for key, cells in self.registrars.items():
            gurid = cells.get('gurid', key)
            is_handle = is_number(gurid) and taken[gurid] == 1
            found[key] = gurid if is_handle else key
            if 'gurid' in cells and not is_handle:
                why = f'{gurid!r} of another' if is_number(gurid) else repr(gurid)
                self.report.fault(Fault.INVALID, 'registrar.gurid', key, why)
        return found

    def registrar(self, key: str) -> Json:
        """What is published of a registrar (RFC 9083 5.1), also within a domain."""
        cells = self.registrars[key]
        gurid, name = cells.get('gurid', ''), cells.get('name', '')
        card = [['version', {}, 'text', '4.0'], ['fn', {}, 'text', name]]
        ids = [{'type': 'IANA Registrar ID', 'identifier': gurid}] if is_number(gurid) else []
        return filled(objectClassName='entity', handle=self.handles[key], roles=['registrar'],
                      publicIds=ids, vcardArray=['vcard', card])

    def entity(self, key: str) -> tuple[str, Json]:
        handle = self.handles[key]
        events = self.events('registrar', key, self.registrars[key])
        return handle, self.whole('entity', handle, self.registrar(key) | {'events': events})

    # ---- hosts and domains

    def nameserver(self, it: Object) -> tuple[str, Json]:
        """The answer of a host (RFC 9083 5.2)."""
        rows = it.children.get('hostAddresses', ())
        members = filled(objectClassName='nameserver', handle=it.cells.get('roid'), **named(it.key),
                         ipAddresses=self.addresses('hostAddresses', it.key, rows),
                         status=self.statuses(it, 'hostStatuses'),
                         events=self.events('host', it.key, it.cells))
        return it.key, self.whole('nameserver', it.key, members)

    def domain(self, it: Object, records: list[Ds]) -> tuple[str, Json]:
        """The answer of a domain (RFC 9083 5.3), which has these DS records in the zone."""
        sponsor = it.cells.get('clID', '')
        if sponsor not in self.registrars:
            self.report.fault(Fault.MISSING, 'registrar', it.key, repr(sponsor))
        entities = [self.registrar(sponsor)] if sponsor in self.registrars else []
        members = filled(objectClassName='domain', handle=it.cells.get('roid'), **named(it.key),
                         nameservers=self.servers(it), secureDNS=secured(records),
                         entities=entities, status=self.statuses(it, 'domainStatuses'),
                         remarks=[REDACTED], events=self.events('domain', it.key, it.cells))
        return it.key, self.whole('domain', it.key, members)

    def servers(self, it: Object) -> list[Json]:
        """The name servers of a domain, each once: hosts, and those that it says itself with their
        addresses (RFC 5731 1.1)."""
        rows: dict[str, list[Cells]] = {}
        for table in ('domainNs', 'domainHostAttr'):
            for row in it.children.get(table, ()):
                name = row.get('hostName', '').translate(LETTERS).removesuffix('.')
                rows.setdefault(name, []).extend([row] if row.get('addr') else [])
        for name in [name for name in rows if not is_host(name)]:
            self.report.fault(Fault.INVALID, 'hostName', it.key, repr(name))
            del rows[name]
        return [filled(objectClassName='nameserver', **named(name),
                       ipAddresses=self.addresses('domainHostAttr', it.key, its))
                for name, its in rows.items()]

    # ---- parts of these

    def whole(self, kind: str, name: str, members: Json) -> Json:
        url = self.service.url(kind, name)
        link = {'value': url, 'rel': 'self', 'href': url, 'type': MEDIA_TYPE}
        return self.service.answer(url, members | {'links': [link]})

    def statuses(self, it: Object, table: str) -> list[str]:
        found = set()
        for row in it.children.get(table, ()):
            for field in ('status', 'rgpStatus'):
                text = row.get(field)
                if text in STATUSES:
                    found.add(STATUSES[text])
                elif text:
                    self.report.fault(Fault.INVALID, f'{table}.{field}', it.key, repr(text))
        return sorted(found)

    def events(self, kind: str, key: str, cells: Cells) -> list[Json]:
        found = []
        for field, action in EVENTS.items():
            text = cells.get(field, '')
            if is_moment(text):
                found.append({'eventAction': action, 'eventDate': text})
            elif text:
                self.report.fault(Fault.INVALID, f'{kind}.{field}', key, repr(text))
        last = {'eventAction': 'last update of RDAP database', 'eventDate': self.service.updated}
        return [*found, last]

    def addresses(self, table: str, key: str, rows: Iterable[Cells]) -> dict[str, list[str]]:
        """The addresses of a host by version, in their common form, each once."""
        found: dict[str, dict[str, None]] = {}
        for row in rows:
            text = row.get('addr', '')
            address = address_of(text)
            if address is not None:
                found.setdefault(f'v{address.version}', {})[str(address)] = None
            elif text:
                self.report.fault(Fault.INVALID, f'{table}.addr', key, repr(text))
        return {version: list(its) for version, its in sorted(found.items())}


def secured(records: list[Ds]) -> Json:
    """Whether the zone has DS records of a name, and these (RFC 9083 5.3)."""
    found = [{'keyTag': it.tag, 'algorithm': it.algorithm, 'digestType': it.type,
              'digest': it.digest} for it in records]
    return {'delegationSigned': bool(found), **({'dsData': found} if found else {})}


def is_number(text: str) -> bool:
    return text.isascii() and text.isdecimal()


def address_of(text: str) -> ipaddress.IPv4Address | ipaddress.IPv6Address | None:
    """The address that a text is. One of a scope, as `fe80::1%eth0`, is of one machine alone."""
    try:
        return ipaddress.ip_address(text) if '%' not in text else None
    except ValueError:
        return None

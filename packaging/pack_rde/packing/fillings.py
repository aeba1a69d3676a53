"""What is filled where the tables lack it, and only where an option asks for it."""
import hashlib
from dataclasses import dataclass

from packing.tables import Object
from packing.tables import Survey
from packing.telling import Note
from packing.telling import Report

LETTERS = {'domain': 'D', 'host': 'H', 'contact': 'C'}
STATUSES = {'domain': 'domainStatuses', 'host': 'hostStatuses', 'contact': 'contactStatuses'}
SERVERS = ('domainNs', 'domainHostAttr')


@dataclass(frozen=True)
class Fillings:
    """The suffix of ROIDs (a repository's id, RFC 5730 2.8), whether statuses are filled, and the
    policy of IDN tables."""
    roid: str | None = None
    status: bool = False
    idn_policy: str | None = None

    def settle(self, tables: dict[str, Survey]) -> None:
        """Adds to what tables have the fields that are filled."""
        for kind, table in STATUSES.items():
            its = tables.get(kind, Survey())
            if its.rows and self.roid:
                its.fields['roid'] = its.rows
            if its.rows and self.status:
                statuses = tables.setdefault(table, Survey())
                statuses.rows = max(statuses.rows, 1)
                statuses.fields['status'] = max(statuses.fields['status'], 1)
        if self.idn_policy and 'idn' in tables:
            tables['idn'].fields['urlPolicy'] = tables['idn'].rows

    def fill(self, it: Object, report: Report) -> None:
        if self.roid and it.kind in LETTERS and not it.cells.get('roid'):
            digits = hashlib.sha256(f'{it.kind} {it.key}'.encode()).hexdigest()[:16].upper()
            it.cells['roid'] = f'{LETTERS[it.kind]}{digits}-{self.roid}'
            report.note(Note.FILLED, f'{it.kind}.roid')
        if self.status and it.kind in STATUSES:
            rows = it.children.setdefault(STATUSES[it.kind], [])
            if not any(row.get('status') for row in rows):
                # The one that a server would show (RFC 5731 2.3, RFC 5732 2.3, RFC 5733 2.2).
                is_idle = it.kind == 'domain' and not any(it.children.get(name) for name in SERVERS)
                rows.insert(0, {'status': 'inactive' if is_idle else 'ok'})
                report.note(Note.FILLED, f'{STATUSES[it.kind]}.status with {rows[0]["status"]}')
        if self.idn_policy and it.kind == 'idn' and not it.cells.get('urlPolicy'):
            it.cells['urlPolicy'] = self.idn_policy
            report.note(Note.FILLED, 'idn.urlPolicy')

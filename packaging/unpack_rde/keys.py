"""The keys of a deposit's objects, and the other fields by which its files name them. They are kept
in a file, since they may be many."""
import os
import sqlite3

# Kinds whose keys are told apart without regard to the case of ASCII letters.
LOWERED = ('domain', 'host')
LETTERS = {ord(it): it.lower() for it in 'ABCDEFGHIJKLMNOPQRSTUVWXYZ'}
TABLES = (
    'CREATE TABLE key (kind TEXT, key TEXT, PRIMARY KEY (kind, key)) WITHOUT ROWID',
    # Of a value that several deposits have the key is that of the last one.
    '''CREATE TABLE alias (is_own INTEGER, field TEXT, value TEXT, deposit INTEGER, key TEXT,
      PRIMARY KEY (is_own, field, value)) WITHOUT ROWID''',
    'CREATE TABLE second (field TEXT, value TEXT, PRIMARY KEY (field, value)) WITHOUT ROWID',
)
NAME = '''INSERT INTO alias VALUES (?, ?, ?, ?, ?) ON CONFLICT DO UPDATE SET
  deposit = excluded.deposit, key = CASE
    WHEN alias.deposit < excluded.deposit OR alias.key = excluded.key THEN excluded.key END'''
NAMED = 'SELECT key FROM alias WHERE is_own = ? AND field = ? AND value = ?'


def compared(kind: str, key: str) -> str:
    """The key as it is told from others."""
    return key.translate(LETTERS) if kind in LOWERED else key


class Keys:
    """Which objects a deposit has, and which key an object has whose field has a value, in this
    deposit or in earlier ones."""

    def __init__(self, folder: str) -> None:
        self.path, self.deposits, self.has_second = os.path.join(folder, '.keys'), 0, False
        self.store = sqlite3.connect(self.path, isolation_level=None)
        self.store.execute('PRAGMA journal_mode = OFF')
        self.store.execute('PRAGMA synchronous = OFF')
        for table in TABLES:
            self.store.execute(table)
        self.store.execute('BEGIN')

    def add(self, kind: str, key: str) -> bool:
        """Adds the key of an object, and returns whether it is new."""
        return self.store.execute('INSERT OR IGNORE INTO key VALUES (?, ?)',
                                  (kind, compared(kind, key))).rowcount == 1

    def has(self, kind: str, key: str) -> bool:
        return self.store.execute('SELECT 1 FROM key WHERE kind = ? AND key = ?',
                                  (kind, compared(kind, key))).fetchone() is not None

    def name(self, field: str, value: str, key: str, is_own: bool = True) -> None:
        """The object of this key has this value in a field. A value that two objects of one deposit
        have names neither."""
        self.store.execute(NAME, (is_own, field, value, 0 if is_own else self.deposits, key))

    def named(self, field: str, value: str, is_own_first: bool = True) -> str | None:
        """The key of the one object that has this value in a field; None if none is known, or two
        are. It is looked up in this deposit first, or last: a deleted object is one that was there
        before."""
        for is_own in (is_own_first, not is_own_first):
            if found := self.store.execute(NAMED, (is_own, field, value)).fetchone():
                return found[0]
        return None

    def known(self, field: str, value: str) -> str | None:
        """The same in earlier deposits alone."""
        found = self.store.execute(NAMED,
                                   (False, field, value)).fetchone() if self.deposits else None
        return found[0] if found else None

    def owned(self, field: str, value: str) -> str | None:
        """The same in this deposit alone."""
        found = self.store.execute(NAMED, (True, field, value)).fetchone()
        return found[0] if found else None

    def add_second(self, field: str, value: str) -> None:
        """The object that has this value is left out, since another one has its key."""
        self.has_second = True
        self.store.execute('INSERT OR IGNORE INTO second VALUES (?, ?)', (field, value))

    def seconds(self) -> list[tuple[str, str, str]]:
        """Of each such object of this deposit the field, its value and the key."""
        return self.store.execute(
            'SELECT field, value, key FROM second NATURAL JOIN alias WHERE is_own').fetchall(
            ) if self.has_second else []

    def is_second(self, field: str, value: str) -> bool:
        return self.has_second and self.store.execute(
            'SELECT 1 FROM second WHERE field = ? AND value = ?',
            (field, value)).fetchone() is not None

    def close(self) -> None:
        self.store.close()
        if os.path.exists(self.path):
            os.remove(self.path)

"""What the desk takes at most: each figure stands here once, as the programs have it (a test
compares them)."""
import re

# A bundle: its bytes, its sections, its rows.
MOST_BYTES, MOST_SECTIONS, MOST_ROWS = 16_777_216, 64, 100_000
# So many bytes of a bundle are left to its description.
OF_DESCRIPTION = 65_536
# A table: its fields, and the bytes of a key.
MOST_FIELDS, MOST_KEY = 64, 255
# The letters of an id and of the name of a field, of a table, and of a section.
MOST_ID, MOST_TABLE, MOST_SECTION = 64, 64, 32
# The numbers of a header.
MOST_RESEND, MOST_COUNT = 999_999, (1 << 64) - 1
# The rows that a store lists, one for each bundle of a series.
MOST_PARTS = 4_096

ID = re.compile(rf'[A-Za-z0-9._-]{{1,{MOST_ID}}}', re.ASCII)
TABLE = re.compile(rf'[A-Za-z0-9_]{{1,{MOST_TABLE}}}', re.ASCII)
SECTION = re.compile(rf'[a-z0-9._-]{{1,{MOST_SECTION}}}', re.ASCII)

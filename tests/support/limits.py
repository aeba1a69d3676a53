"""What the programs take at most, as the plain models of the tests have it: each figure stands here
once. tests/unit/test_limits.py compares them with the programs' sources, the scripts and the
pages."""

# A bundle: its bytes, its sections, its rows.
MOST_BYTES, MOST_SECTIONS, MOST_ROWS = 16_777_216, 64, 100_000
# A table: its fields, and the bytes of a key.
MOST_FIELDS, MOST_KEY = 64, 255
# The letters of an id and of the name of a field, of a table, and of a section.
MOST_ID, MOST_TABLE, MOST_SECTION = 64, 64, 32
# The numbers of a header.
MOST_RESEND, MOST_COUNT = 999_999, 2**64 - 1
# A manifest: its rows and its bytes.
MOST_LISTED, MOST_MANIFEST = 4_096, 4_194_304
# A store: its parked bodies, and its receipts.
MOST_PARKED, MOST_RECEIPTS = 1_024, 1_000_000_000
# The head of a request: its bytes and its lines.
MOST_HEAD, MOST_LINES = 8_192, 32
# The seconds that a request has at first, the bytes that earn one more, and the most of them.
FIRST_SECONDS, BYTES_A_SECOND, MOST_SECONDS = 10, 65_536, 300

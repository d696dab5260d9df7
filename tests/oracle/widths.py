"""Inputs whose row sizes take every value that they can, for tests/differential. All their rows are zeros."""

from known import MOST_TABLES, header, only

KNOWN = 45  # kinds of tables that have columns
MEMBER_REF, CUSTOM_ATTRIBUTE = 0x0A, 0x0C  # whose row sizes depend on counts
ROWS = (2047, 2048, 8191, 8192, 15000)  # on both sides of where an index gets 4 bytes, and the most


def filled(tables, length):
    return only(tables + bytes(length - len(tables)))


def by_heap_sizes():
    """One row of each kind, and enough zeros for all."""
    for heap in range(256):
        yield "heap sizes %d" % heap, filled(header({kind: 1 for kind in range(KNOWN)}, heap), 2000)


def by_counts():
    """So many rows of one kind, and one of each table that depends on it. Where those of the kind do not fit the walk is left there."""
    for kind in range(KNOWN):
        for rows in ROWS:
            for heap in (0, 7):
                counts = {MEMBER_REF: 1, CUSTOM_ATTRIBUTE: 1, kind: rows}
                yield "%d rows of kind %d, heap sizes %d" % (rows, kind, heap), filled(header(counts, heap), MOST_TABLES)


def all_inputs():
    yield from by_heap_sizes()
    yield from by_counts()

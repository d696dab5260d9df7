"""The walk over a tables stream in Python: where each table begins, its row size and its whole rows, where neither the Rust nor one of our
programs is to say so. For `layouts.py`, which tests/differential holds against the Rust, and for tests/layouts."""

from assembly import COLUMNS, column_sizes
from changes import HEADER, row_counts

KINDS = 64
COUNT = 4  # bytes
MOST_ROWS = 15000
HEAP_SIZES, SKIPPED = 6, 0x40  # the byte of the header, and the bit by which four bytes stand behind the counts


def refusal(tables):
    """The number with which opening refuses a stream, or 0."""
    if len(tables) < HEADER:
        return 1
    counts = row_counts(tables)
    if len(tables) < HEADER + COUNT * len(counts):
        return 2
    return 3 if any(count > MOST_ROWS for count in counts.values()) else 0


def walked(tables):
    """[kind, start, row size, whole rows] of each kind of a stream that is not refused, as changes.extents_of has them, and the kind at
    which the walk is left, or 64."""
    found = [[kind, 0, 0, 0] for kind in range(KINDS)]
    counts, heap_bits = row_counts(tables), tables[HEAP_SIZES]
    at = min(len(tables), HEADER + COUNT * len(counts) + (4 if heap_bits & SKIPPED else 0))
    for kind, count in counts.items():
        if not count:
            continue
        if kind not in COLUMNS:
            return found, kind
        size = sum(column_sizes(kind, counts, heap_bits))
        whole = min(count, (len(tables) - at) // size)
        found[kind] = [kind, at, size, whole]
        if whole < count:
            return found, kind
        at += count * size
    return found, KINDS


def extents(tables):
    return walked(tables)[0]


def text(tables):
    """As the program extents writes it."""
    if refusal(tables):
        return "refused=%d\n" % refusal(tables)
    found, stop = walked(tables)
    return "".join("%d %d %d %d\n" % tuple(extent) for extent in found) + "stop=%d\n" % stop

"""Inputs whose answers are known beforehand from document 01, and from request 2026-12, for `check`, `record_listings`, `wrong_cases` and
tests/layouts."""

import struct

from assembly import CLASS_LAYOUT, TYPE_DEF, bundle


def header(counts, heap=0):
    """A header and counts; heap indices have 2 bytes, unless the heap sizes say something else."""
    valid = sum(1 << kind for kind in counts)
    sizes = b"".join(counts[kind].to_bytes(4, "little") for kind in sorted(counts))
    return bytes(6) + bytes([heap, 0]) + valid.to_bytes(8, "little") + bytes(8) + sizes


def only(tables):
    """An input with empty heaps."""
    return bundle(tables, b"", b"")


def extents(stop, known):
    """The text of a walk that stops there: `START SIZE ROWS` of the kinds that are known, zeros of the others."""
    lines = ["%d %s\n" % (kind, known.get(kind, "0 0 0")) for kind in range(64)]
    return "".join(lines) + "stop=%d\n" % stop


WHOLE = bundle(bytes.fromhex("00000000 02 00 00 01 0400000000000000 0000000000000000 02000000" + 14 * "00"
                             + "01000000 0500 0300 0000 0100 0000"),
               bytes.fromhex("00 41 00 4E 00 4C 60 31 00"), b"")
BARE = "packing=\nsize=\n"  # of a class that no row of ClassLayout names
WHOLE_LISTING = "stop=64\nclasses=1\nclass=N.L\nflags=1\n" + BARE

MOST_TABLES = 65536 - len("tables=65506\nstrings=0\nblob=0\n")

# What is refused, and what lies just on the other side.
LIMITS = {
    "1: 23 bytes": (only(bytes(23)), "refused=1\n"),
    "1: no bytes": (only(b""), "refused=1\n"),
    "no table at all": (only(bytes(24)), "stop=64\nclasses=0\n"),
    "2: counts cut": (only(header({2: 1})[:-1]), "refused=2\n"),
    "2 before 3": (only(header({2: 15001, 4: 1})[:-1]), "refused=2\n"),
    "3: 15,001 rows": (only(header({2: 15001})), "refused=3\n"),
    "3: an unknown kind": (only(header({63: 15001})), "refused=3\n"),
    "15,000 rows": (only(header({2: 15000})), "stop=2\nclasses=0\n"),
    "8: no lines": (b"", "refused=8\n"),
    "8: leading zero": (b"tables=00\nstrings=0\nblob=0\n", "refused=8\n"),
    "8: a byte too many": (only(bytes(24)) + b"\0", "refused=8\n"),
    "65,536 bytes": (only(bytes(MOST_TABLES)), "stop=64\nclasses=0\n"),
    "8: 65,537 bytes": (only(bytes(MOST_TABLES + 1)), "refused=8\n"),
}


# ClassLayout.

def laid_out(*rows, cut=0):
    """Two classes of the name A, and rows of ClassLayout: packing, size, Parent. So many bytes are missing at the end."""
    types = bytes(14) + 2 * (bytes(4) + b"\x01\0" + bytes(8))
    tables = header({TYPE_DEF: 3, CLASS_LAYOUT: len(rows)}) + types + b"".join(struct.pack("<HIH", *row) for row in rows)
    return bundle(tables[:len(tables) - cut], b"\0A\0", b"")


def with_lines(first, second, stop=64):
    """The listing of the two, by the lines of each."""
    return "stop=%d\nclasses=2\n" % stop + "".join("class=A\nflags=0\n" + lines for lines in (first, second))


LAYOUTS = {
    "a row": (laid_out((4, 16, 2)), with_lines("packing=4\nsize=16\n", BARE)),
    "the last class": (laid_out((4, 16, 3)), with_lines(BARE, "packing=4\nsize=16\n")),
    "the first of two rows": (laid_out((4, 16, 2), (8, 32, 2)), with_lines("packing=4\nsize=16\n", BARE)),
    "two rows, not in order": (laid_out((4, 16, 3), (8, 32, 2)), with_lines("packing=8\nsize=32\n", "packing=4\nsize=16\n")),
    "zeros before another row": (laid_out((0, 0, 2), (4, 16, 2)), with_lines("packing=0\nsize=0\n", BARE)),
    "the largest": (laid_out((65535, 4294967295, 2)), with_lines("packing=65535\nsize=4294967295\n", BARE)),
    "TypeDef row 1": (laid_out((1, 1, 1)), with_lines(BARE, BARE)),
    "row 0, and past the table": (laid_out((1, 1, 0), (2, 2, 4), (3, 3, 65535)), with_lines(BARE, BARE)),
    "cut behind a row": (laid_out((1, 1, 3), (2, 2, 2), cut=8), with_lines(BARE, "packing=1\nsize=1\n", stop=15)),
    "cut by a byte": (laid_out((1, 1, 3), (2, 2, 2), cut=1), with_lines(BARE, "packing=1\nsize=1\n", stop=15)),
    "cut in the first row": (laid_out((1, 1, 2), cut=1), with_lines(BARE, BARE, stop=15)),
}

"""ClassLayout (ECMA-335 II.22.8), which the Rust walks over and does not read (2026-12): what it says of each class, by the request's rule
and with no help of ours; and its two lines in a listing, which comparisons with the Rust leave out. tests/layouts holds it to monodis."""

import re
import struct

import walk
from asking import streams
from assembly import CLASS_LAYOUT, TYPE_DEF
from changes import Table

CLASS_ROW = 2  # the TypeDef row of class 0
FLAGS = re.compile(rb"^flags=\d+\n", re.M)
NUMBER = rb"(0|[1-9]\d*|)"  # in decimal, or missing
LINES = re.compile(rb"^(flags=\d+\n)packing=%b\nsize=%b\n" % (NUMBER, NUMBER), re.M)


class Misplaced(Exception):
    """A listing in which the two lines do not stand behind each `flags=`."""


# What the table says.

def rows(tables):
    """(packing, size, Parent) of each whole row of a stream that is not refused."""
    return [struct.unpack("<HIH", row) for row in Table(tables, walk.extents(tables)[CLASS_LAYOUT]).rows]


def of_classes(tables):
    """(packing, size) of each class, None where no row names it: the first row that does decides. A refused stream has no classes."""
    if walk.refusal(tables):
        return []
    first = {}
    for packing, size, parent in rows(tables):
        first.setdefault(parent, (packing, size))
    return [first.get(row) for row in range(CLASS_ROW, walk.extents(tables)[TYPE_DEF][3] + 1)]


# Its lines.

def said(listing):
    """(packing, size) by the lines of each class of a listing of ours, None for bare keys."""
    found = LINES.findall(listing)
    if len(found) != listing.count(b"\nflags="):
        raise Misplaced("%d lines flags=, and behind %d of them packing= and size=" % (listing.count(b"\nflags="), len(found)))
    values = [tuple(int(digits) if digits else None for digits in pair) for _, *pair in found]
    return [None if pair == (None, None) else pair for pair in values]


def dropped(listing):
    """A listing of ours without the two lines behind each `flags=`, as the Rust's has none, and with all else."""
    said(listing)
    return LINES.sub(rb"\1", listing)


def added(listing, case):
    """A listing of the Rust with the two lines of each class, by the tables of its input."""
    flags = FLAGS.findall(listing)
    found = of_classes(streams(case)[0]) if flags else []
    if len(flags) != len(found):
        raise Misplaced("%d lines flags=, and %d classes" % (len(flags), len(found)))
    lines = (lines_of(*(layout or ())) for layout in found)
    return FLAGS.sub(lambda line: line[0] + next(lines), listing)


def lines_of(packing="", size=""):
    return ("packing=%s\nsize=%s\n" % (packing, size)).encode()

"""The program section, counted, and inputs of ever more nested classes: a section that looked through all rows of NestedClass for each
class would take the square."""

import math
import os
import re
import struct

from archive import fail
from assembly import NESTED_CLASS, TYPE_DEF, bundle
from counting import Run

CLASSES = 900, 1800, 3600  # the last as many as an input holds
HEAD = re.compile(rb"section=(\d+)\noffsets=(\d+)\n")


class Section:
    """What the program takes for an input: `cost` is in instructions, from reading the input to writing the section and its offsets."""

    def __init__(self, program, counts, case):
        run = Run(counts, "main", ["main"], [program], case)
        head = HEAD.match(run.output)
        if not head:
            fail("the program section says %r" % run.output[:20])
        self.cost = run.cost(0)
        self.bytes, self.classes = map(int, head.groups())


def nested(classes):
    """Row 1, and then classes with the name A: the first, and all others in it, of which the last stands first in NestedClass."""
    rows = {TYPE_DEF: [struct.pack("<IHHHHH", 0, 1, 0, 0, 1, 1)] * (classes + 1),
            NESTED_CLASS: [struct.pack("<HH", row, 2) for row in range(classes + 1, 2, -1)]}
    valid = sum(1 << kind for kind in rows)
    header = bytes(8) + struct.pack("<Q", valid) + bytes(8) + b"".join(struct.pack("<I", len(rows[kind])) for kind in sorted(rows))
    return bundle(header + b"".join(row for kind in sorted(rows) for row in rows[kind]), b"\0A\0", b"")


def print_growth(program, folder):
    print("\nA type-name section of classes in a class, in instructions, and the exponent with which it grows as they double:\n")
    print("%-8s %8s %12s %9s %9s" % ("classes", "bytes", "section", "a class", "exponent"))
    before = None
    for classes in CLASSES:
        now = Section(program, os.path.join(folder, "callgrind.nested.%d" % classes), nested(classes))
        exponent = "%.2f" % math.log2(now.cost / before.cost) if before else ""
        print("%-8d %8d %12d %9.0f %9s" % (now.classes, now.bytes, now.cost, now.cost / now.classes, exponent))
        before = now

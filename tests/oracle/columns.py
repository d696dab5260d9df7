"""Streams with every placing of three classes over 0 to 3 methods, and a plain model of what the two modes of opening say of them (2026-09):
the two passes of `finalize` in dotnet.rs. For `tests/modes`."""

import itertools

from assembly import bundle
from call_cases import Case, plain, signature
from known import BARE

CLASSES = 3
MOST_METHODS = 3
PAST = 2  # the columns go up to one past the column just after the last method
STEPS_OF_BASES = 0  # no class extends anything
FLAGS = 1
PARAMETER = "a"

VOID, INT, GENERIC = b"\x01", b"\x08", b"\x13\0"  # the last is the first generic parameter of the class that reads


class Placing:
    """Classes that begin at these columns, each of those in `generic` with a generic parameter of its own, and so many methods: those of
    even numbers return it and take an int, the others return nothing and take it."""

    def __init__(self, columns, generic, methods):
        self.columns, self.generic, self.methods = columns, generic, methods

    def name(self):
        return "columns %s, %d methods, generics of %s" % (self.columns, self.methods, self.generic)

    def input(self):
        types = [plain(b"C%d" % c, first=column) for c, column in enumerate(self.columns)]
        methods = [(m, b"m%d" % m, signature(VOID, GENERIC) if m % 2 else signature(GENERIC, INT), 1) for m in range(self.methods)]
        generics = [(2 * (c + 2), b"T%d" % c) for c in self.generic]
        return bundle(*Case(self.name(), types, methods, generics=generics, params=[PARAMETER.encode()]).streams())

    def is_in_order(self):
        """Whether the columns that are not 0 never fall and never pass that just after the last method."""
        some = [column for column in self.columns if column]
        return some == sorted(some) and all(column - 1 <= self.methods for column in some)

    # The two passes. Both go from the last class to the first and leave out those whose column is 0.

    def readers(self):
        """The classes that read each method, in their order: each reads from its first method up to that of the class before in this order,
        or to the last method."""
        found, end = [[] for _ in range(self.methods)], self.methods
        for c in self.backwards():
            first = self.columns[c] - 1
            for m in range(first, min(end, self.methods)):
                found[m].append(c)
            end = first
        return found

    def takers(self):
        """The class that has each method, or None: a class takes all that are left from its first method on, if that is not past them."""
        found, left = [None] * self.methods, self.methods
        for c in self.backwards():
            first = self.columns[c] - 1
            if first <= left:
                found[first:] = [c] * (left - first) + found[left:]
                left = first
        return found

    def backwards(self):
        return [c for c in reversed(range(len(self.columns))) if self.columns[c]]

    # What is said of the methods.

    def reading(self, m, c):
        """The return type and the type of the parameter as a class reads them, None for one that is missing; or None where the reading
        fails. And its steps."""
        own = "T%d" % c if c in self.generic else None
        if m % 2:
            return ("void", own), 2
        return ((own, "int"), 2) if own else (None, 1)

    def signature_of(self, m, by_taker):
        """The last reading that succeeds, or None, and the steps of all of them; or the taker's alone."""
        stands, steps = None, 0
        for c in [self.takers()[m]] if by_taker else self.readers()[m]:
            read, took = self.reading(m, c)
            stands, steps = read or stands, steps + took
        return stands, steps

    def methods_of(self, c):
        return [m for m, taker in enumerate(self.takers()) if taker == c]

    def listing(self, by_taker):
        lines = ["stop=64", "classes=%d" % len(self.columns)]
        for c in range(len(self.columns)):
            lines += ["class=C%d" % c, "flags=%d" % FLAGS, *BARE.splitlines()] + ["generic=T%d" % c] * (c in self.generic)
            for m in self.methods_of(c):
                returns, parameter = self.signature_of(m, by_taker)[0] or (None, None)
                lines += ["method=m%d" % m, "mflags=%d" % m, "returns=" + (returns or "")]
                lines += ["ptype=" + (parameter or ""), "pname=" + PARAMETER] if returns else []
        return "".join(line + "\n" for line in lines)

    def steps(self, by_taker):
        """As tests/c/steps.c writes them."""
        lines = []
        for c in range(len(self.columns)):
            lines.append("class=%d steps=%d" % (c, STEPS_OF_BASES))
            lines += ["method=%d,%d steps=%d" % (c, i, self.signature_of(m, by_taker)[1]) for i, m in enumerate(self.methods_of(c))]
        return "".join(line + "\n" for line in lines)


def placings():
    classes = range(CLASSES)
    for methods in range(MOST_METHODS + 1):
        for columns in itertools.product(range(methods + PAST + 1), repeat=CLASSES):
            for count in range(CLASSES + 1):
                for generic in itertools.combinations(classes, count):
                    yield Placing(columns, generic, methods)

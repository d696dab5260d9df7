"""Answers of the public calls in both modes of opening (2026-09), for `record_calls`: of streams in which two classes read a method. In the new
mode, bit 2 of the options, the class that has a method is the only one to read its signature."""

from assembly import bundle
from call_cases import Bytes, Case, plain, signature
from call_lines import TAKER
from step_lines import any_call, lines_of

MODES = {0: "", TAKER: ", options %d" % TAKER}
VOID, FIRST_GENERIC = b"\x01", b"\x13\0"

# Document 01's three classes, which start at methods 0, 3 and 1 of five: the first has the generic parameter T and the third U, and each
# method takes the first generic parameter.
THREE = Bytes("document 01's three classes",
              "00000000 02 00 00 01 4400000000040000 0000000000000000 04000000 05000000 02000000"
              "0000000000000000000000000000 0000000001000000000001000100 0000000003000000000001000400 0000000005000000000001000200"
              + 5 * "0000000000000000070001000000" + "0000000004000900 0000000008000B00",
              bytes.fromhex("00 4100 4200 4300 6D00 5400 5500"), bytes.fromhex("00 05 0001011300"))


def placed(name, columns, generics, content=signature(FIRST_GENERIC, FIRST_GENERIC)):
    """Classes with these columns for their first methods, of five, and the generic parameters of some of them, by their numbers."""
    return Case(name, [plain(b"C%d" % c, first=column) for c, column in enumerate(columns)],
                [(i, b"m%d" % i, content, 1) for i in range(5)], params=[b"a"],
                generics=[(2 * (c + 2), text) for c, text in generics.items()])


def cases():
    yield THREE
    yield placed("the class that has the methods has no generic parameter", [1, 4, 2], {0: b"T"})
    yield placed("the other class has no generic parameter", [1, 4, 2], {2: b"U"})
    yield placed("no class has a generic parameter", [1, 4, 2], {})
    yield placed("in order, with equal columns and one of 0", [1, 0, 3, 3], {0: b"T", 1: b"X", 2: b"Y", 3: b"U"})
    yield placed("a parameter that only the other class reads", [1, 4, 2], {0: b"T"}, signature(VOID, FIRST_GENERIC))


def blocks(records):
    """(name, streams, options, lines)."""
    for case in cases():
        three = case.streams()
        for options, mode in MODES.items():
            lines = list(lines_of(records, bundle(*three), any_call, False, options))
            yield "modes, %s%s" % (case.name, mode), three, options, lines

"""Inputs with signatures that nest deep: for the differential runs, with at most 4,096 bytes to a signature; and as long as an input of
the programs may be, for tests/deep and tests/stack."""

from assembly import METHOD_DEF, TYPE_DEF, TYPE_SPEC, Assembly, bundle
from dice import Dice, shortest, unsigned

MOST = 65536  # bytes of an input
SIGNATURE = 4090
LONG = 65400  # bytes of a signature, in an input that has little else
BLOCK = 100  # nestings of a kind, one after the other
MIXTURES = 12
LENGTHS = 1, 16, 1024, 5000  # the most nestings of a kind in a row, in a mixture
INT, STRING, NOTHING = b"\x08", b"\x0e", b"\x17"

# What opens a nesting and what closes it.
PLAIN_RUNS = {
    "1D": (b"\x1d", b""),
    "1F": (b"\x1f\x05", b""),
    "1D and 20": (b"\x1d\x20\x05", b""),
    "15": (b"\x15", b"\x00"),
    "15, not closed": (b"\x15", b""),
    "15 and 1D": (b"\x15\x1d", b"\x00"),
    "15 and 20": (b"\x15\x20\x05", b"\x00"),
    "15 by arguments": (b"\x15\x08\x01", b""),
    "15 by the second of three arguments": (b"\x15\x08\x03\x0e", b"\x0e"),
    "15 with arguments behind": (b"\x15", b"\x02\x08\x0e"),
    "15 by arguments that are arrays": (b"\x15\x1d\x08\x02\x1d\x08\x1d", b""),
}


def joined(runs, times=1):
    """Runs inside of one another, each so many times."""
    return b"".join(opens * times for opens, _ in runs), b"".join(closes * times for _, closes in reversed(runs))


CLOSED_RUNS = [run for name, run in PLAIN_RUNS.items() if name != "15, not closed"]
RUNS = {**PLAIN_RUNS, "all in turn": joined(CLOSED_RUNS), "blocks of all": joined(CLOSED_RUNS, BLOCK)}


def nested(run, size, inner):
    """A type with as many nestings as some bytes allow, and the inner type in the last."""
    opens, closes = run
    times = size // len(opens + closes)
    return opens * times + inner + closes * times


def mixed(number, size, inner):
    """A type with nestings by chance, none of them closed."""
    dice, opens = Dice(0, number), b""
    while True:
        one = dice.pick(CLOSED_RUNS)[0]
        times = min(dice.between(1, dice.pick(LENGTHS)), (size - len(opens)) // len(one))
        if times == 0:
            return opens + inner
        opens += one * times


def named(row):
    """A type that is what a row of TypeSpec says."""
    return b"\x12" + shortest(row << 2 | 2)


# Inputs, each of one class with one method.

def with_blob(blob, method, specs):
    """The first TypeSpec is what the class extends. The method's signature and the TypeSpecs stand at these places of the blob heap."""
    wide = len(blob) > 0xFFFF
    made = Assembly(Dice(0, 0), {TYPE_DEF: 2, METHOD_DEF: 1, TYPE_SPEC: len(specs)}, heap_bits=4 if wide else 0)
    name = made.add_name(b"Deep")
    made.rows = {TYPE_DEF: [[0] * 6, [0, name, 0, 1 << 2 | 2, 1, 1]], METHOD_DEF: [[0, 0, 0, name, method, 1]],
                 TYPE_SPEC: [[spec] for spec in specs]}
    tables = made.header() + b"".join(made.row_bytes(kind) for kind in sorted(made.rows))
    return bundle(tables, bytes(made.strings), bytes(blob))


def with_specs(types, method=b"\x00\x01" + named(1) + named(1) + b"\x00"):
    """TypeSpecs, and a method that returns the first and has it as its parameter, if nothing else is said."""
    blob, places = bytearray(b"\0" + shortest(len(method)) + method), []
    for content in types:
        places.append(len(blob))
        blob += shortest(len(content)) + content
    return with_blob(blob, 1, places)


def fifteen(run):
    """Fifteen type specifications, each naming the next one."""
    return with_specs([nested(run, SIGNATURE, named(row + 1)) for row in range(1, 15)] + [nested(run, SIGNATURE, INT)])


def itself(run, size=SIGNATURE):
    """One type specification that names itself, so that it is read once at each level."""
    return with_specs([nested(run, size, named(1))])


def once(run, size=SIGNATURE):
    """One type specification that names no other."""
    return with_specs([nested(run, size, INT)])


def broken(run, size=SIGNATURE):
    """The innermost type is none. As a parameter it is missing, and the next one begins where the reading stopped."""
    return with_specs([nested(run, size, NOTHING)], b"\x00\x04\x01" + nested(run, size - 10, NOTHING) + STRING + INT + STRING)


def behind(run, size=SIGNATURE):
    """A parameter, and others behind it."""
    return with_specs([INT], b"\x00\x04\x01" + nested(run, size - 10, STRING) + INT + STRING + INT)


def same_bytes(start, content):
    """The method's signature begins with some bytes and ends with the content, and the content is TypeSpec 1 too, which may name itself:
    the number behind a modifier is passed over, so it can be the length of a blob. So all bytes are read at all levels."""
    signature = start + b"\x20" + unsigned(len(content), 4) + content
    blob = b"\0" + shortest(len(signature))
    return with_blob(blob + signature, 1, [len(blob) + len(start) + 1])


# What stands before a return type, and before a parameter.
STARTS = {"returned": b"\x00\x01", "as a parameter": b"\x00\x01\x01"}


def room(start, most=MOST):
    """The bytes for the content of same_bytes, in an input of so many."""
    return most - len(same_bytes(start, bytes(most - 1000))) + most - 1000


def all_inputs():
    """(name, input): none has a signature of more than 4,096 bytes."""
    for name, run in RUNS.items():
        for form in (fifteen, itself, once, broken, behind):
            yield "%s, %s" % (name, form.__name__), form(run)
    for number in range(MIXTURES):
        yield "mixture %d, itself" % number, with_specs([mixed(number, SIGNATURE, named(1))])


def long_inputs():
    """(name, input): the longest that the programs take."""
    for name, run in RUNS.items():
        for form in (itself, once, behind):
            yield "%s, %s, long" % (name, form.__name__), form(run, LONG)
        for where, start in STARTS.items():
            yield "%s, %s, long" % (name, where), same_bytes(start, nested((run[0], b""), room(start) - len(named(1)), named(1)))

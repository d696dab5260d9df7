"""Streams whose types take a known number of steps (2026-06), for `check`, `record_listings`, `record_calls`, `tests/differential` and
`tests/steps`. A step is a type byte that is read. The counts and texts are those of the request's study; `check` holds the oracle to them."""

from assembly import bundle
from call_cases import A, C, Case, of_def, of_ref, of_spec, plain, signature
from dice import shortest
from known import BARE

CEILING = 1000000  # what a listing allows for a name
RAISED = 2 * CEILING  # for those that are a little over it
VOID, INT, STRING = b"\x01", b"\x08", b"\x0e"
NONE = None  # a type that has no name

# TypeSpec 1, the steps that it takes as a base type, its name, and the TypeSpecs behind it. Class 0, TypeDef row 2, is N.A.
SPECS = [
    ("17", 1, NONE),
    ("1D0F01", 3, "Ptr<void>[]"),
    ("1408020000", 2, "int[,]"),
    ("14080200", 2, NONE),
    ("1B0002011708", 4, "FnPtr<void(, int)>"),
    ("1B00020108", 3, "FnPtr<void(int)>"),
    (16 * "0F" + "08", 17, 16 * "Ptr<" + "int" + 16 * ">"),
    (17 * "0F" + "08", 18, NONE),
    (18 * "0F" + "08", 18, NONE),
    ("1F", 1, NONE),
    ("1F0508", 2, "int"),
    ("15170108", 2, NONE),
    ("151CE0", 2, NONE),
    ("151C83E9", 2, NONE),
    ("151C0208", 3, NONE),
    ("1208", 1, "N.A"),
    ("120A", 2, "int", "08"),
    ("1206", 18, NONE),
    ("151C02120A120A", 8, "object<int[],int[]>", "1D08"),
    # What a count might miss: a run of one tag, instances of instances, tag 3, a row that is not there, no byte at all; and an argument
    # that is the type itself: four steps at each level from 0 to 15, three at level 16, and what stands behind it is not read.
    ("1D1D1D08", 4, "int[][][]"),
    ("15151C010801081D0E", 5, "object<int><int>"),
    ("1207", 1, NONE),
    ("12800E", 1, NONE),
    ("", 0, NONE),
    ("15120A0312061300120A", 67, NONE, "08"),
]

# A method's signature, the steps of one reading, its return type, and the types of its parameters. None in place of both: no reading.
SIGNATURES = [
    ("", 0, None),
    ("00", 0, None),
    ("1000", 0, None),
    ("000001", 1, ("void",)),
    ("00020108", 2, ("void", "int", NONE)),
    ("0002011708", 3, ("void", NONE, "int")),
    ("00011708", 1, None),
    ("0087D101", 0, None),
    ("00030117130008", 4, ("void", NONE, NONE, "int")),
    ("100202080E1D0E", 4, ("int", "string", "string[]")),
]


def named(spec):
    """A type that is what a row of TypeSpec says."""
    return b"\x12" + shortest(of_spec(spec))


def function(count, parameter):
    """A function that returns nothing and has so many parameters of a type."""
    return b"\x1b\x00" + shortest(count) + VOID + parameter * count


def instance(count, argument):
    return b"\x15\x1c" + shortest(count) + argument * count


HEAVY = 998 * b"\x1d" + b"\x17"  # 999 steps, and no name
MANY = "FnPtr<void()>"


def many(steps, heavy):
    """A type that takes so many steps, 2 at the least, and is called MANY: a function all of whose parameters are dropped. Each names the
    TypeSpec of that row, HEAVY, and so takes 1,000 steps; what is missing to the number are modifiers, of a step each."""
    parameters, modifiers = divmod(steps - 2, 1000)
    return b"\x1f\x00" * modifiers + function(parameters, named(heavy))


def nameless(steps, heavy):
    """The same as an array whose rank is not there."""
    return b"\x14" + many(steps - 1, heavy)


def with_base(name, spec, others=()):
    return Case(name, [plain(b"A", b"N", extends=of_spec(1))], specs=[bytes.fromhex(code) for code in (spec, *others)])


def with_method(name, content):
    return Case(name, [A], [(0, b"m", content)], params=[b"a", b"b"])


def short(code):
    return code if len(code) < 20 else "%d bytes, %s.." % (len(code) // 2, code[:4])


def table():
    """(case, whether it is the method that is meant, steps, texts) of each line of the two tables: the names of the base types, or the
    return type and the types of the parameters."""
    for code, steps, name, *others in SPECS:
        yield with_base("steps, TypeSpec %s" % (short(code) or "of no bytes"), code, others), False, steps, [name] if name else []
    for code, steps, says in SIGNATURES:
        yield with_method("steps, signature %s" % (short(code) or "of no bytes"), bytes.fromhex(code)), True, steps, says


# Sums over several types, each small: what a call counts.

def sums():
    """(case, lines of the oracle's steps)."""
    yield Case("steps, no blob", [A], [(0, b"m", 9999)]), ["class=0 steps=0", "method=0,0 steps=0"]
    yield Case("steps, base types of all kinds", [plain(b"A", b"N", extends=of_spec(1)), C], refs=[(b"Object", b"System")],
               specs=[b"\x17", b"\x1d\x08", b"\x1d\x17"],
               interfaces=[(2, of_spec(2)), (3, of_spec(2)), (2, of_ref(1)), (2, of_spec(3)), (2, of_def(3)), (2, of_spec(2)), (2, 3)]), \
        ["class=0 steps=7", "class=1 steps=2"]
    # Three classes that start at methods 0, 3, 1 of five: the first and the third both read methods 1 and 2.
    yield Case("steps, two readings", [plain(b"C0", first=1), plain(b"C1", first=4), plain(b"C2", first=2)],
               [(i, b"m%d" % i, signature(VOID, INT, b"\x1d" + STRING)) for i in range(5)]), \
        ["class=0 steps=0", "method=0,0 steps=4", "class=1 steps=0", "class=2 steps=0",
         "method=2,0 steps=8", "method=2,1 steps=8", "method=2,2 steps=4", "method=2,3 steps=4"]
    # The third class has no generic parameter, so its readings end at the return type; the first class's stand.
    yield Case("steps, a reading that fails and one that stands", [plain(b"C0", first=1), plain(b"C1", first=4), plain(b"C2", first=2)],
               [(i, b"m%d" % i, signature(b"\x13\0", INT, STRING)) for i in range(5)], generics=[(4, b"T")]), \
        ["class=0 steps=0", "method=0,0 steps=3", "class=1 steps=0", "class=2 steps=0",
         "method=2,0 steps=4", "method=2,1 steps=4", "method=2,2 steps=1", "method=2,3 steps=1"]


# Streams at the listing's ceiling and above it, with the steps of each class and method, and the listing.

def method_of(steps):
    """A method that takes so many steps, and one behind it."""
    return Case("steps, a method of %d" % steps, [A, plain(b"B", first=3)],
                [(0, b"m", signature(many(steps - 2, 1), INT, STRING), 1), (0, b"n", signature(INT, STRING), 1)],
                params=[b"a", b"b"], specs=[HEAVY])


def bases_of(steps):
    """A class whose base types take so many steps, with a method, and a class behind it."""
    return Case("steps, base types of %d" % steps, [plain(b"A", b"N", extends=of_spec(2)), plain(b"B", first=2, extends=of_def(2))],
                [(0, b"m", signature(INT), 1)], interfaces=[(2, of_def(3)), (2, of_spec(3))], specs=[HEAVY, many(steps - 1, 1), INT])


def tipped_by(steps):
    """The same, with 600,000 steps of a base type and the others of one without a name."""
    return Case("steps, base types of %d with a nameless one" % steps, [plain(b"A", b"N", extends=of_spec(2)), C],
                interfaces=[(2, of_spec(3)), (2, of_def(3))], specs=[HEAVY, many(600000, 1), nameless(steps - 600000, 1)])


def read_twice():
    """Three classes that start at methods 0, 3, 1 of five; each reading of a method takes 500,001 steps."""
    content = signature(many(500000, 1), INT)
    return Case("steps, two readings of 500001", [plain(b"C0", first=1), plain(b"C1", first=4), plain(b"C2", first=2)],
                [(0, b"m%d" % i, content if i == 0 else 1, 1) for i in range(5)], params=[b"a"], specs=[HEAVY])


def endless(name, specs):
    return Case("steps, " + name, [plain(b"A", extends=of_spec(1)), plain(b"B", first=2)], [(0, b"m", signature(VOID, named(1)), 1)],
                specs=specs)


ARGUMENTS, RING, CHAIN = 30, 4, 7
ENDLESS = [
    # Each names the next one thirty times, and the last one the first, down to level 16. What fails there is dropped.
    endless("functions that name each other", [function(ARGUMENTS, named(row % RING + 1)) for row in range(1, RING + 1)]),
    # A failure would end an instance, so the last one is of plain types.
    endless("instances that name each other", [instance(ARGUMENTS, named(row + 1)) for row in range(1, CHAIN)] + [instance(ARGUMENTS, INT)]),
]
SMALL = 700  # bytes: each of these has fewer


def lines(*parts):
    return "".join(line + "\n" for line in ("stop=64", *parts))


def class_lines(name, *bases, flags=1):
    return ["class=" + name, "flags=%d" % flags, *BARE.splitlines(), *("base=" + base for base in bases)]


def method_lines(name, returns, *params):
    return ["method=" + name, "mflags=0", "returns=" + returns, *(line for typ, of in params for line in ("ptype=" + typ, "pname=" + of))]


def crafted():
    """(case, lines of the steps under the raised ceiling, listing)."""
    behind = method_lines("n", "int", ("string", "a"))
    for steps in (CEILING - 1, CEILING, CEILING + 1):
        over = steps > CEILING
        first = method_lines("m", "!") if over else method_lines("m", MANY, ("int", "a"), ("string", "b"))
        yield method_of(steps), ["class=0 steps=0", "method=0,0 steps=%d" % steps, "method=0,1 steps=2", "class=1 steps=0"], \
            lines("classes=2", *class_lines("N.A"), *first, *behind, *class_lines("B"))
    for steps in (CEILING - 1, CEILING, CEILING + 1):
        bases = ["!"] if steps > CEILING else [MANY, "B", "int"]
        yield bases_of(steps), ["class=0 steps=%d" % steps, "method=0,0 steps=1", "class=1 steps=0"], \
            lines("classes=2", *class_lines("N.A", *bases), *method_lines("m", "int"), *class_lines("B", "N.A"))
    for steps in (CEILING, CEILING + 1):
        bases = ["!"] if steps > CEILING else [MANY, "C"]
        yield tipped_by(steps), ["class=0 steps=%d" % steps, "class=1 steps=0"], \
            lines("classes=2", *class_lines("N.A", *bases), *class_lines("C", flags=C[0]))
    once = [method_lines("m%d" % i, MANY, ("int", "a")) for i in range(5)]
    yield read_twice(), ["class=0 steps=0", "method=0,0 steps=500001", "class=1 steps=0", "class=2 steps=0", "method=2,0 steps=1000002",
                         "method=2,1 steps=1000002", "method=2,2 steps=500001", "method=2,3 steps=500001"], \
        lines("classes=3", *class_lines("C0"), *once[0], *class_lines("C1"), *class_lines("C2"), *method_lines("m1", "!"),
              *method_lines("m2", "!"), *once[3], *once[4])
    for case in ENDLESS:
        yield case, ["class=0 steps=!", "method=0,0 steps=!", "class=1 steps=0"], \
            lines("classes=2", *class_lines("A", "!"), *method_lines("m", "!"), *class_lines("B"))


def listed():
    """(name, input) of all of them, for listings."""
    cases = [case for case, *_ in table()] + [case for case, _ in sums()] + [case for case, *_ in crafted()]
    return [(case.name, bundle(*case.streams())) for case in cases]

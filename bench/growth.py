"""Inputs that name one thing over and over, each also with a half and a quarter of the lines, and what ours and the Rust take. A listing
that finds each base type of a class, each parameter of a method or the ClassLayout row of each class from the beginning takes the square.
The Rust does not read ClassLayout (2026-12): inputs with a star have it, the ratios of these are to a listing without packing and size, and
say nothing of who is quicker.

Instructions are counted by callgrind, up to an end: a listing that takes the square would take hours. So the processor's time is measured
too, the least of three where it is short. For the Rust it is user time, of as many listings in one process as make it long enough: to give
memory takes the system longer, and is not counted. For the program it is the time of a process with what the system does. So it is not in
our favour."""

import concurrent.futures
import math
import os
import re
import resource
import subprocess

import layouts
from archive import fail
from assembly import CLASS_LAYOUT, GENERIC_PARAM, INTERFACE_IMPL, METHOD_DEF, NESTED_CLASS, TYPE_DEF, TYPE_SPEC, Assembly, bundle
from counting import Run
from dice import Dice, shortest

LONG = 1  # second
ENOUGH = 2_000_000  # lines, for the Rust
SIDES = "fair", "listing"
NO_CLASS = [0] * 6  # row 1 of TypeDef
FIRST_SPEC = 1 << 2 | 2  # row 1 of TypeSpec, as TypeDefOrRef
NAMED_SPEC = b"\x12" + shortest(FIRST_SPEC)
INT, VOID = b"\x08", b"\x01"


# The inputs: one class, or many that are alike, whose name is the only one there is.

def interfaces(count):
    """All implemented interfaces are one TypeSpec, of 30 bytes."""
    return with_class({INTERFACE_IMPL: [[2, FIRST_SPEC]] * count}, instance(26), b"")


def methods(params):
    """All 2,500 methods share a signature."""
    return with_methods(2500, params, INT)


def methods_with_spec(params):
    """All 50 methods share a signature, and the type of each parameter is a TypeSpec, of 10 bytes."""
    return with_methods(50, params, NAMED_SPEC)


def with_methods(count, params, of_type):
    signature = b"\x00" + shortest(params) + VOID + of_type * params
    return with_class({METHOD_DEF: [[0, 0, 0, 1, 1, 0]] * count}, instance(6), signature)


def instance(arguments):
    """The class with that many generic arguments."""
    return b"\x15\x12" + shortest(2 << 2) + shortest(arguments) + INT * arguments


def laid_out(classes):
    """A ClassLayout row for each class, in their order, as the standard has them."""
    return with_layouts(range(classes))


def laid_out_shuffled(classes):
    return with_layouts(Dice(1, 0).shuffled(range(classes)))


def beside_others(rows):
    """For every second class, and a row in each other side table: so the listing wants more words to work in than for any of the above."""
    others = {INTERFACE_IMPL: [[2, FIRST_SPEC]], NESTED_CLASS: [[3, 2]], GENERIC_PARAM: [[0, 0, 2 << 1, 1]]}
    return with_layouts(Dice(1, 0).shuffled(range(0, 2 * rows, 2)), 2 * rows, others)


def with_layouts(parents, classes=None, others=None):
    rows = [[4, 16, c + layouts.CLASS_ROW] for c in parents]
    return with_class({CLASS_LAYOUT: rows, **(others or {})}, INT, b"", classes or len(rows))


def with_class(rows, spec, signature, classes=1):
    """The signature stands at 1 of the blob heap, the TypeSpec behind it."""
    blob = b"\0" + shortest(len(signature)) + signature
    rows = {TYPE_DEF: [NO_CLASS] + [[0, 1, 0, 0, 1, 1]] * classes, TYPE_SPEC: [[len(blob)]], **rows}
    made = Assembly(Dice(0, 0), {kind: len(of_kind) for kind, of_kind in rows.items()}, heap_bits=0)
    made.add_name(b"Class")
    made.rows = rows
    tables = made.header() + b"".join(made.row_bytes(kind) for kind in sorted(rows))
    return bundle(tables, bytes(made.strings), blob + shortest(len(spec)) + spec)


CASES = [  # by a number, and its double; at the full size it is
    ("{:,} interfaces", interfaces, 10000),
    ("2,500 methods of {:,} parameters", methods, 2000),
    ("50 methods of {:,} TypeSpecs", methods_with_spec, 2000),
    ("{:,} ClassLayout rows, in order *", laid_out, 2960),
    ("{:,} ClassLayout rows, shuffled *", laid_out_shuffled, 2960),
    ("{:,} ClassLayout rows of {:,} *", beside_others, 1800),
]
SIZES = 4, 2, 1  # parts of the full size, each with half the next one's number


def all_inputs(part):
    """(name, input), by case and size; the largest is that part of the full size."""
    numbered = [(name, make, full // part // size) for name, make, full in CASES for size in SIZES]
    return [(name.format(n, 2 * n), make(n)) for name, make, n in numbered]


# What they take, in seconds.

def seconds(command, given, to):
    """User and system time of a process. Nothing else is to be started meanwhile."""
    before = resource.getrusage(resource.RUSAGE_CHILDREN)
    with open(given, "rb") as source, open(to, "wb") as out:
        if subprocess.run(command, stdin=source, stdout=out, check=False).returncode:
            fail("%s cannot list %s" % (command[0], given))
    after = resource.getrusage(resource.RUSAGE_CHILDREN)
    return after.ru_utime - before.ru_utime, after.ru_stime - before.ru_stime


def listing_seconds(program, given, to):
    return sum(seconds([program], given, to))


def rust_seconds(bench, lines, given, to):
    times = max(1, ENOUGH // lines)
    return seconds([bench, str(times), given, to], given, os.devnull)[0] / times


def least(measure, *arguments):
    first = measure(*arguments)
    return first if first > LONG else min(first, measure(*arguments), measure(*arguments))


def contents(path):
    with open(path, "rb") as file:
        return file.read()


class Grown:
    """An input's lines, and the seconds of the listing program and of the Rust; `differs` says if the listings do. `count_all` adds the
    instructions of both: None where to count them took too long."""

    def __init__(self, bench, program, folder, name, case):
        self.name, self.size, self.folder = name, len(case), os.path.join(folder, re.sub(r"[ ,*]+", "_", name))
        os.makedirs(self.folder)
        given, listing, rust_listing = map(self.path, ("input", "listing", "rust"))
        with open(given, "wb") as file:
            file.write(case)
        self.seconds = {"listing": least(listing_seconds, program, given, listing)}
        text = contents(listing)
        self.lines = text.count(b"\n")
        self.seconds["fair"] = least(rust_seconds, bench, self.lines, given, rust_listing)
        self.differs = layouts.dropped(text) != contents(rust_listing)
        self.instructions = {}
        for path in (listing, rust_listing):  # some have 85 MB
            os.remove(path)

    def path(self, name):
        return os.path.join(self.folder, name)


# In instructions.

def count(bench, program, limit, side, each):
    given, counts = map(each.path, ("input", "callgrind." + side))
    if side == "listing":
        run = Run(counts, "main", ["main"], [program], contents(given), limit)
    else:
        run = Run(counts, "measure_fair", ["measure_fair"], [bench, "1", given, os.devnull], b"", limit)
    each.instructions[side] = None if run.over else run.cost(0)


def count_all(bench, program, limit, all_grown):
    """The instructions of all, each by at most so many seconds; those of most lines first, so that none is alone at the end."""
    work = [(side, each) for each in sorted(all_grown, key=lambda each: -each.lines) for side in SIDES]
    with concurrent.futures.ThreadPoolExecutor(os.cpu_count()) as pool:
        list(pool.map(lambda pair: count(bench, program, limit, *pair), work))


# What is printed.

def by_case(all_grown):
    """(each, the one of the same case with half its number, or None)."""
    return [(each, all_grown[turn - 1] if turn % len(SIZES) else None) for turn, each in enumerate(all_grown)]


def print_counts(all_grown, limit):
    print("One thing over and over, in instructions, and the exponents with which they grow as its number doubles. With a star: the Rust")
    print("does not read ClassLayout, so that ratio is not a fair one:\n")
    columns = "%-34s %6s %9s %11s %8s %14s %8s %8s"
    print(columns % ("input", "bytes", "lines", "the Rust", "exponent", "listing", "exponent", "ratio"))
    for each, half in by_case(all_grown):
        counted = [word for side in SIDES for word in (each.instructions[side] or "over %d s" % limit, exponent(each, half, side))]
        print(columns % (each.name, each.size, each.lines, *counted, ratio(each)))
    print()


def exponent(each, half, side):
    costs = [one and one.instructions[side] for one in (each, half)]
    return "%.2f" % math.log2(costs[0] / costs[1]) if all(costs) else "-"


def ratio(each):
    rust, ours = (each.instructions[side] for side in SIDES)
    return "%.2f" % (ours / rust) if rust and ours else "-"


def print_times(all_grown):
    print("The same in seconds, and by what they grow:\n")
    columns = "%-34s %6s %9s %9s %6s %9s %6s %8s"
    print(columns % ("input", "bytes", "lines", "the Rust", "grows", "listing", "grows", "ratio"))
    for each, half in by_case(all_grown):
        timed = [word for side in SIDES for word in ("%.4f" % each.seconds[side], grows(each, half, side))]
        print(columns % (each.name, each.size, each.lines, *timed, "%.2f" % (each.seconds["listing"] / each.seconds["fair"])))


def grows(each, half, side):
    return "%.2f" % (each.seconds[side] / half.seconds[side]) if half else ""

"""What the program call_vectors reads: blocks of three streams and the answers of the public calls, made of the oracle's record, of the
steps that it counts, and of the model of ClassLayout (layouts.py), which the Rust does not read."""

import math
import os
import sys

import layouts
from asking import SECONDS, Oracle, streams
from assembly import GENERIC_PARAM, METHOD_DEF, TYPE_DEF, bundle
from changes import MOST_BYTES

# A longer name is left out: the program's buffer has two bytes more.
LONGEST = 16382
# Of a longer list than twice that, only so many from either end are asked for.
ENDS = 24
NO_ROW, NAMELESS, OVER = "!4", "!5", "!11"
TAKER = 2  # the bit of the options by which the class that has a method is the only one to read its signature
# The calls that count steps, and what they are allowed where nothing else is said: as much as a listing allows for a name.
COUNTING = ("base_count", "base_name", "return_type", "param_count", "param_type", "param_name")
ALLOWED = 1000000
MARK = "!"  # in a record or in steps: above the ceiling
NULL_INDEX, PAST_END, NO_ZERO = ".1", ".2", ".3"  # why a string is missing
ONE_NAME = b"\0X\0"  # a strings heap
MOST_TOLD = MOST_BYTES - len(ONE_NAME)  # bytes of an input of which the Rust can be asked why names are missing
NAME_PLACES = {TYPE_DEF: 4, METHOD_DEF: 8, GENERIC_PARAM: 6}  # in a row, of the Name column
LAST = 0xFFFFFFFF


class Records:
    """The Rust's records, or its answers with other options. Where it panics, a class names a first method past the end. Document 01 has
    us stop at the last method then: no class takes other methods if that column is lowered to just after the last one, so the record of
    the lowered streams is taken, in which the Rust does not panic."""

    def __init__(self, options=("--record",), ceiling=ALLOWED):
        self.ceiling = "--ceiling", str(ceiling)
        self.oracle, self.walker, self.counter = Oracle([*options, *self.ceiling]), Oracle(["--extents"]), None
        self.panics = 0

    def ask(self, case, seconds=SECONDS):
        """The record of an input, or None where the Rust gives none in time."""
        record = self.oracle.ask(case, seconds)
        if record == b"panic\n":
            self.panics += 1
            record = self.oracle.ask(self.lowered(case), seconds)
        return told(case, record)

    def steps(self, case, seconds=SECONDS):
        """The steps of its classes and methods in the same way."""
        self.counter = self.counter or Oracle(["--steps", *self.ceiling])
        steps = self.counter.ask(case, seconds)
        return told(case, self.counter.ask(self.lowered(case), seconds) if steps == b"panic\n" else steps)

    def lowered(self, case):
        tables, *heaps = streams(case)
        return bundle(lowered(tables, self.walker.ask(case)), *heaps)

    def end(self):
        for running in filter(None, (self.oracle, self.walker, self.counter)):
            running.end()


def told(case, answer):
    if answer in (b"panic\n", b"inconsistent\n"):
        sys.exit("no record of the input %s: %s" % (case.hex(), answer.decode()))
    return answer


def lowered(tables, extents):
    """The tables with each first method of a class, the last column, at most just after the last method."""
    rows = [list(map(int, line.split())) for line in extents.decode().splitlines()[:64]]
    _, start, size, count = rows[TYPE_DEF]
    methods = rows[METHOD_DEF][3]
    tables = bytearray(tables)
    for end in range(start + size, start + size * (count + 1), size):
        column = int.from_bytes(tables[end - 2:end], "little")
        tables[end - 2:end] = min(column, methods + 1).to_bytes(2, "little")
    return bytes(tables)


def with_names(tables, extents):
    """The tables with 1 for each Name column of a class, method or generic parameter that is 0."""
    size_of_index = 4 if tables[6] & 1 else 2
    tables = bytearray(tables)
    for kind, place in NAME_PLACES.items():
        _, start, size, rows = map(int, extents.decode().splitlines()[kind].split())
        for at in range(start + place, start + place + size * rows, size or 1):
            if not any(tables[at:at + size_of_index]):
                tables[at] = 1
    return bytes(tables)


def of_one_class(tables, extents, only):
    """The tables with 0 for the first method of each class but one, which leaves the others without methods."""
    _, start, size, rows = map(int, extents.decode().splitlines()[TYPE_DEF].split())
    tables = bytearray(tables)
    for c in range(rows - 1):
        end = start + size * (c + 2)  # row 1 is no class
        if c != only:
            tables[end - 2:end] = bytes(2)
    return bytes(tables)


def with_takers(records, case, classes):
    """The classes with each signature as the class reads it that has the method (2026-09), and with its steps. The Rust has no such mode.
    But where no other class has a first method, it has no other to read a signature, and the class still begins at its own: so it is asked
    about such streams, once for each class."""
    tables, *heaps = streams(case)
    extents = records.walker.ask(case)
    for c, found in enumerate(classes):
        alone = bundle(of_one_class(tables, extents, c), *heaps)
        _, read = read_record(records.ask(alone))
        methods = with_steps(read, records.steps(alone))[c]["methods"]
        for method, own in zip(found["methods"], methods):
            method.update((key, own[key]) for key in ("returns", "types", "names", "steps"))
    return classes


def told_reasons(records, case, classes):
    """The classes, with the reason behind each missing name of a class, a method or a generic parameter. The Rust tells none, so it is
    asked three times more. A string that no zero byte closes is there once the heap's last byte is zero. One whose index is 0 is missing
    in a heap where index 1 has a string, and there once each such index is 1. What else is missing lies past the end."""
    if NAMELESS not in names_of(classes):
        return classes
    tables, strings, blob = streams(case)
    filled = with_names(tables, records.walker.ask(case))
    others = [(tables, strings[:-1] + bytes(len(strings[-1:])), blob), (tables, ONE_NAME, blob), (filled, ONE_NAME, blob)]
    closed, plain, patched = (names_of(read_record(records.ask(bundle(*three)))[1]) for three in others)

    def tell(name):
        closes, is_there, gets_there = (next(names) != NAMELESS for names in (closed, plain, patched))
        reason = NO_ZERO if closes else NULL_INDEX if gets_there and not is_there else PAST_END
        return name + reason if name == NAMELESS else name

    return [with_each_name(one, tell) for one in classes]


def names_of(classes):
    """The names of classes, methods and generic parameters, in the order of with_each_name."""
    found = []
    for one in classes:
        with_each_name(one, lambda name: found.append(name) or name)
    return iter(found)


def with_each_name(one, tell):
    """A class with its names told anew."""
    methods = [{**m, "name": tell(m["name"]), "generics": [tell(name) for name in m["generics"]]} for m in one["methods"]]
    return {**one, "name": tell(one["name"]), "generics": [tell(name) for name in one["generics"]], "methods": methods}


def name_of(present, digits):
    return digits.upper() if present else NAMELESS


def read_record(answer):
    """The refusal and the classes: each its name, flags, the names of its generic parameters and base types, and its methods: name,
    flags, generic parameters, return type and the type and name of each parameter. What takes too many steps has no base types, or no
    return type and no parameters."""
    refusal, classes, method = None, [], None
    for line in answer.decode().splitlines():
        key, present, value = line.partition("=")
        name = name_of(present, value)
        if key == "refused":
            refusal = int(value)
        elif key == "class":
            classes.append({"name": name, "generics": [], "bases": [], "methods": []})
        elif key == "flags":
            classes[-1]["flags"] = value
        elif key == "generic":
            classes[-1]["generics"].append(name)
        elif key == "base" and value != MARK:
            classes[-1]["bases"].append(name)
        elif key == "method":
            method = {"name": name, "generics": [], "types": [], "names": []}
            classes[-1]["methods"].append(method)
        elif key == "mflags":
            method["flags"] = value
        elif key == "mgeneric":
            method["generics"].append(name)
        elif key == "returns":
            method["returns"] = NAMELESS if value == MARK else name
        elif key == "ptype":
            method["types"].append(name)
        elif key == "pname":
            method["names"].append(name)
    return refusal, classes


def with_steps(classes, answer):
    """The classes and their methods with the steps that they take, by the oracle's lines of them: infinitely many above its ceiling."""
    counts = iter(line.rpartition("steps=")[2] for line in answer.decode().splitlines())
    for found in classes:
        for owner in (found, *found["methods"]):
            count = next(counts)
            owner["steps"] = math.inf if count == MARK else int(count)
    return classes


def with_layouts(classes, tables):
    """The classes with their packing and size, which are refused where no row names a class."""
    for found, layout in zip(classes, layouts.of_classes(tables)):
        found["packing"], found["size"] = layout or (NO_ROW, NO_ROW)
    return classes


def charged(answer, steps, allowance):
    """The answer of a call that counts so many steps, and what is left of an allowance. Where a class or a method is not there, or nothing
    is read, nothing is counted, None."""
    if steps is None:
        return answer, allowance
    if steps > allowance:
        return OVER, 0
    return answer, allowance if answer == NO_ROW else allowance - steps


def line(call, numbers, answer, steps=None, allowance=None):
    """With an allowance, and what is left of it, behind a slash. A call that counts nothing takes one by its question alone."""
    within = []
    if call in COUNTING or allowance is not None:
        allowance = ALLOWED if allowance is None else allowance
        answer, left = charged(answer, steps, allowance)
        within = ["/%d" % allowance, left]
    return " ".join(map(str, [call, *numbers, *within, "=", answer])).rstrip()


# What is asked: a call, its numbers, its answer if the allowance suffices, and the steps that it counts.

def of_missing_method(c, m, refusal=NO_ROW):
    yield "method_flags", (c, m), refusal, None
    yield "method_name", (c, m), refusal, None
    yield "method_generic_count", (c, m), refusal, None
    yield "method_generic_name", (c, m, 0), refusal, None
    yield "return_type", (c, m), refusal, None
    yield "param_count", (c, m), refusal, None
    yield "param_type", (c, m, 0), refusal, None
    yield "param_name", (c, m, 0), refusal, None


def of_missing_class(c, refusal=NO_ROW):
    yield "class_flags", (c,), refusal, None
    yield from of_layout(c, refusal, refusal)
    yield "class_name", (c,), refusal, None
    yield "generic_count", (c,), refusal, None
    yield "generic_name", (c, 0), refusal, None
    yield "base_count", (c,), refusal, None
    yield "base_name", (c, 0), refusal, None
    yield "method_count", (c,), refusal, None
    yield from of_missing_method(c, 0, refusal)


def of_layout(c, packing, size):
    yield "class_packing", (c,), packing, None
    yield "class_size", (c,), size, None


def of_list(call, numbers, names, steps=None):
    """The answers of a call for a name by its place; of a long list those near both ends. Then that for the place just past the end."""
    for i, name in enumerate(names):
        if i < ENDS or len(names) - i <= ENDS:
            yield call, (*numbers, i), name, steps
    yield call, (*numbers, len(names)), NO_ROW, steps


def of_counted(kind, numbers, names, steps=None):
    yield kind + "_count", numbers, len(names), steps
    yield from of_list(kind + "_name", numbers, names, steps)


def of_method(c, m, found):
    yield "method_flags", (c, m), found["flags"], None
    yield "method_name", (c, m), found["name"], None
    yield from of_counted("method_generic", (c, m), found["generics"])
    yield "return_type", (c, m), found["returns"], found["steps"]
    yield from of_counted("param", (c, m), found["names"], found["steps"])
    yield from of_list("param_type", (c, m), found["types"], found["steps"])


def of_class(c, found, thorough):
    yield "class_flags", (c,), found["flags"], None
    if "packing" in found:
        yield from of_layout(c, found["packing"], found["size"])
    yield "class_name", (c,), found["name"], None
    yield from of_counted("generic", (c,), found["generics"])
    yield from of_counted("base", (c,), found["bases"], found["steps"])
    yield "method_count", (c,), len(found["methods"]), None
    for m, method in enumerate(found["methods"]):
        yield from of_method(c, m, method)
    past = len(found["methods"])
    yield from of_missing_method(c, past) if thorough else [("method_name", (c, past), NO_ROW, None)]


def asked(records, case, record, thorough, options=0):
    """Each answer of the record but those in the middle of a long list, and some that are refused: just past each end, and, if it is to be
    thorough, by every call there and at the largest numbers. Packing and size are asked for where there are rows of them, or thoroughly."""
    refusal, classes = read_record(record)
    if refusal:
        yield "class_count", (), "!%d" % refusal, None
        yield from of_missing_class(0, "!%d" % refusal)
        return
    classes = with_steps(told_reasons(records, case, classes), records.steps(case))
    if options & TAKER:
        classes = with_takers(records, case, classes)
    tables = streams(case)[0]
    if thorough or layouts.rows(tables):
        classes = with_layouts(classes, tables)
    yield "class_count", (), len(classes), None
    for c, found in enumerate(classes):
        yield from of_class(c, found, thorough)
    for c in (len(classes), LAST - 1, LAST) if thorough else (len(classes),):
        yield from of_missing_class(c)
    if classes and thorough:
        yield "generic_name", (0, LAST), NO_ROW, None
        yield "base_name", (0, LAST), NO_ROW, classes[0]["steps"]
        yield from of_missing_method(0, LAST)
        for m, method in enumerate(classes[0]["methods"][:1]):
            yield "method_generic_name", (0, m, LAST), NO_ROW, None
            yield "param_type", (0, m, LAST), NO_ROW, method["steps"]
            yield "param_name", (0, m, LAST), NO_ROW, method["steps"]


def answers(records, case, record, thorough):
    """The lines of all that is asked, but those that are too long."""
    return filter(is_short, (line(*one) for one in asked(records, case, record, thorough)))


def is_short(line):
    return len(line.partition("= ")[2]) <= 2 * LONGEST


def block(name, streams, lines, options=0):
    hexes = [stream.hex().upper() or "-" for stream in streams]
    said = ["options %d" % options] if options else []
    return "\n".join(["@ " + name, *map(" ".join, zip(("tables", "strings", "blob"), hexes)), *said, *lines]) + "\n"


def verdict(name, agreed):
    """What the program writes of a block all of whose answers agree."""
    return "ok    %s: %d agreed, 0 differed\n" % (name, agreed)


def verdicts_of_wrong(crate):
    """What the program of a crate writes of its file `wrong`, which is made by hand: that all its answers differ."""
    with open(os.path.join(crate, "data", "wrong"), newline="\n") as file:
        blocks = file.read().split("@ ")[1:]
    for name, _, _, _, *lines in (block.splitlines() for block in blocks):
        wrong = [line for line in lines if not line.startswith(("#", "options "))]
        yield from ("FAIL  %s\n" % line for line in wrong)
        yield "FAIL  %s: 0 agreed, %d differed\n" % (name, len(wrong))

"""Answers of the public calls with allowances around what they count (2026-06), for `record_calls`: of the streams of steps.py, of some rows
of ClassLayout, and of some that are refused."""

import math

import steps
from asking import streams
from assembly import bundle
from call_cases import layout_cases
from call_lines import COUNTING, NO_ROW, asked, line
from known import LIMITS

REFUSED = "1: 23 bytes", "2: counts cut", "3: 15,001 rows"
LAID_OUT = "layouts, two rows of a class", "layouts, the largest values"
PAST = 9999  # a place that is not there
MORE = 3
UNCOUNTED = 0, 7  # allowances of which nothing is taken
MOST = 18 * 10**18  # nearly 2^64: the largest numbers are not read by the programs
LARGE = 100000  # steps from which on few names are asked for, and only refused ones: the programs try many buffers
LITTLE = 1000  # of an allowance, beside endless work


def allowances(count):
    """That suffice, and that do not. What is endless is over each of them."""
    if count is None:
        return UNCOUNTED
    if count == math.inf:
        return 0, LITTLE, steps.CEILING
    some = [count, count - 1, steps.CEILING] if count > LARGE else [count, count - 1, count + MORE, MOST]
    return sorted({allowance for allowance in some if allowance >= 0})


def is_slow(call, numbers, count, allowance):
    """Whether a line takes long to replay, and another of the same block says as much."""
    if count is None or min(count, allowance) <= LARGE or call.endswith("_count"):
        return False
    return count <= allowance or allowance != steps.CEILING or not (call == "return_type" or call == "base_name" and numbers[-1] == PAST)


def lines_of(records, case, is_meant, thorough, options=0):
    """The lines of an input, for calls that are meant."""
    for call, numbers, answer, count in asked(records, case, records.ask(case), thorough, options):
        if not is_meant(call, count):
            continue
        is_past = answer == NO_ROW and count is not None
        for given in (numbers, (*numbers[:-1], PAST)) if is_past else (numbers,):
            yield from (line(call, given, answer, count, allowance) for allowance in allowances(count)
                        if not is_slow(call, given, count, allowance))


def of_what_is_there(call, count):
    return count is not None


def that_counts(call, count):
    return call in COUNTING


def any_call(call, count):
    """Those that count nothing are asked by their questions."""
    return True


def of_layouts(call, count):
    return call in ("class_packing", "class_size")


def large():
    """Those of the crafted cases that are over the ceiling, each by few steps or endlessly."""
    for case, counts, _ in steps.crafted():
        numbers = [count.rpartition("steps=")[2] for count in counts]
        if any(number == "!" or int(number) > steps.CEILING for number in numbers):
            yield case


def blocks(records):
    """(name, streams, lines), by records under the raised ceiling."""
    known = [(case, of_what_is_there) for case, *_ in steps.table()]
    known += [(case, any_call) for case, _ in steps.sums()] + [(case, that_counts) for case in large()]
    known += [(case, of_layouts) for case in layout_cases() if case.name in LAID_OUT]
    for case, is_meant in known:
        three = case.streams()
        yield case.name, three, list(lines_of(records, bundle(*three), is_meant, is_meant is any_call))
    for name in REFUSED:
        given, _ = LIMITS[name]
        yield "steps, refused " + name.replace(":", ","), streams(given), list(lines_of(records, given, any_call, True))

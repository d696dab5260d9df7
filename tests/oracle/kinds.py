"""Inputs by chance, of the kinds that runs at scale are made of, for `tests/differential` and `tests/steps`. A kind gives one; `turn` counts
those of the kind. `find_real` comes first."""

import assemblies
import changes
import inputs
from asking import streams
from assembly import (CLASS_LAYOUT, GENERIC_PARAM, INTERFACE_IMPL, METHOD_DEF, NESTED_CLASS, PARAM, TYPE_DEF, TYPE_REF, TYPE_SPEC,
                      Assembly, bundle)
from call_cases import Case, of_def, of_spec, plain, signature
from dice import shortest

SMALL = 10000  # bytes of a real input that is mutated


class Real:
    """The real inputs that others are made of."""
    small = all_streams = None


def find_real():
    """Reads the assemblies of tests/csharp, which are compiled, and those that came with the compiler."""
    compiled = [case for _, case in assemblies.compiled()]
    Real.small = [case for case in compiled if len(case) <= SMALL]
    Real.all_streams = [streams(case) for case in compiled] + [three for _, three in assemblies.installed()]


def generated(seed, dice, turn):
    return inputs.make(seed, turn)


def damaged(seed, dice, turn):
    return changes.damaged(dice, inputs.make(seed + 1000003, turn))


def renamed(seed, dice, turn):
    return changes.renamed(dice, inputs.make(seed + 2000003, turn))


def mutated(seed, dice, turn):
    return changes.damaged(dice, dice.pick(Real.small))


def parts(seed, dice, turn):
    return assemblies.part_of(dice, dice.pick(Real.all_streams))


def laid_out(seed, dice, turn):
    return inputs.make_layouts(seed, turn)


def side_tables(dice):
    """An input with many rows in the side tables, which the walk reads whole; at times a real one."""
    return dice.pick(Real.small) if dice.one_in(4) else made_side_tables(dice)


def made_side_tables(dice):
    counts = {TYPE_REF: dice.below(4), TYPE_DEF: dice.between(3, 8), METHOD_DEF: dice.below(8), PARAM: dice.below(4),
              INTERFACE_IMPL: dice.below(14), CLASS_LAYOUT: dice.below(14), TYPE_SPEC: dice.below(5), NESTED_CLASS: dice.below(14),
              GENERIC_PARAM: dice.between(4, 24)}
    return bundle(*Assembly(dice, counts).fill().streams())


def beside_cut_layouts(dice):
    """An input in which ClassLayout is cut, so that it stays as it is, and NestedClass and GenericParam, behind it, have no rows: those of
    InterfaceImpl, before it, may move."""
    counts = {TYPE_REF: dice.below(4), TYPE_DEF: dice.between(3, 8), INTERFACE_IMPL: dice.between(2, 14), CLASS_LAYOUT: dice.between(1, 14)}
    made = Assembly(dice, counts).fill()
    tables, strings, blob = made.streams()
    return bundle(tables[:len(tables) - dice.between(1, len(made.row_bytes(CLASS_LAYOUT)))], strings, blob)


def some_type(dice, specs, deep=0):
    """A type that may name any of so many TypeSpecs, several times; some have no name, and some are cut."""
    choice = dice.below(12 if deep < 4 else 6)
    inner = lambda: some_type(dice, specs, deep + 1)
    if choice < 2:
        return dice.pick([b"\x01", b"\x08", b"\x0e", b"\x1c", b"\x13\x00", b"\x13\x01", b"\x1e\x00"])
    if choice < 5:
        return b"\x12" + shortest(of_spec(dice.between(1, specs + 1 - dice.below(2))))
    if choice == 5:
        return dice.pick([b"\x17", b"", b"\x12", b"\x12\x08", b"\x12\x07"])
    if choice == 6:
        return dice.pick([b"\x1d", b"\x0f", b"\x10", b"\x1f\x05", b"\x20\x05", b"\x1d\x1d\x1d"]) + inner()
    if choice == 7:
        return b"\x14" + inner() + dice.pick([b"\x02\x00\x00", b"\x01\x01\x05\x00", b"\x02\x00", b""])
    some = [inner()] * dice.between(2, 12) if dice.one_in(2) else [inner() for _ in range(dice.pick([0, 1, 1, 2, 2, 3, 5]))]
    if choice < 10:
        return b"\x1b" + signature(inner(), *some)
    return b"\x15" + inner() + shortest(len(some) + dice.one_in(6)) + b"".join(some)


def tangled(seed, dice, turn):
    """TypeSpecs that name each other in any way, in base types and in signatures that several classes read: few bytes, and from no step to
    more than any ceiling."""
    specs, methods, classes = dice.between(1, 5), dice.between(1, 5), dice.between(1, 4)
    types = [plain(b"C%d" % i, first=dice.below(methods + 2), extends=dice.pick([0, of_def(2), of_spec(dice.between(1, specs))]))
             for i in range(classes)]

    def content():
        return signature(some_type(dice, specs), *(some_type(dice, specs) for _ in range(dice.below(4))), flags=dice.pick([0, 0, 0x20]))

    case = Case("", types, [(i, b"m%d" % i, content() if dice.below(8) else 9999, 1) for i in range(methods)], params=[b"a", b"b"],
                generics=[(2 * dice.between(2, 1 + classes), b"T%d" % i) for i in range(dice.below(4))],
                specs=[some_type(dice, specs) for _ in range(specs)],
                interfaces=[(dice.between(2, 1 + classes), of_spec(dice.between(1, specs))) for _ in range(dice.below(5))])
    return bundle(*case.streams())


def chosen(kinds, seed, dice, number):
    """The input of a number, of kinds that take turns."""
    turn, place = divmod(number, len(kinds))
    kind = kinds[place]
    return kind(seed, dice, turn * kinds.count(kind) + kinds[:place].count(kind))

"""The inputs that `generate` writes, and those with many rows of ClassLayout. Input number i of a seed depends on the two alone; README.md
says which sorts there are."""

from assembly import (CLASS_LAYOUT, COLUMNS, CUSTOM_ATTRIBUTE, FIELD, GENERIC_PARAM, INTERFACE_IMPL, MEMBER_REF, METHOD_DEF, MODULE,
                      NESTED_CLASS, PARAM, TYPE_DEF, TYPE_REF, TYPE_SPEC, WIDENED, Assembly, bundle)
from dice import Dice

MOST_BYTES = 65536
KNOWN_KINDS = range(0x2D)
OF_THE_RECORD = (TYPE_DEF, METHOD_DEF, PARAM, INTERFACE_IMPL, TYPE_SPEC, NESTED_CLASS, GENERIC_PARAM)


# The sorts of input. Each function gives one input; `turn` counts the inputs of its sort.

def small_counts(dice):
    counts = {MODULE: 1, TYPE_REF: dice.below(6), TYPE_DEF: 1 + dice.below(6), FIELD: dice.below(4),
              METHOD_DEF: dice.below(10), PARAM: dice.below(10), INTERFACE_IMPL: dice.below(6),
              MEMBER_REF: dice.below(3), TYPE_SPEC: dice.below(6), NESTED_CLASS: dice.below(5),
              GENERIC_PARAM: dice.below(10)}
    if dice.one_in(12):
        counts = {kind: 3 * n for kind, n in counts.items()}
    for _ in range(dice.below(4)):
        counts[dice.below(0x2D)] = 1 + dice.below(3)
    return counts


def small_streams(dice):
    return Assembly(dice, small_counts(dice)).fill().streams()


def assembly(dice, turn):
    return bundle(*small_streams(dice))


def signatures(dice, turn):
    """Many methods of one class, many of their signatures on a limit."""
    counts = {TYPE_REF: 2, TYPE_DEF: 2, METHOD_DEF: 6, PARAM: dice.below(3), TYPE_SPEC: 3, GENERIC_PARAM: 4}
    made = Assembly(dice, counts)
    made.first_methods = [1, 1]
    made.some_sig = lambda: made.odd_sig() if dice.one_in(2) else made.method_sig()[:4096]
    return bundle(*made.fill().streams())


def ranges(dice, turn):
    """Classes that name their first methods out of order, with generic names that tell who rendered what: in
    methods, and in base types that are a class's own generic parameter."""
    classes, methods = dice.between(2, 6), dice.between(1, 7)
    made = Assembly(dice, {TYPE_DEF: 1 + classes, METHOD_DEF: methods, GENERIC_PARAM: 2 * classes + 2,
                           TYPE_SPEC: 3, INTERFACE_IMPL: dice.below(6)})
    columns = [dice.between(0, methods + 1) for _ in range(classes)]
    past = dice.below(classes) if dice.one_in(3) else 0
    made.first_methods = [1] + [methods + 2] * past + columns[past:]
    made.some_sig = lambda: b"\x00\x02\x13\x00\x13" + dice.pick([b"\x01", b"\x02"]) + b"\x1e\x00"
    made.spec_sig = lambda row: [b"\x13\x00", b"\x1d\x13\x01", b"\x15\x08\x02\x13\x00\x13\x01"][row - 1]
    made.token = lambda: dice.between(1, 3) << 2 | 2
    owners = [2 + i // 2 << 1 for i in range(2 * classes)] + [1 + dice.below(methods) << 1 | 1 for _ in range(2)]
    made.rows[GENERIC_PARAM] = [[i % 2, 0, owner, made.add_name(b"g%d" % i)]
                                for i, owner in enumerate(dice.shuffled(owners))]
    return bundle(*made.fill().streams())


def nesting(dice, turn):
    """Many rows of NestedClass over few classes: chains, cycles, classes in themselves."""
    made = Assembly(dice, {TYPE_DEF: dice.between(2, 6), NESTED_CLASS: dice.between(1, 12), TYPE_SPEC: 1,
                           INTERFACE_IMPL: dice.below(4)})
    return bundle(*made.fill().streams())


def long_names(dice, turn):
    """Names about as long as a listing prints."""
    made = Assembly(dice, {TYPE_DEF: 3, METHOD_DEF: 1, NESTED_CLASS: dice.below(2), GENERIC_PARAM: 1, PARAM: 1})
    made.first_methods = [1, 1, 1]
    index = made.add_name(b"n" * dice.pick([2047, 2048, 4093, 4094, 4095, 4096, 4097]))
    made.name = lambda: index if dice.one_in(2) else Assembly.name(made)
    return bundle(*made.fill().streams())


def kinds(dice, turn):
    """Any known tables, at times an unknown one; exact, one byte short, or with bytes to spare."""
    counts = {kind: 1 + dice.below(3) for kind in KNOWN_KINDS if dice.one_in(2)}
    if dice.one_in(4):
        counts[dice.between(0x2D, 0x3F)] = 1 + dice.below(3)
    tables, strings, blob = Assembly(dice, counts).fill().streams()
    return bundle(dice.pick([tables, tables[:-1], tables + dice.data(3)]), strings, blob)


def one_kind(dice, turn):
    """Each kind in turn, alone or beside another: exact in one round, one byte short in the next."""
    kind, short = turn % 64, turn // 64 % 2
    counts = {kind: dice.between(1, 4)}
    if dice.one_in(3):
        counts.setdefault(dice.below(0x2D), 1)
    tables, strings, blob = Assembly(dice, counts, heap_bits=turn // 128 % 8).fill().streams()
    return bundle(tables[:-1] if short else tables, strings, blob)


def wide(dice, turn):
    """Row counts that widen an index of MemberRef or CustomAttribute, or just do not. In five turns of six it is
    tables later than those two, of which the stream then holds nothing: counts alone decide."""
    claims = claimed_table(turn // 6) if turn % 6 == 5 else claimed_tables(turn - turn // 6)
    counts = {TYPE_REF: 1, TYPE_DEF: 2, MEMBER_REF: 2, CUSTOM_ATTRIBUTE: 3}
    counts.update(claims)
    made = Assembly(dice, counts, heap_bits=dice.pick([0, 2]))
    for kind, n in claims.items():
        made.rows[kind] = [[0] * len(COLUMNS[kind].split())] * n if kind < CUSTOM_ATTRIBUTE else []
    return bundle(*made.fill().streams())


def claimed_tables(turn):
    """Every later table, as large as it can be without widening the index, and at most one of them larger by a
    row."""
    variants = [(name, kind) for name in ("HasCustomAttribute", "MemberRefParent")
                for kind in [None] + WIDENED[name][1] if kind is None or kind > CUSTOM_ATTRIBUTE]
    name, larger = variants[turn % len(variants)]
    rows, tables = WIDENED[name]
    return {kind: rows - (kind != larger) if kind in tables else 15000
            for kind in KNOWN_KINDS if kind > CUSTOM_ATTRIBUTE}


def claimed_table(turn):
    """One earlier table, which has to fit."""
    variants = [(kind, 8192) for kind in (0x0A, 1, 9, 8)] + [(kind, 2048) for kind in (0, 1, 2, 4, 6, 8, 9, 0x0A)]
    variants += [(kind, n - 1) for kind, n in variants] + [(kind, 15000) for kind in (3, 5, 7)]
    return dict([variants[turn % len(variants)]])


def cut(dice, turn):
    """An assembly of which some stream ends early."""
    made = Assembly(dice, small_counts(dice)).fill()
    tables, strings, blob = made.streams()
    which = dice.below(6)
    if which < 4:
        kind = dice.pick([kind for kind in sorted(made.rows) if kind in OF_THE_RECORD or dice.one_in(4)])
        rest = sum(len(made.row_bytes(other)) for other in made.rows if other >= kind)
        tables = tables[:len(tables) - rest + dice.below(len(made.row_bytes(kind)))]
    elif which == 4:
        strings = strings[:dice.below(len(strings) + 1)]
    else:
        blob = blob[:dice.below(len(blob) + 1)]
    return bundle(tables, strings, blob)


def damaged(dice, turn):
    """An assembly with a few bytes changed, swapped, added or taken away."""
    streams = [bytearray(stream) for stream in small_streams(dice)]
    for _ in range(dice.between(1, 6)):
        stream = dice.pick([streams[0], streams[0], streams[1], streams[2], streams[2]])
        if stream:
            damage(dice, stream, dice.between(min(24, len(stream) - 1), len(stream) - 1))
    if dice.one_in(8):
        damage(dice, streams[0], dice.below(min(24, len(streams[0]))))
    return bundle(*map(bytes, streams))


def damage(dice, stream, at):
    choice = dice.below(8)
    if choice < 3:
        stream[at] = dice.bits(8)
    elif choice < 5:
        stream[at] ^= 1 << dice.below(8)
    elif choice == 5:
        other = dice.below(len(stream))
        stream[at], stream[other] = stream[other], stream[at]
    elif choice == 6:
        stream.insert(at, dice.bits(8))
    else:
        del stream[at]


def noise(dice, turn):
    """Random bytes, mostly behind a header and counts that pass."""
    tables = dice.data(dice.below(200))
    if dice.below(4):
        counts = {kind: 1 + dice.below(6) for kind in KNOWN_KINDS if dice.one_in(6)}
        counts.update({TYPE_DEF: 1 + dice.below(6)})
        tables = Assembly(dice, counts).header() + dice.data(dice.below(600))
    strings = bytes(byte if dice.below(4) else 0 for byte in dice.data(dice.below(300)))
    blob = bytes(byte & 0x1F if dice.below(4) else byte for byte in dice.data(dice.below(300)))
    return bundle(tables, strings, blob)


def refused(dice, turn):
    """Inputs on the limits of the refusals, on either side."""
    tables, strings, blob = small_streams(dice)
    kind = dice.pick([FIELD, TYPE_DEF, 0x2C, 0x2D, 0x3F])
    return [
        lambda: bundle(tables[:dice.between(0, 23)], strings, blob),
        lambda: bundle(tables[:dice.between(24, 32)], strings, blob),
        lambda: bundle(Assembly(dice, {kind: dice.pick([15000, 15001])}).header() + dice.data(40), strings, blob),
        lambda: bundle(Assembly(dice, {MODULE: 1, kind: 15001, 0x3E: 1}).header()[:dice.between(31, 36)], b"", b""),
        lambda: bundle(Assembly(dice, {}, heap_bits=0x40).header()[:dice.between(24, 28)], b"", b""),
        lambda: bundle(Assembly(dice, {kind: 3}, heap_bits=0x40).header()[:dice.between(28, 32)], b"", b""),
        lambda: malformed(dice, tables, strings, blob),
        lambda: malformed(dice, tables, strings, blob),
    ][turn % 8]()


def malformed(dice, tables, strings, blob):
    good = bundle(tables, strings, blob)
    room = MOST_BYTES - len(b"tables=65506\nstrings=0\nblob=0\n")
    return dice.pick([
        lambda: good[:-1],
        lambda: good + b"\0",
        lambda: good[:dice.below(30)],
        lambda: b"",
        lambda: b" " + good,
        lambda: good.replace(b"tables=", b"tables=0", 1),
        lambda: good.replace(b"tables=", b"tables=+", 1),
        lambda: good.replace(b"tables=", b"tables=-", 1),
        lambda: good.replace(b"strings=", b"string=", 1),
        lambda: good.replace(b"\nstrings=", b"\r\nstrings=", 1),
        lambda: good.replace(b"blob=", b"Blob=", 1),
        lambda: good.replace(b"strings=%d\n" % len(strings), b"strings=\n", 1),
        lambda: b"tables=18446744073709551616\nstrings=0\nblob=0\n",
        lambda: b"tables=18446744073709551615\nstrings=1\nblob=0\n",
        lambda: bundle(tables + bytes(room - len(tables)), b"", b""),
        lambda: bundle(tables + bytes(room - len(tables) + 1), b"", b""),
    ])()


SORTS = [assembly, signatures, assembly, cut, assembly, kinds, assembly, damaged, ranges, one_kind,
         assembly, nesting, wide, cut, signatures, damaged, noise, refused, assembly, one_kind]


def make(seed, number):
    turn, place = divmod(number, len(SORTS))
    sort = SORTS[place]
    if sort is assembly and place == 18 and turn % 4 == 3:
        sort = long_names
    before = SORTS[:place].count(sort)
    return sort(Dice(seed, number), turn * SORTS.count(sort) + before)


# Inputs beside these, so that what was recorded of them stays.

PACKINGS = 0, 1, 2, 8, 128, 255, 256, 32767, 32768, 65535
SIZES = 0, 1, 16, 255, 65535, 65536, (1 << 31) - 1, 1 << 31, (1 << 32) - 1


def some_parent(dice, types):
    """Mostly the row of a class; at times 0, 1, or past the last row."""
    choice = dice.below(8)
    return dice.between(2, types) if choice < 5 else dice.pick([0, 1]) if choice == 5 else dice.pick([types + 1, types + 2, 256, 65535])


def layouts(dice):
    """Few classes and many rows of ClassLayout, in the order of their Parents or not; every third is cut, mostly in that table."""
    types = dice.between(2, 7)
    made = Assembly(dice, {TYPE_DEF: types, METHOD_DEF: dice.below(3), INTERFACE_IMPL: dice.below(4), CLASS_LAYOUT: dice.between(1, 12),
                           NESTED_CLASS: dice.below(3), GENERIC_PARAM: dice.below(4)})
    parents = [some_parent(dice, types) for _ in range(made.count(CLASS_LAYOUT))]
    made.rows[CLASS_LAYOUT] = [[dice.pick(PACKINGS), dice.pick(SIZES), parent]
                               for parent in (sorted(parents) if dice.one_in(2) else parents)]
    tables, strings, blob = made.fill().streams()
    if dice.one_in(3):
        behind = sum(len(made.row_bytes(kind)) for kind in made.rows if kind > CLASS_LAYOUT)
        tables = tables[:len(tables) - behind - dice.between(1, len(made.row_bytes(CLASS_LAYOUT)) + dice.pick([0, 0, 0, 14]))]
    return bundle(tables, strings, blob)


def make_layouts(seed, number):
    return layouts(Dice(seed + 3000017, number))

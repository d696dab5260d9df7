"""Changes to inputs of the listing program, for `record_listings`, tests/differential and others: damage, which may change any answer; moves
of rows that must change none (demand 3), and swaps that must change one."""

import re

from asking import streams
from assembly import CLASS_LAYOUT, GENERIC_PARAM, INTERFACE_IMPL, NESTED_CLASS, TYPE_DEF, bundle

MOST_BYTES = 65536
LONGEST = 4096  # the longest value that a listing prints
HEADER = 24
SIDE_TABLES = (GENERIC_PARAM, INTERFACE_IMPL, NESTED_CLASS)  # those that must be whole, for any row of a side table to move


def is_formed(case):
    head = re.match(rb"tables=(\d+)\nstrings=(\d+)\nblob=(\d+)\n", case)
    return bool(head) and sum(map(int, head.groups())) == len(case) - head.end()


# Damage.

def damaged(dice, case):
    """A copy of an input with something broken."""
    if not is_formed(case) or dice.one_in(24):
        return damaged_lengths(dice, case)
    three = [bytearray(stream) for stream in streams(case)]
    for _ in range(dice.pick([1, 1, 2, 3, 6])):
        dice.pick([change_bytes, change_bytes, change_bytes, change_header, cut, move_bytes, exchange])(dice, three)
    made = bundle(*map(bytes, three))
    return made if len(made) <= MOST_BYTES or dice.one_in(8) else case


def damaged_lengths(dice, case):
    """Another number in one of the three lines, or bytes too few or too many after them."""
    choice = dice.below(4)
    if choice == 0:
        return case[:dice.below(len(case) + 1)]
    if choice == 1:
        return case + dice.data(1 + dice.below(3))
    at = dice.below(min(len(case), 40) or 1)
    if choice == 2:
        return case[:at] + dice.data(1) + case[at + 1:]
    return case[:at] + dice.pick([b"0", b"1", b"9", b"\n", b"=", b" "]) + case[at:]


# Bytes on both sides of those that a listing writes as they stand.
EDGES = bytes([0x01, 0x0A, 0x20, 0x21, 0x22, 0x24, 0x25, 0x26, 0x7E, 0x7F, 0x80, 0xFF])


def renamed(dice, case):
    """A copy of an input with other bytes in its names, which are as long as they were."""
    if not is_formed(case):
        return case
    tables, strings, blob = streams(case)
    often = dice.pick([2, 8, 32])
    names = bytes(dice.pick(EDGES) if byte and dice.one_in(often) else byte for byte in strings)
    return bundle(tables, names, blob)


def some_stream(dice, three):
    return dice.pick([three[0], three[0], three[0], three[1], three[2], three[2]])


def change_bytes(dice, three):
    stream = some_stream(dice, three)
    for _ in range(dice.pick([1, 1, 1, 2, 4]) if stream else 0):
        at = dice.below(len(stream))
        stream[at] = dice.pick([dice.bits(8), stream[at] ^ 1 << dice.below(8), 0, 0xFF, stream[dice.below(len(stream))]])


def change_header(dice, three):
    """The heap sizes, a table more or less, or a row count."""
    tables = three[0]
    if len(tables) < HEADER:
        return
    choice = dice.below(4)
    if choice == 0:
        tables[6] ^= 1 << dice.pick([0, 1, 2, 6])
    elif choice == 1:
        tables[8 + dice.below(6)] ^= 1 << dice.below(8)
    else:
        count = HEADER + 4 * dice.below(bin(int.from_bytes(tables[8:16], "little")).count("1") or 1)
        value = int.from_bytes(tables[count:count + 4], "little") + dice.pick([1, -1, 1, -1, 256, -256, 15001])
        tables[count:count + 4] = max(0, value).to_bytes(4, "little")


def cut(dice, three):
    stream = some_stream(dice, three)
    del stream[dice.below(len(stream) + 1):]


def move_bytes(dice, three):
    """A piece copied over another, added, or taken out."""
    stream = some_stream(dice, three)
    size = dice.pick([1, 2, 4, 14, 100])
    piece, to = dice.below(len(stream) + 1), dice.below(len(stream) + 1)
    taken = stream[piece:piece + size]
    stream[to:to + dice.pick([0, size, size])] = dice.pick([taken, taken, b""])


def exchange(dice, three):
    """The two heaps in each other's place: seldom, since little is left to list."""
    if dice.one_in(8):
        three[1], three[2] = three[2], three[1]


# Rows of the side tables.

class Table:
    """The rows of a table that the walk reads: as bytes, with the numbers of some columns."""

    def __init__(self, tables, extent):
        _, self.start, self.size, count = extent
        self.rows = [bytes(tables[self.start + i * self.size:self.start + (i + 1) * self.size]) for i in range(count)]

    def put(self, tables, rows):
        return tables[:self.start] + b"".join(rows) + tables[self.start + len(rows) * self.size:]


def word(row, at, size=2):
    return int.from_bytes(row[at:at + size], "little")


def owner(row):
    """The Owner column of GenericParam, behind Number and Flags. Under 15,001 rows it has 2 bytes."""
    return word(row, 4)


def parent(row):
    """The Parent column of ClassLayout, behind PackingSize and ClassSize. It has 2 bytes too."""
    return word(row, 6)


def extents_of(answer):
    return [list(map(int, line.split())) for line in answer.decode().splitlines()[:64]]


def row_counts(tables):
    valid = int.from_bytes(tables[8:16], "little")
    kinds = [kind for kind in range(64) if valid >> kind & 1]
    return {kind: word(tables, HEADER + 4 * i, 4) for i, kind in enumerate(kinds)}


def are_whole(tables, extents, kinds=SIDE_TABLES):
    """Whether the walk reads these tables whole."""
    counts = row_counts(tables)
    return all(extents[kind][3] == counts.get(kind, 0) for kind in kinds)


def rearranged(dice, tables, extents):
    """The tables with the rows of the side tables in another order that demand 3 allows. ClassLayout stays as it is where it is cut."""
    orders = [(GENERIC_PARAM, by_owner), (INTERFACE_IMPL, by_class), (NESTED_CLASS, by_nesting)]
    if are_whole(tables, extents, [CLASS_LAYOUT]):
        orders.append((CLASS_LAYOUT, by_parent))
    for kind, order in orders:
        table = Table(tables, extents[kind])
        tables = table.put(tables, order(dice, table.rows))
    return tables


def by_owner(dice, rows):
    return keeping(dice, rows, owner)


def by_class(dice, rows):
    return keeping(dice, rows, lambda row: word(row, 0))


def by_parent(dice, rows):
    return keeping(dice, rows, parent)


def keeping(dice, rows, key):
    """Any order in which the rows of one key keep theirs."""
    keys = dice.shuffled([key(row) for row in rows])
    left = {k: iter([row for row in rows if key(row) == k]) for k in keys}
    return [next(left[k]) for k in keys]


def by_nesting(dice, rows):
    """Any order in which two rows keep theirs if the nested class of either occurs in the other."""
    left, made = list(rows), []
    while left:
        free = [i for i, row in enumerate(left) if not any(are_bound(row, other) for other in left[:i])]
        made.append(left.pop(dice.pick(free)))
    return made


def are_bound(a, b):
    nested_a, nested_b = word(a, 0), word(b, 0)
    return nested_a in (word(b, 0), word(b, 2)) or nested_b in (word(a, 0), word(a, 2))


def swapped(dice, tables, strings, extents):
    """The tables with two GenericParam rows of one listed class exchanged whose names are printed differently; None if there are none."""
    table = Table(tables, extents[GENERIC_PARAM])
    names = [printed(strings, word(row, 6, len(row) - 6)) for row in table.rows]
    pairs = [(i, j) for j, row in enumerate(table.rows) for i, other in enumerate(table.rows[:j])
             if owner(row) == owner(other) and is_listed(owner(row), extents) and names[i] != names[j]]
    return table.put(tables, exchanged(table.rows, *dice.pick(pairs))) if pairs else None


def swapped_layouts(dice, tables, extents):
    """The tables with the first ClassLayout row of a class exchanged with a later one that says something else; None if there is none."""
    table, first = Table(tables, extents[CLASS_LAYOUT]), {}
    for i, row in enumerate(table.rows):
        first.setdefault(parent(row), i)
    pairs = [(first[parent(row)], j) for j, row in enumerate(table.rows)
             if 2 <= parent(row) <= extents[TYPE_DEF][3] and row != table.rows[first[parent(row)]]]
    return table.put(tables, exchanged(table.rows, *dice.pick(pairs))) if pairs else None


def exchanged(rows, i, j):
    rows = list(rows)
    rows[i], rows[j] = rows[j], rows[i]
    return rows


def is_listed(owner_column, extents):
    """Whether it is the owner of a class: a TypeDef row that is there, and not the first."""
    return owner_column & 1 == 0 and 2 <= owner_column >> 1 <= extents[TYPE_DEF][3]


def printed(strings, index):
    """What a listing tells of a string: a missing one prints like an empty one, and long ones print alike; no other two do."""
    end = strings.find(b"\0", index) if 0 < index < len(strings) else -1
    name = strings[index:end] if end >= 0 else b""
    return name if len(name) <= LONGEST else None

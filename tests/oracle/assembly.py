"""Table streams and heaps, built row by row, for `generate` and `call_cases.py`."""

from dice import shortest, signed, some_form

MODULE, TYPE_REF, TYPE_DEF, FIELD, METHOD_DEF, PARAM, INTERFACE_IMPL, MEMBER_REF = 0, 1, 2, 4, 6, 8, 9, 0x0A
CONSTANT, CUSTOM_ATTRIBUTE, CLASS_LAYOUT, TYPE_SPEC, NESTED_CLASS, GENERIC_PARAM = 0x0B, 0x0C, 0x0F, 0x1B, 0x29, 0x2A

# The columns of each table (ECMA-335 II.22; the undocumented ones as in the Rust): a number of bytes; `s`, `g`
# or `b` for an index into the strings, GUID or blob heap; `@` and a kind for a row of it; or a coded index.
COLUMNS = {
    0x00: "2 s g g g", 0x01: "ResolutionScope s s", 0x02: "4 s s TypeDefOrRef @04 @06", 0x03: "@04",
    0x04: "2 s b", 0x05: "@06", 0x06: "4 2 2 s b @08", 0x07: "@08", 0x08: "2 2 s", 0x09: "@02 TypeDefOrRef",
    0x0A: "MemberRefParent s b", 0x0B: "2 HasConstant b", 0x0C: "HasCustomAttribute CustomAttributeType b",
    0x0D: "HasFieldMarshal b", 0x0E: "2 HasDeclSecurity b", 0x0F: "2 4 @02", 0x10: "4 @04", 0x11: "b",
    0x12: "@02 @14", 0x13: "@14", 0x14: "2 s TypeDefOrRef", 0x15: "@02 @17", 0x16: "@17", 0x17: "2 s b",
    0x18: "2 @06 HasSemantics", 0x19: "@02 MethodDefOrRef MethodDefOrRef", 0x1A: "s", 0x1B: "b",
    0x1C: "2 MemberForwarded s @1A", 0x1D: "4 @04", 0x1E: "4 4", 0x1F: "4", 0x20: "4 2 2 2 2 4 b s s",
    0x21: "4", 0x22: "4 4 4", 0x23: "2 2 2 2 4 b s s b", 0x24: "4 @23", 0x25: "4 4 4 @23", 0x26: "4 s b",
    0x27: "4 4 s s Implementation", 0x28: "4 4 s Implementation", 0x29: "@02 @02", 0x2A: "2 2 TypeOrMethodDef s",
    0x2B: "MethodDefOrRef b", 0x2C: "@2A TypeDefOrRef",
}

# The coded indices that can have 4 bytes below 15,001 rows: from how many rows on, of which tables.
WIDENED = {
    "HasCustomAttribute": (2048, [0x00, 0x01, 0x02, 0x04, 0x06, 0x08, 0x09, 0x0A, 0x11, 0x14, 0x17, 0x1A, 0x1B,
                                  0x20, 0x23, 0x26, 0x27, 0x28, 0x2A, 0x2B, 0x2C]),
    "MemberRefParent": (8192, [0x01, 0x02, 0x06, 0x1A, 0x1B]),
    "CustomAttributeType": (8192, [0x06, 0x0A]),
}

WORDS = [b"A", b"Box", b"List`1", b"Map`2", b"Outer", b"Inner", b"N", b"System", b"System.IO", b"T", b"TKey",
         b"TValue", b".ctor", b".cctor", b"Main", b"get_Item", b"x", b"value", b"`", b"``", b"`1", b"a.b",
         b"<Module>", b"\xc3\xa9", b"\xff\xfe", b"two\nlines", b"flags=7", b"%41", b"!", b" ",
         b"GuidAttribute"]


def column_sizes(kind, counts, heap_bits):
    """The bytes of each column of a table, by the row counts and the heap sizes byte."""
    return [column_size(column, counts, heap_bits) for column in COLUMNS[kind].split()]


def column_size(column, counts, heap_bits):
    if column in ("2", "4"):
        return int(column)
    if column in ("s", "g", "b"):
        return 4 if heap_bits & {"s": 1, "g": 2, "b": 4}[column] else 2
    rows, tables = WIDENED.get(column, (0, []))
    return 4 if any(counts.get(kind, 0) >= rows for kind in tables) else 2


def bundle(tables, strings, blob):
    lengths = "tables=%d\nstrings=%d\nblob=%d\n" % (len(tables), len(strings), len(blob))
    return lengths.encode() + tables + strings + blob


class Assembly:
    """Tables of the given numbers of rows, and heaps that grow as rows are filled."""

    def __init__(self, dice, counts, heap_bits=None):
        self.dice = dice
        self.counts = {kind: n for kind, n in counts.items() if n > 0}
        self.heap_bits = self.some_heap_bits() if heap_bits is None else heap_bits
        self.strings = bytearray(b"\0")
        # Blob index 0 is read like any other: at times it holds a signature.
        self.blob = bytearray(dice.pick([b"\x04\x00\x01\x08\x0e", b"\x01\x08"]) if dice.one_in(10) else b"\0")
        self.rows = {}
        # Signatures without faults of their own: in every other assembly.
        self.clean = dice.one_in(2)
        self.lowest_spec = 0
        self.first_methods = self.some_first_methods()

    def some_heap_bits(self):
        bits = self.dice.below(8)
        if self.dice.one_in(8):
            bits |= 0x40
        if self.dice.one_in(16):
            bits |= self.dice.pick([0x08, 0x10, 0x20, 0x80])
        return bits

    def count(self, kind):
        return self.counts.get(kind, 0)

    def row_index(self, kind):
        """Mostly a row of that table; at times 0 or just past the end."""
        n = self.count(kind)
        return self.dice.below(n + 3) if self.dice.one_in(8) else self.dice.between(min(1, n), n)

    # Heaps.

    def name(self):
        """An index into the strings heap, mostly of a name."""
        dice = self.dice
        choice = dice.below(40)
        if choice == 0:
            return 0
        if choice == 1:
            return dice.below(len(self.strings) + 40)
        if choice == 2:
            return self.add_name(b"")
        if choice < 8:
            return self.add_name(bytes(dice.between(0x21, 0x7E) for _ in range(dice.between(1, 12))))
        return self.add_name(dice.pick(WORDS))

    def add_name(self, name):
        at = self.strings.find(b"\0" + name + b"\0")
        if at >= 0:
            return at + 1
        self.strings += name + b"\0"
        return len(self.strings) - len(name) - 1

    def add_blob(self, content):
        at = len(self.blob)
        self.blob += some_form(self.dice, len(content)) + content
        return at

    def some_blob(self, content):
        """An index into the blob heap, mostly of this content."""
        choice = self.dice.below(30)
        if choice == 0:
            return 0
        if choice == 1:
            return self.dice.below(len(self.blob) + 5)
        return self.add_blob(content)

    # Signatures (II.23.2).

    def token(self):
        """A TypeDefOrRef coded index. Inside a type specification it names later ones only: no cycles but those
        of `self_spec`, so that no text takes long."""
        dice, specs = self.dice, self.count(TYPE_SPEC)
        if not self.clean and dice.one_in(30):
            return dice.below(64) << 2 | 3
        if self.lowest_spec < specs and dice.one_in(3):
            return dice.between(self.lowest_spec + 1, specs) << 2 | 2
        if not self.clean and dice.one_in(30):
            return dice.pick([0, specs + 1, specs + 2]) << 2 | 2
        if self.count(TYPE_REF) and dice.one_in(2):
            return self.row_index(TYPE_REF) << 2 | 1
        return max(self.row_index(TYPE_DEF), 2 * self.clean) << 2

    def number(self, n):
        return some_form(self.dice, n)

    def sig_type(self, deep=0):
        dice = self.dice
        if not self.clean and dice.one_in(20):
            return dice.pick([b"", b"\x00", b"\x17", b"\x1a", b"\x21", b"\x41", b"\x45", b"\x7f", b"\x80", b"\xff"])
        choice = dice.below(24 if deep < 5 else 7)
        if choice < 6:
            return bytes([dice.pick([1, 2, 3, 4, 5, 6, 7, 8, 9, 10, 11, 12, 13, 14, 0x16, 0x18, 0x19, 0x1C])])
        if choice == 6:
            return bytes([dice.pick([0x13, 0x1E])]) + self.number(dice.pick([0, 0, 0, 1, 1, 2, 3, 200]))
        if choice < 11:
            return bytes([dice.pick([0x11, 0x12])]) + self.number(self.token())
        if choice < 15:
            return bytes([dice.pick([0x0F, 0x10, 0x1D, 0x1D])]) + self.sig_type(deep + 1)
        if choice < 17:
            return b"\x14" + self.sig_type(deep + 1) + self.array_shape()
        if choice < 20:
            n = dice.below(4)
            given = n if self.clean or dice.below(8) else dice.below(4)
            head = self.sig_type(deep + 2) if dice.one_in(4) else b"\x12" + self.number(self.token())
            return b"\x15" + head + self.number(n) + b"".join(self.sig_type(deep + 1) for _ in range(given))
        if choice < 22:
            return b"\x1b" + self.method_sig(deep + 2)
        return bytes([dice.pick([0x1F, 0x20])]) + self.number(self.token()) + self.sig_type(deep + 1)

    def array_shape(self):
        dice = self.dice
        rank = dice.pick([0, 1, 1, 1, 2, 2, 3, 4])
        sizes = [dice.pick([0, 1, 5, 127, 128, 16383, 16384, (1 << 29) - 1]) for _ in range(dice.below(rank + 2))]
        bounds = [dice.pick([0, 0, 1, -1, -3, 63, -64, 64, -65, 8191, -8192, 8192, (1 << 28) - 1, -(1 << 28)])
                  for _ in range(dice.below(rank + 2))]
        return (self.number(rank) + self.number(len(sizes)) + b"".join(self.number(n) for n in sizes)
                + self.number(len(bounds)) + b"".join(signed(n) for n in bounds))

    def method_sig(self, deep=0):
        dice = self.dice
        flags = dice.pick([0x00, 0x20, 0x05, 0x10, 0x30])
        n = dice.below(4)
        given = n if self.clean or dice.below(8) else dice.below(5)
        generics = self.number(dice.below(3)) if flags & 0x10 else b""
        types = [self.sig_type(deep) for _ in range(1 + given)]
        return bytes([flags]) + generics + self.number(n) + b"".join(types)

    def odd_sig(self):
        """A method signature on some limit."""
        dice = self.dice
        if dice.one_in(2):
            returns = self.deepest_type()
        else:
            returns = dice.pick([
                lambda: b"\x14" * dice.between(15, 18) + b"\x08" + b"\x01\x00\x00" * 18,
                lambda: b"\x1b\x00\x00" * dice.between(15, 18) + b"\x08",
                lambda: b"\x1d" * dice.pick([40, 255, dice.between(2040, 2050), 4000]) + b"\x08",
                lambda: b"\x15\x08" + shortest(dice.between(999, 1001)) + b"\x08" * dice.between(999, 1001),
                lambda: b"\x14\x08" + shortest(dice.pick([200, 4091, 4092, 4093, 5000])) + b"\x00\x00",
                lambda: b"\x14\x08\x02" + dice.pick([b"\xff", b"\xe0", b"\xdf\xff\xff\xff", b"\x80"]) + b"\x00\x08",
                lambda: b"\x14\x08\x03\x02\x05" + dice.pick([b"\x85", b"\xc0\x00", b"\xe1\x00\x00\x00"]),
                lambda: b"\x14\x08\x01\x00\x01" + dice.pick([b"\x85", b"\xc0\x00", b"\xe0\x00\x00", b"\x40\x08"]),
                lambda: b"\x1b\x00\x02\x01\x17\x08",
                lambda: b"\x1b\x10\xe0\x00\x08",
            ])()
        params = dice.pick([b"", b"\x08", b"\x17\x08", b"\x08\x0f\x17\x0e"])
        n = dice.pick([1999, 2000, 2001]) if dice.one_in(20) else dice.pick([0, 1, 2, 3, 3, 4, 20])
        sig = bytes([0x00]) + shortest(n) + returns + params
        return sig[:4096]

    def deepest_type(self):
        """A run of tags that pass on a higher level, and then a type at or near the last level."""
        dice = self.dice
        token = self.number(self.token())
        inner = dice.pick([
            b"\x08", b"\x0f\x08", b"\x11" + token, b"\x12" + token, b"\x13\x00", b"\x1e\x00",
            b"\x14\x08\x01\x00\x00", b"\x15\x08\x01\x0e", b"\x15\x12" + token + b"\x02\x08\x0e",
            b"\x1b\x00\x00\x01", b"\x1b\x00\x02\x01\x0f\x08\x08", b"\x1d\x08", b"\x1d" * 30 + b"\x08",
            b"\x1f" + token + b"\x08", b"\x20" + token + b"\x1f" + token + b"\x1d\x0e",
        ])
        run = bytes(dice.pick([0x0F, 0x10]) for _ in range(dice.pick([14, 15, 15, 16, 16, 16, 17])))
        return dice.pick([b"", b"\x1d", b"\x1f" + token]) + run + inner

    def some_sig(self):
        dice = self.dice
        if dice.one_in(24):
            return self.odd_sig()
        sig = self.method_sig()
        return sig[:dice.below(len(sig) + 1)] if not self.clean and dice.one_in(16) else sig[:4096]

    def spec_sig(self, row):
        self.lowest_spec = row
        sig = self.self_spec(row) if self.dice.one_in(12) else self.sig_type()
        self.lowest_spec = 0
        return sig[:4096]

    def self_spec(self, row):
        """A type that names itself once, so that its text ends with the level."""
        return self.dice.pick([b"", b"\x0f", b"\x1d", b"\x10\x1d"]) + b"\x12" + shortest(row << 2 | 2)

    # Rows.

    def some_first_methods(self):
        """The MethodList column of each type: in order, or not, or past the end for the first types."""
        dice, n, methods = self.dice, self.count(TYPE_DEF), self.count(METHOD_DEF)
        columns = sorted(dice.between(1, methods + 1) for _ in range(n))
        if dice.below(4):
            columns[:2] = [1] * len(columns[:2])
        style = dice.below(8)
        if style == 0:
            columns = dice.shuffled(columns)
        if style == 1:
            columns = [0 if dice.one_in(3) else column for column in columns]
        if style == 2:
            past = dice.below(n + 1) if dice.one_in(2) else n // 2
            columns[:past] = [methods + dice.pick([2, 3, 300, 65535 - methods]) for _ in range(past)]
        if style == 3 and dice.one_in(4):
            columns = [dice.below(methods + 4) for _ in range(n)]
        return columns

    def value(self, column):
        """A value for a column of which nothing more is known."""
        dice = self.dice
        if column in ("2", "4"):
            return dice.bits(8 * int(column)) if dice.one_in(3) else dice.below(8)
        if column == "s":
            return self.name()
        if column == "b":
            return self.some_blob(dice.data(dice.below(4)))
        if column == "g":
            return dice.below(4)
        if column[0] == "@":
            return self.row_index(int(column[1:], 16))
        if column == "TypeDefOrRef":
            return self.token()
        return dice.below(64)

    def row(self, kind, i):
        values = [self.value(column) for column in COLUMNS[kind].split()]
        if kind == TYPE_DEF:
            values[5] = self.first_methods[i]
        if kind == METHOD_DEF:
            values[4] = self.some_blob(self.some_sig())
            values[5] = self.dice.pick([0, values[5], values[5], self.dice.between(1, self.count(PARAM) + 2)])
        if kind == TYPE_SPEC:
            values[0] = self.some_blob(self.spec_sig(i + 1))
        if kind == CONSTANT and self.dice.one_in(2):
            values[0] = 0x0E
        if kind == MEMBER_REF:
            values[0] = self.row_index(TYPE_REF) << 3 | self.dice.below(3)
        if kind == CUSTOM_ATTRIBUTE and self.dice.below(4):
            guid = self.dice.pick([b"\x01\x00\x04guid", b"\x01\x00\x04gui", b"\x01\x00", b"\x01\x00\xff", b"\x02"])
            values = [1 << 5 | 14, self.row_index(MEMBER_REF) << 3 | 3, self.some_blob(guid)]
        if kind == GENERIC_PARAM:
            owner = self.dice.below(2)
            values[2] = self.row_index([TYPE_DEF, METHOD_DEF][owner]) << 1 | owner
        return values

    def fill(self):
        for kind in sorted(self.counts):
            if kind in COLUMNS and kind not in self.rows:
                self.rows[kind] = [self.row(kind, i) for i in range(self.counts[kind])]
        return self

    # Bytes.

    def row_bytes(self, kind):
        sizes = column_sizes(kind, self.counts, self.heap_bits)
        return b"".join((value % (1 << 8 * size)).to_bytes(size, "little")
                        for row in self.rows[kind] for value, size in zip(row, sizes))

    def header(self):
        dice = self.dice
        valid = sum(1 << kind for kind in self.counts)
        reserved = dice.bits(32) if dice.one_in(8) else 0
        sorted_mask = dice.bits(64) if dice.one_in(4) else 0x16003301FA00
        counts = b"".join(self.counts[kind].to_bytes(4, "little") for kind in sorted(self.counts))
        skipped = dice.data(4) if self.heap_bits & 0x40 else b""
        return (reserved.to_bytes(4, "little") + bytes([2, 0, self.heap_bits, 1]) + valid.to_bytes(8, "little")
                + sorted_mask.to_bytes(8, "little") + counts + skipped)

    def streams(self):
        """Tables, strings, blob."""
        tables = self.header() + b"".join(self.row_bytes(kind) for kind in sorted(self.rows))
        strings, blob = bytes(self.strings), bytes(self.blob)
        if self.dice.one_in(10):
            strings = strings[:-1]
        if self.dice.one_in(40):
            strings = b""
        if self.dice.one_in(40):
            blob = b""
        return tables, strings, blob

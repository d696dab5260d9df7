"""Streams made by hand for the public calls, each with its name, for `record_calls`."""

from assembly import (CLASS_LAYOUT, FIELD, GENERIC_PARAM, INTERFACE_IMPL, METHOD_DEF, NESTED_CLASS, PARAM, TYPE_DEF, TYPE_REF, TYPE_SPEC,
                      Assembly)
from dice import shortest

# A name that runs into the end of the strings.
UNTERMINATED = object()


class Still:
    """Dice that never fall: each choice is the first, and nothing rare happens."""

    def below(self, n):
        return 0

    bits = below

    def between(self, low, high):
        return low

    def one_in(self, n):
        return False

    def pick(self, items):
        return items[0]

    def data(self, n):
        return bytes(n)

    def shuffled(self, items):
        return list(items)


class Case:
    """Tables of few columns: a type is (flags, name, namespace, first method) and may have its Extends column behind them, a method
    (flags, name) and may have its signature and its first parameter behind them, a generic parameter is (owner, name), a parameter
    its name, a reference (name, namespace), a specification its signature, an interface or a layout the row itself. TypeDef row 1 is
    added, so that `types` begin with row 2, class 0. A name is its bytes, None for none, or a number for an index into the strings; a
    signature the same in the blobs. `others` are counts of further tables, all zeros."""

    def __init__(self, name, types=(), methods=(), nested=(), generics=(), params=(), refs=(), specs=(), interfaces=(), layouts=(),
                 heap_bits=0, others=None, module=1, edit=None):
        self.name = name
        self.types = [(*row, 0)[:5] for row in [(0, b"<Module>", None, module), *types]]
        self.methods = [(*row, *(None, 1)[len(row) - 2:]) for row in methods]
        self.nested, self.generics, self.params, self.refs = nested, generics, params, refs
        self.specs, self.interfaces, self.layouts = specs, interfaces, layouts
        self.heap_bits, self.others = heap_bits, others or {}
        self.edit = edit or (lambda made, tables, strings, blob: (tables, strings, blob))

    def names(self):
        yield from (name for _, *both, _, _ in self.types for name in both)
        yield from (name for _, name, _, _ in self.methods)
        yield from (name for _, name in self.generics)
        yield from self.params
        yield from (name for both in self.refs for name in both)

    def streams(self):
        tables = {TYPE_REF: self.refs, TYPE_DEF: self.types, METHOD_DEF: self.methods, PARAM: self.params,
                  INTERFACE_IMPL: self.interfaces, CLASS_LAYOUT: self.layouts, TYPE_SPEC: self.specs, NESTED_CLASS: self.nested,
                  GENERIC_PARAM: self.generics}
        made = Assembly(Still(), {**{kind: len(rows) for kind, rows in tables.items()}, **self.others}, self.heap_bits)
        names = list(self.names())
        for name in names:
            if isinstance(name, bytes):
                made.add_name(name)
        indices = {None: 0, UNTERMINATED: len(made.strings)}
        if UNTERMINATED in names:
            made.strings += b"open"
        index = lambda name: made.add_name(name) if isinstance(name, bytes) else indices.get(name, name)
        blob = lambda sig: made.add_blob(sig) if isinstance(sig, bytes) else indices.get(sig, sig)
        rows = {
            TYPE_REF: [[0, index(name), index(space)] for name, space in self.refs],
            TYPE_DEF: [[flags, index(name), index(space), extends, 1, first]
                       for flags, name, space, first, extends in self.types],
            METHOD_DEF: [[0, 0, flags, index(name), blob(sig), first] for flags, name, sig, first in self.methods],
            PARAM: [[0, 0, index(name)] for name in self.params],
            INTERFACE_IMPL: self.interfaces,
            CLASS_LAYOUT: self.layouts,
            TYPE_SPEC: [[blob(sig)] for sig in self.specs],
            NESTED_CLASS: self.nested,
            GENERIC_PARAM: [[0, 0, owner, index(name)] for owner, name in self.generics],
        }
        made.rows = {kind: rows.get(kind) or [[0] * 12] * made.count(kind) for kind in made.counts}
        return self.edit(made, *made.streams())


class Bytes:
    """Streams as they stand."""

    def __init__(self, name, tables, strings=b"", blob=b""):
        self.name = name
        self.given = bytes.fromhex(tables) if isinstance(tables, str) else tables, strings, blob

    def streams(self):
        return self.given


def plain(name, space=None, first=1, flags=1, extends=0):
    return flags, name, space, first, extends


# TypeDefOrRef columns (II.24.2.6).
def of_def(row):
    return row << 2


def of_ref(row):
    return row << 2 | 1


def of_spec(row):
    return row << 2 | 2


def signature(returns, *params, flags=0):
    """The signature of a method, of its types."""
    return bytes([flags]) + shortest(len(params)) + returns + b"".join(params)


def cut_in(kind, rows, more):
    """Ends the tables stream `more` bytes after so many rows of a table."""
    def edit(made, tables, strings, blob):
        rest = sum(len(made.row_bytes(other)) for other in made.rows if other >= kind)
        row = len(made.row_bytes(kind)) // made.count(kind)
        return tables[:len(tables) - rest + rows * row + more], strings, blob
    return edit


def with_count(kind, count):
    """Changes the count of a table, whose rows stay."""
    def edit(made, tables, strings, blob):
        at = 24 + 4 * sorted(made.counts).index(kind)
        return tables[:at] + count.to_bytes(4, "little") + tables[at + 4:], strings, blob
    return edit


A, B, C = plain(b"A", b"N", flags=1), plain(b"B", b"M", flags=2), plain(b"C", flags=0x100102)


def nested_cases():
    yield Case("nested two deep", [A, B], nested=[(3, 2)])
    yield Case("nested three deep, outermost row first", [A, B, C], nested=[(3, 2), (4, 3)])
    yield Case("nested three deep, innermost row first", [A, B, C], nested=[(4, 3), (3, 2)])
    yield Case("nested three deep, each row twice", [A, B, C], nested=[(4, 3), (3, 2), (4, 3), (3, 2)])
    yield Case("nested in a later class", [A, B, C], nested=[(2, 4), (4, 3)])
    yield Case("nested in itself", [A, C], nested=[(2, 2)])
    yield Case("nested in itself three times", [A, C], nested=[(2, 2), (2, 2), (2, 2)])
    yield Case("nested in one another", [A, B], nested=[(2, 3), (3, 2)])
    yield Case("nested in one another, twice", [A, B], nested=[(2, 3), (3, 2), (2, 3), (3, 2)])
    yield Case("nested in a ring of three", [A, B, C], nested=[(2, 3), (3, 4), (4, 2), (2, 3)])
    yield Case("nested in a class without a name", [plain(None, b"N"), B, C], nested=[(3, 2), (4, 3)])
    yield Case("nested in a class whose name is empty", [plain(b"", b"N"), B], nested=[(3, 2)])
    yield Case("nested in a class whose name does not end", [plain(UNTERMINATED, b"N"), B], nested=[(3, 2)])
    yield Case("nested, no name of its own", [A, plain(None), C], nested=[(3, 2), (4, 3)])
    yield Case("nested in a generic class", [plain(b"Outer`2", b"N`1"), plain(b"Inner`1")], nested=[(3, 2)])
    yield Case("nested in a class with an empty namespace", [plain(b"A", b""), B], nested=[(3, 2)])
    yield Case("nested, index 0 in the first column", [A, B], nested=[(0, 2), (0, 3), (0, 0)])
    yield Case("nested, index 0 in the second column", [A, B], nested=[(2, 0), (3, 0)])
    yield Case("nested, index 1 in the first column", [A, B], nested=[(1, 2), (1, 3), (1, 1)])
    yield Case("nested, index 1 in the second column", [A, B], nested=[(2, 1), (3, 1)])
    yield Case("nested, indices 0 and 1 among others", [A, B, C], nested=[(3, 2), (3, 1), (0, 3), (4, 3), (4, 0), (1, 4)])
    yield Case("nested in a class past the end", [A, B], nested=[(3, 4), (2, 65535)])
    yield Case("nested classes past the end", [A, B], nested=[(4, 2), (65535, 3), (3, 2)])
    yield Case("nested in two classes, one after the other", [A, B, C], nested=[(3, 2), (3, 4)])
    yield Case("nested in two classes, the other after the one", [A, B, C], nested=[(3, 4), (3, 2)])
    yield Case("nested in a class past the end and then in another", [A, B, C], nested=[(3, 9), (3, 2), (4, 3), (4, 9)])


def name_cases():
    yield Case("names, one with a namespace, one without", [A, C])
    yield Case("names, empty namespaces", [plain(b"A", b""), plain(b"", b""), plain(b"`1", b"")])
    yield Case("names, missing and empty", [plain(None, b"N"), plain(None), plain(b"", b"N"), plain(b""), plain(None, b"")])
    yield Case("names with back-quotes", [plain(b"List`1", b"N"), plain(b"A`1`2", b"N`1.M`2"), plain(b"A`"), plain(b"AB", b"`")])
    yield Case("names that begin with a back-quote", [plain(b"`1", b"N"), plain(b"`"), plain(b"``A", b"`1")])
    yield Case("names with any bytes", [plain(bytes([1, 0x7F, 0x80, 0xAA, 0xFF]), b"\xc3\xa9"), plain(b"a b=\n", b"..")])
    yield Case("names past the end of the strings", [plain(40000, b"N"), plain(b"A", 40000), plain(65535, 65535)])
    yield Case("names at the very end of the strings", [plain(14, b"N"), plain(b"A", 14), plain(13, b"N"), plain(b"A", 13)])
    yield Case("names in the middle of others", [plain(4, 2), plain(b"System", 6)])
    yield Case("names that do not end", [plain(UNTERMINATED, b"N"), plain(b"A", UNTERMINATED), plain(UNTERMINATED, UNTERMINATED)])
    yield Case("names without any strings", [plain(1, 1), plain(0, 0)], [(7, 1)],
               edit=lambda made, tables, strings, blob: (tables, b"", blob))
    yield Case("names in strings that are one zero", [plain(0, 0), plain(1, 0), plain(0, 1)], [(7, 0), (8, 1)], generics=[(4, 0), (5, 1)],
               edit=lambda made, tables, strings, blob: (tables, b"\0", blob))
    yield Case("names of methods, missing, empty and bad", [A, plain(b"B", None, 4)],
               [(1, None), (2, b""), (3, b"M`1"), (4, UNTERMINATED), (5, 9999), (0xFFFF, b".ctor")])
    yield Case("flags of all bits", [plain(b"A", flags=0xFFFFFFFF), plain(b"B", flags=0x80000000)], [(0xFFFF, b"f"), (0x8000, b"g")])


def generic_cases():
    owned = [A, plain(b"B", first=3)]
    methods = [(1, b"f"), (2, b"g"), (3, b"h")]
    yield Case("generics of a class", [A], generics=[(4, b"T"), (4, b"TKey`1"), (4, b"U")])
    yield Case("generics of owners 0 and 1", [A], methods, generics=[(0, b"a"), (1, b"b"), (4, b"T"), (0, b"c"), (1, b"d")])
    yield Case("generics of TypeDef row 1", [A], methods, generics=[(2, b"a"), (4, b"T"), (2, b"b")])
    yield Case("generics of classes and methods in turn", owned, methods,
               generics=[(4, b"T"), (3, b"X"), (6, b"U"), (5, b"Y"), (4, b"V"), (7, b"Z"), (3, b"W"), (6, b"T")])
    yield Case("generics of classes and methods, last first", owned, methods,
               generics=[(7, b"Z"), (6, b"U"), (5, b"Y"), (4, b"T"), (3, b"X"), (2, b"no"), (1, b"no"), (0, b"no")])
    yield Case("generics with missing, empty and bad names", [A], methods,
               generics=[(4, None), (4, b""), (4, UNTERMINATED), (4, 65535), (4, b"T"), (3, None), (3, b""), (5, UNTERMINATED)])
    yield Case("generics of owners past the end", owned, methods,
               generics=[(8, b"a"), (9, b"b"), (65534, b"c"), (65535, b"d"), (6, b"T"), (7, b"Z")])
    yield Case("generics without methods", owned, generics=[(3, b"a"), (4, b"T"), (5, b"b"), (6, b"U")])
    yield Case("generics, all of one name", owned, methods, generics=[(4, b"T"), (4, b"T"), (3, b"T"), (3, b"T")])
    yield Case("generics of a method that no class takes", [plain(b"A", first=2)], methods, generics=[(3, b"a"), (5, b"X"), (5, b"Y")])


def method_cases():
    five = [(10 + i, b"m%d" % i) for i in range(5)]
    generics = [(3 + 2 * i, b"G%d" % i) for i in range(5)]

    def firsts(name, columns, **more):
        types = [plain(b"C%d" % i, first=column) for i, column in enumerate(columns)]
        return Case("methods, " + name, types, five, generics=generics, **more)

    yield firsts("in order", [1, 2, 4])
    yield firsts("the first two of no class", [3, 4], module=1)
    yield firsts("three classes starting at 0, 3, 1 of five", [1, 4, 2])
    yield firsts("last first", [5, 4, 3, 2, 1])
    yield firsts("equal columns", [2, 2, 2])
    yield firsts("equal columns, then a smaller one", [3, 3, 1, 1])
    yield firsts("columns of 0", [0, 0, 0])
    yield firsts("a column of 0 between others", [1, 0, 4])
    yield firsts("a column of 0 first and last", [0, 2, 0])
    yield firsts("just after the last", [6, 6])
    yield firsts("just after the last for the last class", [1, 3, 6])
    yield firsts("just after the last for the first class", [6, 1, 3])
    yield firsts("past the end for the first class", [7, 1, 3])
    yield firsts("past the end for the last class", [1, 3, 7])
    yield firsts("past the end for one in the middle", [1, 65535, 3])
    yield firsts("past the end for all", [300, 65535, 7])
    yield firsts("past the end, 0 and out of order", [4, 0, 9, 2, 65535, 3], module=0)
    yield firsts("all of them of TypeDef row 1", [6], module=1)
    yield firsts("a later column for TypeDef row 1", [1, 3], module=5)
    yield Case("methods of classes without a MethodDef table", [plain(b"A", first=1), plain(b"B", first=0), plain(b"C", first=3)])
    yield Case("methods, one class and one method", [A], [(0x0096, b".ctor")])


def cut_cases():
    whole = dict(types=[A, plain(b"B", b"M", 2), plain(b"C", None, 4)], methods=[(i, b"m%d" % i) for i in range(4)],
                 nested=[(3, 2), (4, 3), (2, 4)], generics=[(4, b"T"), (3, b"X"), (6, b"U"), (9, b"Y")])
    yield Case("cut nowhere", **whole)
    yield Case("three bytes to spare", edit=lambda made, tables, strings, blob: (tables + b"\1\2\3", strings, blob), **whole)
    for kind, name, size in ((TYPE_DEF, "TypeDef", 14), (METHOD_DEF, "MethodDef", 14), (NESTED_CLASS, "NestedClass", 4),
                             (GENERIC_PARAM, "GenericParam", 8)):
        for rows, more, where in ((0, 0, "before the first row"), (0, size - 1, "a byte before the first row's end"),
                                  (1, 0, "after the first row"), (1, size // 2, "in the middle of the second row"),
                                  (2, 1, "a byte after the second row"), (2, size - 1, "a byte before the third row's end")):
            yield Case("cut in %s, %s" % (name, where), edit=cut_in(kind, rows, more), **whole)
    yield Case("cut in TypeRef", others={TYPE_REF: 2}, edit=cut_in(TYPE_REF, 1, 5), **whole)
    yield Case("cut in Field", others={FIELD: 2}, edit=cut_in(FIELD, 1, 5), **whole)
    yield Case("other tables between", others={0: 1, TYPE_REF: 2, FIELD: 3, 8: 2, 9: 1, 0x0A: 2, 0x0C: 1, 0x1B: 2, 0x2B: 1, 0x2C: 1}, **whole)
    yield Case("fewer rows than the count says", edit=with_count(GENERIC_PARAM, 6), **whole)
    yield Case("15,000 rows, few of them there", edit=with_count(TYPE_DEF, 15000), **whole)


def heap_cases():
    whole = dict(types=[A, plain(b"B`1", b"M", 2)], methods=[(1, b"f"), (2, b"g"), (3, b"h")], nested=[(3, 2)],
                 generics=[(4, b"T"), (7, b"X"), (6, b"U")], others={0: 1, FIELD: 2})
    for bits in (0x00, 0x01, 0x02, 0x04, 0x05, 0x07, 0x40, 0x47, 0xB8):
        yield Case("heap sizes 0x%02X" % bits, heap_bits=bits, **whole)
    yield Case("heap sizes 0x01, an index past 65,535", [plain(0x10001, b"N"), plain(b"A", 0x7FFFFFFF), plain(0xFFFFFFFF)], heap_bits=1)
    yield Case("heap sizes 0x05, a cut MethodDef", [A], [(1, b"f"), (2, b"g")], heap_bits=5, edit=cut_in(METHOD_DEF, 1, 11))
    yield Case("heap sizes 0x07, a cut GenericParam", [A], generics=[(4, b"T"), (4, b"U")], heap_bits=7, edit=cut_in(GENERIC_PARAM, 1, 9))
    yield Case("heap sizes 0x40, three bytes after the counts", [A], heap_bits=0x40,
               edit=lambda made, tables, strings, blob: (tables[:31], strings, blob))


def refused_cases():
    header = "00000000 02 00 00 01 %s 0000000000000000"
    yield Bytes("refused: no tables", b"", b"\0A\0")
    yield Bytes("refused: 23 bytes", bytes(23), b"\0A\0")
    yield Bytes("24 bytes, no table", bytes(24), b"\0A\0")
    yield Bytes("refused: one count, 3 bytes of it", header % "0400000000000000" + "020000", b"\0A\0")
    yield Bytes("refused: two counts, 7 bytes of them", header % "0400000000000080" + "02000000 010000", b"\0A\0")
    yield Bytes("refused: 64 counts, 255 bytes of them", bytes.fromhex(header % "FFFFFFFFFFFFFFFF") + bytes(255), b"\0A\0")
    yield Bytes("64 counts of 0", bytes.fromhex(header % "FFFFFFFFFFFFFFFF") + bytes(256), b"\0A\0")
    yield Bytes("refused: a count too many and counts cut", header % "0500000000000000" + "993A0000 010000", b"\0A\0")
    yield Bytes("refused: 15,001 rows of an unknown kind", header % "0000000000000080" + "993A0000", b"\0A\0")
    yield Bytes("15,000 rows of an unknown kind", header % "0000000000000080" + "983A0000", b"\0A\0")
    yield Case("refused: 15,001 rows", [A], edit=with_count(TYPE_DEF, 15001))
    yield Case("refused: 4,294,967,295 rows", [A], [(1, b"f")], edit=with_count(METHOD_DEF, 0xFFFFFFFF))
    yield Case("refused: 15,001 rows of a later table", [A], generics=[(4, b"T")], edit=with_count(GENERIC_PARAM, 15001))


REFS = [(b"Object", b"System"), (b"List`1", b"System.Collections"), (b"NoSpace", None), (b"", b"Empty"), (None, b"Missing"),
        (UNTERMINATED, b"N"), (b"A", UNTERMINATED)]


def base_cases():
    yield Case("bases, a reference for each", [plain(b"C%d" % i, extends=of_ref(i)) for i in range(9)], refs=REFS)
    yield Case("bases, classes: itself, a later and an earlier one", [plain(b"A", b"N", extends=of_def(2)), plain(b"B", extends=of_def(4)),
                                                                     plain(b"C`1", b"M", extends=of_def(2))])
    yield Case("bases, TypeDef rows 0 and 1, past the end, without a name",
               [plain(b"A", extends=of_def(row)) for row in (0, 1, 7, 8, 16383)] + [plain(None, extends=of_def(6))])
    yield Case("bases, tag 3", [plain(b"A", extends=3), plain(b"B", extends=of_def(2) | 3), plain(b"C", extends=65535)], refs=REFS)
    yield Case("bases, specifications", [plain(b"A", extends=of_spec(row)) for row in (0, 1, 2, 3, 4, 5, 6, 7, 8)], refs=REFS,
               generics=[(4, b"T"), (6, b"U")],
               specs=[bytes.fromhex(sig) for sig in ("15120902081300", "1300", "17", "1D0E", "1408020000", "121E", "1B0002011708")])
    yield Case("bases, a nested class", [A, plain(b"B", b"M", extends=of_def(4)), plain(b"C", extends=of_def(3))], nested=[(3, 2), (4, 3)])
    yield Case("bases, interfaces in order", [plain(b"A", extends=of_ref(1)), plain(b"B")], refs=REFS,
               interfaces=[(2, of_ref(2)), (3, of_ref(3)), (2, of_def(3)), (3, of_def(2)), (2, of_ref(2)), (3, of_ref(1))])
    yield Case("bases, interfaces without names", [plain(b"A", extends=of_ref(5)), plain(b"B")], refs=REFS,
               interfaces=[(2, of_ref(5)), (2, of_ref(4)), (2, 0), (2, of_ref(6)), (2, of_ref(7)), (2, 3), (2, of_spec(1)), (2, of_ref(8))])
    yield Case("bases, interfaces of rows 0 and 1, past the end", [plain(b"A", extends=of_ref(1)), plain(b"B", extends=of_ref(2))],
               refs=REFS, interfaces=[(0, of_ref(1)), (1, of_ref(1)), (4, of_ref(1)), (65535, of_ref(1)), (3, of_ref(3))])
    yield Case("bases, interfaces of generics", [plain(b"A"), plain(b"B")], refs=REFS, generics=[(6, b"U"), (4, b"T")],
               specs=[b"\x13\0", b"\x15\x12\x09\1\x13\0", b"\x1e\0"], interfaces=[(i, of_spec(n)) for i in (2, 3) for n in (1, 2, 3)])
    sizes = 63, 64, 65, 66, 200
    yield Case("bases of 63 to 200 bytes", [plain(b"A", extends=of_ref(i + 1)) for i in range(len(sizes))],
               refs=[(bytes([0x61 + i]) * n, None) for i, n in enumerate(sizes)])
    whole = dict(types=[plain(b"A", extends=of_ref(1)), plain(b"B", extends=of_def(2))], refs=REFS[:3],
                 interfaces=[(2, of_ref(3)), (3, of_ref(1)), (2, of_ref(2)), (3, of_ref(3))], generics=[(4, b"T")])
    for kind, name, size in ((INTERFACE_IMPL, "InterfaceImpl", 4), (TYPE_REF, "TypeRef", 6)):
        for rows, more in ((0, 0), (0, size - 1), (1, 0), (2, 1), (2, size - 1)):
            yield Case("bases, cut in %s, %d bytes after row %d" % (name, more, rows), edit=cut_in(kind, rows, more), **whole)


def type_cases():
    """A method for each type, which it returns and takes."""
    texts = ("01", "02", "03", "04", "05", "06", "07", "08", "09", "0A", "0B", "0C", "0D", "0E", "16", "18", "19", "1C",  # simple
             "1D0F01", "1408020000", "14080101050106", "14080100017B", "1B0002011708", "17", "0F" * 16 + "08", "0F" * 17 + "08",
             "1D" * 40 + "08", "1208", "1109", "1204", "1200", "120D", "1215", "1203", "12E0", "1300", "1301", "1302", "1E00", "1E01",
             "1512090108", "151209020E17", "1512090213001E00", "1B10010001", "1F0508", "20091D0E", "1F0517", "101408020000",
             "1206", "120A", "120E", "1212", "140880640000", "")
    sigs = [bytes.fromhex(text) for text in texts]
    generics = [(4, b"T"), (4, b"TKey`1"), (3, b"X")]
    specs = [b"\x1d\x08", b"\x12\x0a", b"\x0f\x12\x0e", b"\x17"]
    for part in range(0, len(sigs), 9):
        yield Case("types %d to %d" % (part, part + 8), [A], [(i, b"m%d" % i, signature(sig, sig, sig + b"\x08", b"\x0e"))
                                                             for i, sig in enumerate(sigs[part:part + 9])],
                   generics=generics, refs=REFS, specs=specs, params=[b"first", b"second"])


def signed(*signatures):
    """A method for each signature, in hex."""
    return [(i, b"m%d" % i, bytes.fromhex(signature)) for i, signature in enumerate(signatures)]


def signature_cases():
    void, number = b"\x01", b"\x08"
    two = signature(void, number, b"\x0e")
    names = [b"a", b"", None, UNTERMINATED, 9999, b"f"]
    yield Case("signatures, parameters and their rows", [A], [(0, b"m%d" % i, two, i) for i in range(9)], params=names)
    yield Case("signatures, no Param table", [A], [(0, b"m%d" % i, two, i) for i in (0, 1, 2, 65535)])
    yield Case("signatures, twelve parameters past the table", [A], [(0, b"m", signature(void, *[number] * 12), 2)], params=[b"a", b"b"])
    yield Case("signatures, 120 parameters", [A], [(0, b"m", signature(void, *[b"\x08", b"\x0e", b"\x17"] * 40), 1)], params=names)
    yield Case("signatures, parameters that fail", [A],
               signed("000301170817", "000301081708", "0003010812E008", "000301", "00030108", "000301081D", "00020112800108",
                      "0002011408E008"), params=[b"a", b"b", b"c"])
    yield Case("signatures that fail", [A],
               signed("", "00", "0001", "000117", "00E001", "10", "10E00001", "1001", "100100", "00870108", "0087D108", "100101080E",
                      "200008", "050001"))
    yield Case("signatures of 2,000 and 2,001 parameters", [A], signed("0087CF01080E", "0087D001080E", "0087D101080E"))
    yield Case("signatures, the blob at 0, past the end and cut", [A], [(0, b"f", None), (1, b"g", 9999), (2, b"h", 1), (3, b"i", 2)],
               edit=lambda made, tables, strings, blob: (tables, strings, b"\3\0\0\x08\x05\0\0\x01"))
    yield Case("signatures without any blob", [A], [(0, b"f", None), (1, b"g", 1)],
               edit=lambda made, tables, strings, blob: (tables, strings, b""))
    yield Case("signatures of constructors", [A], [(0, b".ctor", two), (1, b".cctor", signature(void)), (2, b".ctor", signature(number))],
               params=[b"x", b"y"])


def pairing_cases():
    """Which class's generic parameters a signature is read with."""
    sig = signature(b"\x13\0", b"\x13\1", b"\x1e\0")
    five = [(i, b"m%d" % i, sig) for i in range(5)]
    both = [(4, b"T0"), (6, b"T1"), (8, b"T2"), (4, b"U0"), (8, b"U2"), (10, b"T3"), (10, b"U3"), (3, b"X0"), (7, b"X2")]

    def firsts(name, columns, methods=five, generics=both, **more):
        types = [plain(b"C%d" % i, first=column) for i, column in enumerate(columns)]
        return Case("pairing, " + name, types, methods, generics=generics, **more)

    yield firsts("in order", [1, 2, 4])
    yield firsts("three classes starting at 0, 3, 1 of five", [1, 4, 2])
    yield firsts("the same, and a class without generics reads last", [1, 4, 2], generics=[(6, b"T1"), (8, b"T2"), (8, b"U2")])
    yield firsts("last first", [5, 4, 3, 2])
    yield firsts("equal columns", [2, 2, 2])
    yield firsts("columns of 0", [0, 3, 0, 1])
    yield firsts("just after the last", [1, 6, 3, 6])
    yield firsts("past the end for the first class", [7, 1, 3])
    yield firsts("past the end for the last class", [1, 3, 7])
    yield firsts("past the end for one in the middle", [2, 65535, 4, 3])
    yield firsts("past the end for all", [300, 65535, 7])
    yield firsts("past the end, 0 and out of order", [4, 0, 9, 2], module=0)
    yield firsts("a later reading that fails", [1, 4, 2], methods=[(i, b"m%d" % i, signature(b"\x13\1", b"\x13\0")) for i in range(5)],
                 generics=[(4, b"T0"), (6, b"T1"), (8, b"T2"), (8, b"U2"), (6, b"U1")])


def wide_cases():
    whole = dict(types=[plain(b"A", b"N", extends=of_ref(1)), plain(b"B`1", None, 2, extends=of_spec(1))], refs=REFS[:2],
                 methods=[(1, b"f", signature(b"\x12\x05", b"\x0e"), 1), (2, b"g", signature(b"\x13\0", b"\x12\x06", b"\x08"), 2)],
                 params=[b"a", b"b", b"c"], interfaces=[(2, of_def(3)), (3, of_def(2))], specs=[b"\x15\x12\x09\1\x13\0"],
                 generics=[(6, b"T"), (5, b"X")], nested=[(3, 2)])
    for bits in (0x00, 0x01, 0x04, 0x05, 0x47):
        yield Case("signatures, heap sizes 0x%02X" % bits, heap_bits=bits, **whole)
    for kind, name, size in ((METHOD_DEF, "MethodDef", 14), (PARAM, "Param", 6), (TYPE_SPEC, "TypeSpec", 2)):
        for rows, more in ((0, 0), (0, size - 1), (1, 0)):
            yield Case("signatures, cut in %s, %d bytes after row %d" % (name, more, rows), edit=cut_in(kind, rows, more), **whole)


def document_cases():
    yield Bytes("the whole case of document 01",
                "00000000 02 00 00 01 0400000000000000 0000000000000000 02000000 0000000000000000000000000000"
                "01000000 0500 0300 0000 0100 0000", bytes.fromhex("00 41 00 4E 00 4C 60 31 00"))


def cut_strings(n):
    return lambda made, tables, strings, blob: (tables, strings[:n], blob)


def reason_cases():
    """The strings cut at every place, so that each name in turn does not end and then lies past the end; and document 01's whole case, with
    reasons 2, 3 and 1."""
    given = {"types": [A, plain(b"B`1", None, 2)], "methods": [(1, b"f"), (2, b"g"), (3, None)], "nested": [(3, 2)],
             "generics": [(4, b"T"), (6, b"U"), (6, None), (5, b"X"), (3, b"Y")]}
    for n in range(len(Case("", **given).streams()[1])):
        yield Case("strings cut to %d bytes" % n, **given, edit=cut_strings(n))
    (whole,) = document_cases()
    tables, strings, _ = whole.streams()
    yield Bytes(whole.name + ", strings cut to 5 bytes", tables, strings[:5])
    yield Bytes(whole.name + ", strings cut to 6 bytes", tables, strings[:6])
    yield Bytes(whole.name + ", no name", tables[:-10] + bytes(2) + tables[-8:], strings)


def all_cases():
    for cases in (document_cases, name_cases, nested_cases, generic_cases, method_cases, cut_cases, heap_cases, base_cases, type_cases,
                  signature_cases, pairing_cases, wide_cases, refused_cases, reason_cases):
        yield from cases()


def layout_cases():
    """Rows of ClassLayout: packing, size, Parent. They are no part of all_cases, which other recorders have too."""
    two = [A, B]
    yield Case("layouts, one row", two, layouts=[(4, 16, 2)])
    yield Case("layouts, the last class", two, layouts=[(4, 16, 3)])
    yield Case("layouts, two rows of a class", two, layouts=[(4, 16, 2), (8, 32, 2), (1, 1, 3), (2, 2, 3)])
    yield Case("layouts, zeros before another row", two, layouts=[(0, 0, 2), (4, 16, 2), (0, 5, 3)])
    yield Case("layouts, the largest values", two, layouts=[(65535, 4294967295, 2), (32768, 2147483648, 3)])
    yield Case("layouts, Parents 0 and 1", two, layouts=[(1, 1, 0), (2, 2, 1)])
    yield Case("layouts, Parents past the table", two, layouts=[(1, 1, 4), (2, 2, 65535), (3, 3, 258)])
    yield Case("layouts, all of these, not in order", [A, B, C],
               layouts=[(9, 9, 5), (3, 30, 4), (9, 9, 1), (1, 10, 3), (9, 9, 0), (8, 80, 4), (9, 9, 65535), (7, 70, 3), (2, 20, 2)])
    yield Case("layouts, no class", layouts=[(4, 16, 2), (4, 16, 1)])
    yield Case("layouts, 4 bytes for indices of heaps", two, [(0, b"m")], layouts=[(4, 16, 3), (8, 32, 2)], heap_bits=0x47)
    yield Case("layouts, other tables before", two, interfaces=[(2, of_def(3))], layouts=[(4, 16, 3)], others={0x0A: 2, 0x0C: 1, 0x0E: 1})
    for rows, more in ((0, 0), (0, 7), (1, 0), (1, 1), (1, 7), (2, 0), (2, 7)):
        yield Case("layouts, cut %d bytes after row %d" % (more, rows), two, nested=[(3, 2)],
                   layouts=[(4, 16, 3), (8, 32, 2), (1, 1, 2)], edit=cut_in(CLASS_LAYOUT, rows, more))
    yield Case("layouts, cut before they are reached", two, interfaces=[(2, of_def(3))], layouts=[(4, 16, 2)],
               edit=cut_in(INTERFACE_IMPL, 0, 3))
    yield Case("layouts, TypeDef cut", two, layouts=[(4, 16, 2)], edit=cut_in(TYPE_DEF, 2, 9))
    yield Bytes("layouts, refused, 1", bytes(23))
    yield Bytes("layouts, refused, 2", "00000000 02 00 00 01 0480000000000000 0000000000000000 03000000 010000")
    yield Case("layouts, refused, 3", two, layouts=[(4, 16, 2)], edit=with_count(CLASS_LAYOUT, 15001))

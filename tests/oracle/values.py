"""Inputs with names and types whose bytes a listing does not write as they stand (2026-05), and what it says of them, for `check`,
`record_listings` and `tests/differential`."""

from assembly import bundle
from known import BARE, header

TYPE_DEF, METHOD_DEF = 0x02, 0x06
LONGEST = 4096  # bytes of a value that is printed


def class_row(name, method=0):
    return bytes(4) + name.to_bytes(2, "little") + bytes(6) + method.to_bytes(2, "little")


def heap(texts):
    """A heap of strings, and where each begins."""
    data, places = b"\0", []
    for text in texts:
        places.append(len(data))
        data += text + b"\0"
    return data, places


def named(*names):
    """Classes with these names."""
    strings, places = heap(names)
    tables = header({TYPE_DEF: 1 + len(names)}) + class_row(0) + b"".join(class_row(place) for place in places)
    return bundle(tables, strings, b"")


def typed(name, signature):
    """A class whose one method has that name and that signature."""
    strings, (place,) = heap([name])
    method = bytes(8) + place.to_bytes(2, "little") + (0).to_bytes(2, "little") + bytes(2)
    tables = header({TYPE_DEF: 2, METHOD_DEF: 1}) + class_row(0) + class_row(place, 1) + method
    return bundle(tables, strings, bytes([len(signature)]) + signature)


def classes(*values):
    """The listing of classes whose names are written so."""
    return "stop=64\nclasses=%d\n" % len(values) + "".join("class=%s\nflags=0\n" % value + BARE for value in values)


def method(name, returns, *types):
    """The listing of `typed`: parameters have no names, since their column is 0."""
    lines = ["method=" + name, "mflags=0", "returns=" + returns]
    for value in types:
        lines += ["ptype=" + value, "pname="]
    return classes(name) + "".join(line + "\n" for line in lines)


def every_byte():
    """A class for each byte that a name can hold; what follows a back-quote is left out."""
    names = [bytes([65, byte, 66]) for byte in range(1, 256)]
    stands = [chr(byte) if 0x22 <= byte <= 0x7E and byte != 0x25 else "%%%02X" % byte for byte in range(1, 256)]
    return named(*names), classes(*("A" if text == "`" else "A%sB" % text for text in stands))


VALUES = {
    "every byte": every_byte(),
    "a forged line": (named(b"A\nflags=7"), classes("A%0Aflags=7")),
    "the mark as a name": (named(b"!", b"a" * (LONGEST + 1)), classes("%21", "!")),
    "percent signs": (named(b"%0A", b"\n", b"%41", b"A", b"%"), classes("%250A", "%0A", "%2541", "A", "%25")),
    "the longest": (named(b"\n" * LONGEST, b"a" * LONGEST), classes("%0A" * LONGEST, "a" * LONGEST)),
    "one byte more": (named(b"\n" * (LONGEST + 1), b"%" * (LONGEST + 1)), classes("!", "!")),
    "beyond ASCII": (named(b"na\xc3\xafve", b"\x7e\x7f\x80\xff"), classes("na%C3%AFve", "~%7F%80%FF")),
    "quotes": (named(b'"#$&=~', b"(a,b)<c>[d]"), classes('"#$&=~', "(a,b)<c>[d]")),
    "a reference": (typed(b"m n", bytes.fromhex("00 01 01 10 08")), method("m%20n", "void", "ref%20int")),
    "a function": (typed(b"f", bytes.fromhex("00 01 01 1B 00 02 01 17 08")), method("f", "void", "FnPtr<void(,%20int)>")),
}

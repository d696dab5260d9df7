"""The definition of a type's text (crates/record/specs/Types.antt), repeated in Python: what `type_cases` and `compare_deep` hold the Rust
and the library against. It recurses as deep as a signature nests."""

LEVELS = 17
SIMPLE = {1: b"void", 2: b"bool", 3: b"char", 4: b"sbyte", 5: b"byte", 6: b"short", 7: b"ushort", 8: b"int", 9: b"uint", 10: b"long",
          11: b"ulong", 12: b"float", 13: b"double", 14: b"string", 0x16: b"TypedReference", 0x18: b"IntPtr", 0x19: b"UIntPtr",
          0x1C: b"object"}


class Failed(Exception):
    """No value, and the position after the bytes that the reading used up."""


def read_byte(s, at):
    if at >= len(s):
        raise Failed(at)
    return s[at], at + 1


def packed(s, at):
    a, at = read_byte(s, at)
    if a >= 0xE0:
        raise Failed(at)
    more, a, width = (0, a, 7) if a < 0x80 else (1, a & 0x3F, 14) if a < 0xC0 else (3, a & 0x1F, 29)
    for _ in range(more):
        b, at = read_byte(s, at)
        a = a << 8 | b
    return a, width, at


def uint(s, at):
    value, _, at = packed(s, at)
    return value, at


def sint(s, at):
    value, width, at = packed(s, at)
    return (value >> 1) - (value & 1) * (1 << width - 1), at


def series(reader, s, at):
    n, at = uint(s, at)
    found = []
    for _ in range(n):
        value, at = reader(s, at)
        found.append(value)
    return found, at


def dim(size, low):
    if not low:
        return "" if size is None else str(size)
    return "%d..." % low if size is None else "%d...%d" % (low, low + size - 1)


def flat(text):
    """A text of texts, as bytes. So no text is copied at each nesting."""
    found, left = [], [text]
    while left:
        one = left.pop()
        if isinstance(one, bytes):
            found.append(one)
        else:
            left += reversed(one)
    return b"".join(found)


class Model:
    """The definition of a type's text over an environment, by its readers' names."""

    def __init__(self, env, generics=(), mgenerics=()):
        self.env, self.generics, self.mgenerics = env, generics, mgenerics

    def render(self, sig, at=0, left=LEVELS):
        """The text or None, and the position after."""
        try:
            text, at = self.type(sig, at, left)
            return flat(text), at
        except Failed as failed:
            return None, failed.args[0]

    def type(self, s, at, left):
        """The text, as bytes or a tuple of texts, and the position after."""
        pairs = 0
        while True:
            tag, at = read_byte(s, at)
            if left == 0:
                raise Failed(at)
            if tag in (0x1F, 0x20):
                _, at = uint(s, at)
            elif tag == 0x1D:
                pairs += 1
            else:
                text, at = self.form(tag, s, at, left)
                return (text, b"[]" * pairs), at

    def form(self, tag, s, at, left):
        if tag in (0x0F, 0x10):
            text, at = self.type(s, at, left - 1)
            return ((b"Ptr<", text, b">") if tag == 0x0F else (b"ref ", text)), at
        if tag in (0x11, 0x12):
            index, at = uint(s, at)
            return there(self.full_name(index, left - 1), at)
        if tag in (0x13, 0x1E):
            index, at = uint(s, at)
            names = self.generics if tag == 0x13 else self.mgenerics
            return there(names[index] if index < len(names) else None, at)
        if tag == 0x14:
            text, at = self.type(s, at, left - 1)
            rank, at = uint(s, at)
            sizes, at = series(uint, s, at)
            bounds, at = series(sint, s, at)
            get = lambda items, i: items[i] if i < len(items) else None
            return (text, ("[%s]" % ",".join(dim(get(sizes, i), get(bounds, i)) for i in range(rank))).encode()), at
        if tag == 0x15:
            text, at = self.type(s, at, left)
            n, at = uint(s, at)
            if n > 1000:
                raise Failed(at)
            given = []
            for _ in range(n):
                one, at = self.type(s, at, left)
                given += [b",", one]
            return (text, b"<", *given[1:], b">"), at
        if tag == 0x1B:
            flags, at = read_byte(s, at)
            if flags & 0x10:
                _, at = uint(s, at)
            n, at = uint(s, at)
            if n > 2000:
                raise Failed(at)
            text, at = self.type(s, at, left - 1)
            shown = b""
            for i in range(n):
                one, at = self.render(s, at, left - 1)
                shown += b"" if one is None else b", " * (i > 0) + one
            return (b"FnPtr<", text, b"(", shown, b")>"), at
        return there(SIMPLE.get(tag), at)

    def full_name(self, index, left):
        row, table = index >> 2, index & 3
        if table == 2:
            spec = self.env["specs"].get(row)
            return None if spec is None else self.render(spec, 0, left)[0]
        return self.env["defs"].get(row) if table == 0 else self.env["refs"].get(row) if table == 1 else None


def there(text, at):
    if text is None:
        raise Failed(at)
    return text, at

"""Says in words why a program refuses an input. The program says the number alone; what it means for this input is read from the input once
more (ECMA-335 II.24.2.6)."""

import re

from streams import MOST_BYTES

HEADER, COUNT = 24, 4  # bytes of the header of the tables stream, and of a row count
VALID = slice(8, 16)  # in the header: a bit for each kind of table that is there
KINDS = 64
MOST_ROWS = 15000
MOST_SECTION, MOST_OFFSETS = 262144, 16384  # bytes and places that the program section has (crates/section)
LENGTHS = re.compile(rb"tables=(\d+)\nstrings=\d+\nblob=\d+\n")
TABLES = """Module TypeRef TypeDef FieldPtr Field MethodPtr MethodDef ParamPtr Param InterfaceImpl MemberRef Constant CustomAttribute
FieldMarshal DeclSecurity ClassLayout FieldLayout StandAloneSig EventMap EventPtr Event PropertyMap PropertyPtr Property MethodSemantics
MethodImpl ModuleRef TypeSpec ImplMap FieldRVA EncLog EncMap Assembly AssemblyProcessor AssemblyOS AssemblyRef AssemblyRefProcessor
AssemblyRefOS File ExportedType ManifestResource NestedClass GenericParam MethodSpec GenericParamConstraint""".split()


def tables_of(data):
    """The tables stream of an input; nothing where the input is malformed."""
    lengths = LENGTHS.match(data)
    return data[lengths.end():lengths.end() + int(lengths[1])] if lengths else b""


def number_in(data):
    return int.from_bytes(data, "little")


def kinds_in(tables):
    """The kinds of table that the header says are there."""
    return [kind for kind in range(KINDS) if number_in(tables[VALID]) >> kind & 1]


def row_counts(tables):
    """The rows of each kind that is there."""
    return {kind: number_in(tables[at:at + COUNT]) for kind, at in zip(kinds_in(tables), range(HEADER, len(tables), COUNT))}


def table_name(kind):
    return "%s (0x%02X)" % (TABLES[kind], kind) if kind < len(TABLES) else "0x%02X" % kind


def short_header(data):
    return "the tables stream has %d bytes, fewer than the %d of its header" % (len(tables_of(data)), HEADER)


def short_counts(data):
    tables = tables_of(data)
    needed = COUNT * len(kinds_in(tables))
    return "the row counts are cut short: %d bytes for %d tables, of which %d are there" % (needed, needed // COUNT, len(tables) - HEADER)


def too_many_rows(data):
    over = ["the table %s has %d rows" % (table_name(kind), rows) for kind, rows in row_counts(tables_of(data)).items() if rows > MOST_ROWS]
    return "%s; %d is the most" % (", ".join(over), MOST_ROWS)


def no_room(data):
    return ("the section has more than %d bytes or %d classes, for which the program has no room; "
            "the library has room for any (dn_name_section)" % (MOST_SECTION, MOST_OFFSETS))


def bad_input(data):
    if len(data) > MOST_BYTES:
        return "the input has %d bytes; %d is the most" % (len(data), MOST_BYTES)
    return "the input is malformed: it must be the lines tables=N, strings=N and blob=N, and then just so many bytes"


REASONS = {1: short_header, 2: short_counts, 3: too_many_rows, 6: no_room, 8: bad_input}


def reason(number, data):
    """Why an input is refused with a number."""
    return REASONS[number](data) if number in REASONS else "no reason with this number is known"

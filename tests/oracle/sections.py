"""Type-name sections (2026-14) put together from class names, and the cases of the program section_replay."""

from asking import length

ALIGNMENT = 4


def slot(name):
    """A name, one zero, and the fewest zeros that reach a multiple of four; a missing name, None, has the slot of an empty one."""
    name = name or b""
    return name + bytes(ALIGNMENT - len(name) % ALIGNMENT)


def section_of(names):
    """The lines before a section, the section, and its offsets."""
    section, offsets = b"", b""
    for name in names:
        offsets += length(section)
        section += slot(name)
    return b"section=%d\noffsets=%d\n" % (len(section), len(names)), section, offsets


def case_of(given, head, section, offsets):
    parts = given, head, section, offsets
    return b"".join(map(length, parts)) + b"".join(parts)


def section_case(given, names):
    """The case of an input by its class names, or by the line of its refusal."""
    return case_of(given, *((names, b"", b"") if isinstance(names, bytes) else section_of(names)))

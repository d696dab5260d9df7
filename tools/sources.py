"""Says which source of a program is newer than it. Its sources are crates.txt and the src, specs and proofs of its crate and of every crate
that this one rests on."""

import os

PARTS = "src", "specs", "proofs"


def resting(root):
    """By crate, the names of what it rests on; none where crates.txt cannot be read."""
    try:
        with open(os.path.join(root, "crates.txt"), encoding="utf-8", errors="replace") as file:
            lines = [line.split("#")[0].partition(":") for line in file]
    except OSError:
        return {}
    return {name.strip(): others.split() for name, _, others in lines}


def crates_of(program, named):
    """Its own crate, and all that it rests on, near or far."""
    found = [program]
    for name in found:
        found += [other for other in named.get(name, []) if other not in found]
    return found


def sources(root, program):
    """Their paths from the root. Folders are among them: one changes as a file is removed, or takes the place of another."""
    yield "crates.txt"
    for name in crates_of(program, resting(root)):
        for part in PARTS:
            for folder, _, files in os.walk(os.path.join(root, "crates", name, part)):
                yield from (os.path.relpath(os.path.join(folder, file), root) for file in (".", *files))


def changed(path):
    """When it was, in nanoseconds; 0 for what is not there, as a file that an editor has just put away."""
    try:
        return os.stat(path).st_mtime_ns
    except OSError:
        return 0


def newer_source(root, program, path):
    """The source that changed last, where that was after the program at a path was made; else None."""
    when, source = max((changed(os.path.join(root, source)), source) for source in sources(root, program))
    return source if when > changed(path) else None

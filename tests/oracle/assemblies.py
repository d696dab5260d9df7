"""Inputs of the listing program from real assemblies: those of tests/csharp, those of Debian's mono packages that an input holds whole, and
parts of those that come with the C# compiler."""

import glob
import os
import subprocess
import sys

HERE = os.path.dirname(os.path.abspath(__file__))
ROOT = os.path.join(HERE, "..", "..")
CSHARP = os.path.join(ROOT, "target", "csharp")
UNPACKED = os.path.join(ROOT, "target", "mono")
INSTALLED = "/usr/lib/mono"

sys.path.append(os.path.join(ROOT, "tools"))

from streams import MOST_BYTES, Unfit, bundle, streams


def build():
    """Compiles the sources of tests/csharp; False where they cannot be compiled."""
    return run("build")


def unpack():
    """Takes assemblies out of Debian's packages; False where they cannot be had."""
    return run("unpack")


def run(script):
    return subprocess.run([os.path.join(ROOT, "tests", "csharp", script)], stdout=subprocess.DEVNULL, check=False).returncode == 0


def three_streams(paths):
    """(name, the three streams) of each assembly that can be cut."""
    for path in paths:
        with open(path, "rb") as file:
            data = file.read()
        try:
            yield os.path.basename(path), streams(data)
        except Unfit:
            pass


def compiled():
    """(name, input) of each assembly of tests/csharp, by name."""
    return whole(CSHARP)


def unpacked():
    """(name, input) of each assembly that `unpack` has taken out, by name."""
    return whole(UNPACKED)


def whole(folder):
    return [(name, bundle(*three)) for name, three in three_streams(sorted(glob.glob(os.path.join(folder, "*.dll"))))]


def installed():
    """(name, the three streams) of each assembly that came with the compiler, by path: most are too large to be listed whole."""
    found = [path for ending in ("dll", "exe") for path in glob.glob(os.path.join(INSTALLED, "**", "*." + ending), recursive=True)]
    return list(three_streams(sorted({os.path.realpath(path) for path in found})))


def part_of(dice, three):
    """An input that holds the beginning of each stream, of some size up to the largest."""
    room = dice.pick([2000, 4000, 8000, 8000, 16000, 30000]) if dice.below(16) else MOST_BYTES - 60
    tables = three[0][:dice.between(min(len(three[0]), room // 4), min(len(three[0]), room * 3 // 4))]
    strings = three[1][:min(len(three[1]), (room - len(tables)) // 2)]
    blob = three[2][:room - len(tables) - len(strings)]
    return bundle(tables, strings, blob)

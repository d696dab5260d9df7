"""The proved programs and the archive for C: where they stand, and how rt makes them. A program is target/bin/NAME, and the archive of a
static library target/staticlib/libNAME.a; rt proves and builds them in the folder of their crate, and what it leaves there is copied."""

import contextlib
import os
import shutil
import subprocess
import sys
import time

from sources import newer_source

ROOT = os.path.dirname(os.path.dirname(os.path.abspath(__file__)))
RUNNING = b"rt: running out/"  # said by rt run once the program is proved and built, before it runs it


def program(name):
    return os.path.join(ROOT, "target", "bin", name)


def archive(name):
    return os.path.join(ROOT, "target", "staticlib", "lib%s.a" % name)


def folder(name):
    return os.path.join(ROOT, "crates", name)


def is_program(name):
    return os.path.exists(os.path.join(folder(name), "src", "main.rt"))


def place(name):
    """Where it is put."""
    return program(name) if is_program(name) else archive(name)


def left(name):
    """Where rt leaves it."""
    return os.path.join(folder(name), "out", name if is_program(name) else "lib%s.a" % name)


def command(name):
    """What makes it, for messages."""
    return "tools/make " + name


def is_as_new(name):
    """Whether it is there, and no source is newer."""
    return os.path.exists(place(name)) and newer_source(ROOT, name, place(name)) is None


def run(name):
    """Has rt build a program, and answers whether it did. rt runs it then: on no input, and nothing that it says is shown."""
    rt = subprocess.Popen(["rt", "run"], cwd=folder(name), stdin=subprocess.DEVNULL, stdout=subprocess.DEVNULL, stderr=subprocess.PIPE)
    is_built = False
    for line in rt.stderr:
        is_built = is_built or line.startswith(RUNNING)
        if not is_built:
            sys.stderr.buffer.write(line)
            sys.stderr.flush()
    rt.wait()
    return is_built


def build(name):
    """Has rt build the archive of a static library, and answers whether it did."""
    made = subprocess.run(["rt", "lib"], cwd=folder(name), stdin=subprocess.DEVNULL, stdout=sys.stderr, check=False)
    return made.returncode == 0


def put(name, when):
    """Copies what rt left to its place, as made at a time in nanoseconds."""
    path = place(name)
    os.makedirs(os.path.dirname(path), exist_ok=True)
    shutil.copy(left(name), path + ".new")
    os.utime(path + ".new", ns=(when, when))
    os.replace(path + ".new", path)


def make(name):
    """Has rt prove and build it, and answers whether it did. What rt says goes to standard error."""
    began = time.time_ns()
    with contextlib.suppress(OSError):
        if (run if is_program(name) else build)(name):
            # As of the beginning: a source that changes meanwhile is to be newer.
            put(name, began)
            return True
    return False


def take(name):
    """Copies a program that rt ci left, and answers whether there was one."""
    if not is_program(name) or not os.path.exists(left(name)):
        return False
    put(name, os.stat(left(name)).st_mtime_ns)
    return True

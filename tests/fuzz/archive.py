"""The archive that C programs link, and C programs linked with it."""

import os
import shutil
import subprocess
import sys

HERE = os.path.dirname(os.path.abspath(__file__))
ROOT = os.path.dirname(os.path.dirname(HERE))

sys.path.append(os.path.join(ROOT, "tools"))

import making

CRATE = "dotnet_c"
ARCHIVE = making.archive(CRATE)
OUT = os.path.join(ROOT, "target", "c")


def say(text):
    print("%s: %s" % (os.path.relpath(os.path.abspath(sys.argv[0]), ROOT), text), file=sys.stderr)


def fail(text):
    say(text)
    sys.exit(2)


def install(*packages):
    say("installing " + " ".join(packages))
    settings = dict(os.environ, DEBIAN_FRONTEND="noninteractive")
    for words in (["update"], ["install", "-y", "--no-install-recommends", *packages]):
        command = ["apt-get", "-qq", *words]
        if not shutil.which("apt-get") or subprocess.run(command, stdout=sys.stderr, env=settings, check=False).returncode:
            fail("cannot install " + " ".join(packages))


def make_archive(archive, anew=False):
    """Makes our archive where it is not there; anew also where it may be older than the sources."""
    if os.path.exists(archive) and not (anew and archive == ARCHIVE and shutil.which("rt")):
        return
    if archive != ARCHIVE or not shutil.which("rt"):
        fail("there is no %s: %s makes it" % (os.path.relpath(archive), making.command(CRATE)))
    if not making.is_as_new(CRATE) and not making.make(CRATE):
        fail("%s made no archive" % making.command(CRATE))


def compiled(name, archive=ARCHIVE, folder=HERE, libraries=()):
    """A program of a folder, compiled and linked: its path."""
    make_archive(archive)
    if not shutil.which("cc"):
        install("gcc", "libc6-dev")
    os.makedirs(OUT, exist_ok=True)
    program = os.path.join(OUT, name)
    source = os.path.join(folder, name + ".c")
    included = ["-I", os.path.join(ROOT, "include"), "-I", HERE]
    command = ["cc", "-O2", "-Wall", "-Wextra", *included, "-o", program, source, archive, *libraries]
    if subprocess.run(command, check=False).returncode:
        fail("%s cannot be compiled" % source)
    return program

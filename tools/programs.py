"""Tools that stand on a proved program (making.py). It is made where it is not there or older than its sources. What the tools say on
standard error, and the statuses that they exit with, are the same for all."""

import os
import re
import shutil
import signal
import subprocess
import sys
import tempfile

import making
from refusals import reason
from sources import newer_source
from streams import Unfit, absent_heaps, bundle, streams

STDIN = 0
REFUSED, UNREAD, UNMADE, FAILED, UNWRITTEN = 1, 2, 3, 4, 5  # exit statuses
STOPPED = 130  # by Ctrl-C


class Ended(Exception):
    """A tool cannot go on: its exit status, and why."""

    def __init__(self, status, why):
        super().__init__(why)
        self.status = status


def put(data):
    """Writes to standard output, at once."""
    if sys.stdout is None:
        raise Ended(UNWRITTEN, "cannot write to standard output: it is closed")
    try:
        sys.stdout.buffer.write(data)
        sys.stdout.buffer.flush()
    except BrokenPipeError:
        raise
    except OSError as error:
        raise Ended(UNWRITTEN, "cannot write to standard output: %s" % error.strerror) from error


def forget_output():
    """Drops what standard output has not taken, so that Python does not try again at the end."""
    if sys.stdout is not None:
        os.dup2(os.open(os.devnull, os.O_WRONLY), sys.stdout.fileno())


def called(path):
    return "standard input" if path == "-" else path


def started(program, data):
    """A program, which runs on an input."""
    with tempfile.TemporaryFile() as file:
        file.write(data)
        file.seek(0)
        try:
            return subprocess.Popen([program], stdin=file, stdout=subprocess.PIPE)
        except OSError as error:
            raise Ended(UNMADE, "cannot run %s: %s" % (program, error.strerror)) from error


def look_at(status):
    """Looks how a program ended."""
    if status > 0:
        raise Ended(FAILED, "the program ended with status %d" % status)
    if status < 0:
        raise Ended(FAILED, "the program was ended by the signal %s" % signal.Signals(-status).name)


def look_for_refusal(said, data, path):
    """Looks whether the program refuses the input that it read for a file."""
    refused = re.match(rb"refused=(\d+)\n", said)
    if refused:
        number = int(refused[1])
        raise Ended(REFUSED, "%s: refused, number %d: %s" % (called(path), number, reason(number, data)))


class Tool:
    """A tool of this folder, and the program that it stands on."""

    def __init__(self, name, program):
        self.name, self.making = name, making.command(program)
        self.crate, self.program = program, making.program(program)

    def say(self, text):
        print("tools/%s: %s" % (self.name, text), file=sys.stderr)

    # The input.

    def input_of(self, path):
        """The program's input for a file, or for standard input."""
        try:
            with open(STDIN if path == "-" else path, "rb") as file:
                return self.input_in(file.read(), called(path))
        except OSError as error:
            raise Ended(UNREAD, "%s: %s" % (called(path), error.strerror)) from error
        except Unfit as why:
            raise Ended(UNREAD, "%s: %s" % (called(path), why)) from why

    def input_in(self, data, name):
        if data.startswith(b"tables="):
            return data
        made = bundle(*streams(data))
        for heap in absent_heaps(data):
            self.say("%s: there is no stream %s: it is taken as empty" % (name, heap))
        return made

    # The program.

    def run(self, data, take):
        """Has the program run on an input, makes it if need be, and answers what `take` makes of the pipe that it writes to."""
        self.make_sure()
        child = started(self.program, data)
        try:
            taken = take(child.stdout)
        except BaseException:
            child.kill()
            child.wait()
            raise
        look_at(child.wait())
        return taken

    def make_sure(self):
        """Makes the program where it is not there, or older than its sources."""
        rt, newer = shutil.which("rt"), newer_source(making.ROOT, self.crate, self.program)
        if not os.path.exists(self.program):
            if not rt:
                raise Ended(UNMADE, "there is no %s, and no rt on the path to make it (%s)" % (self.program, self.making))
            self.say("there is no %s yet: %s" % (self.program, self.making))
            self.make("made no program")
        elif newer and rt:
            self.say("%s is newer than %s: %s" % (newer, self.program, self.making))
            self.make("failed, and the older program is not run")
        elif newer:
            self.say("%s is newer than %s, which is run as it is: there is no rt on the path to make it anew (%s)"
                     % (newer, self.program, self.making))

    def make(self, failure):
        if not making.make(self.crate):
            raise Ended(UNMADE, "%s %s" % (self.making, failure))

    # The tool.

    def main(self, work):
        """Does the tool's work, and exits with its status."""
        try:
            sys.exit(work())
        except BrokenPipeError:  # whoever read standard output has seen enough
            forget_output()
            sys.exit(0)
        except Ended as why:
            if why.status == UNWRITTEN:
                forget_output()
            self.say(str(why))
            sys.exit(why.status)
        except KeyboardInterrupt:
            sys.exit(STOPPED)

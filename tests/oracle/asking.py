"""The oracle and other programs, asked case by case; the inputs that `generate` makes; the cases that `record` writes."""

import os
import re
import resource
import select
import subprocess
import tempfile
import time

HERE = os.path.dirname(os.path.abspath(__file__))
ORACLE = os.path.join(HERE, "..", "..", "target", "oracle", "oracle")
SECONDS = 2
MEMORY = 4 << 30
STACK = 8 << 20  # the usual limit


class Batch:
    """A running program that is asked case by case, and started anew after one that it cannot answer. Cases and answers stand after their
    lengths, 4 bytes, little-endian."""

    def __init__(self, command, prepare):
        self.command, self.prepare = command, prepare
        self.start()

    def start(self):
        self.process = subprocess.Popen(self.command, bufsize=0, stdin=subprocess.PIPE, stdout=subprocess.PIPE,
                                        stderr=subprocess.DEVNULL, preexec_fn=self.prepare)

    def end(self):
        self.process.kill()
        self.process.communicate()

    def ask(self, case, seconds=SECONDS):
        """The answer, or None where there is none within the limits of time, memory and stack; `late` then says if it was time."""
        self.deadline = time.monotonic() + seconds
        try:
            self.process.stdin.write(length(case) + case)
            return self.read(int.from_bytes(self.read(4), "little"))
        except (BrokenPipeError, EOFError, TimeoutError) as error:
            self.late = isinstance(error, TimeoutError)
            self.end()
            self.start()
            return None

    def read(self, n):
        out = self.process.stdout
        data = b""
        while len(data) < n:
            ready, _, _ = select.select([out], [], [], max(0, self.deadline - time.monotonic()))
            if not ready:
                raise TimeoutError
            more = out.read(n - len(data))
            if not more:
                raise EOFError
            data += more
        return data


class Oracle(Batch):
    def __init__(self, options):
        super().__init__([ORACLE, "--check", *options, "--batch", "/dev/stdin"], limit_memory)


def limit_memory():
    resource.setrlimit(resource.RLIMIT_AS, (MEMORY, MEMORY))
    resource.setrlimit(resource.RLIMIT_CORE, (0, 0))


def limit_stack():
    """The usual limit for all that is started from here on; the oracle makes a stack for itself. A hard limit that is lower stays."""
    _, hard = resource.getrlimit(resource.RLIMIT_STACK)
    resource.setrlimit(resource.RLIMIT_STACK, (STACK if hard == resource.RLIM_INFINITY else min(STACK, hard), hard))


def length(data):
    return len(data).to_bytes(4, "little")


def generate(count, seed):
    with tempfile.TemporaryDirectory() as folder:
        path = os.path.join(folder, "cases")
        subprocess.run([os.path.join(HERE, "generate"), count, seed, path], check=True)
        with open(path, "rb") as file:
            data = file.read()
    at = 0
    while at < len(data):
        end = at + 4 + int.from_bytes(data[at:at + 4], "little")
        yield data[at + 4:end]
        at = end


def streams(case):
    """The three streams of an input that is well formed."""
    head = re.match(rb"tables=(\d+)\nstrings=(\d+)\nblob=(\d+)\n", case)
    tables, strings, _ = (int(number) for number in head.groups())
    rest = case[head.end():]
    return rest[:tables], rest[tables:tables + strings], rest[tables + strings:]


def cases(path):
    with open(path, "rb") as file:
        data = file.read()
    at = 0
    while at < len(data):
        split = at + 8 + int.from_bytes(data[at:at + 4], "little")
        end = split + int.from_bytes(data[at + 4:at + 8], "little")
        yield data[at + 8:split], data[split:end]
        at = end

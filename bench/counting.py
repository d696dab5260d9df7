"""A program under valgrind's callgrind, which counts its instructions: the same number in every run."""

import os
import re
import shutil
import subprocess

from archive import ROOT, fail

# callgrind counts each byte that `rep stosb` or `rep movsb` handles as an instruction: memset and memcpy are to use vectors at any length.
VECTORS = "glibc.cpu.x86_rep_stosb_threshold=1000000000:glibc.cpu.x86_rep_movsb_threshold=1000000000"


class Run:
    """A program under callgrind, which counts what is done inside some functions and writes a file after each time. Its arguments are
    paths, or numbers. After so many seconds, if they are given, it is ended, and `over` says so."""

    def __init__(self, path, collected, dumped_after, command, given, seconds=None):
        self.path, self.over = path, False
        counted = ["--collect-atstart=no", "--toggle-collect=" + collected, *("--dump-after=" + function for function in dumped_after)]
        valgrind = [shutil.which("valgrind"), "-q", "--tool=callgrind", "--callgrind-out-file=" + path, *counted]
        # Nothing else in the environment, and paths from the root of the repository: their lengths move the stack, and so the counts.
        words = [word if word.isdigit() else os.path.relpath(word, ROOT) for word in command]
        try:
            run = subprocess.run([*valgrind, *words], input=given, stdout=subprocess.PIPE, stderr=subprocess.PIPE, cwd=ROOT,
                                 env={"GLIBC_TUNABLES": VECTORS}, check=False, timeout=seconds)
        except subprocess.TimeoutExpired:
            self.over = True
            return
        self.status, self.output, self.errors = run.returncode, run.stdout, run.stderr.decode(errors="replace").strip()

    def file(self, turn):
        return "%s.%d" % (self.path, turn + 1)

    def cost(self, turn):
        if not os.path.exists(self.file(turn)):
            fail("callgrind has counted nothing: there is no " + os.path.relpath(self.file(turn)))
        with open(self.file(turn)) as file:
            return int(re.search(r"^totals: (\d+)", file.read(), re.MULTILINE).group(1))

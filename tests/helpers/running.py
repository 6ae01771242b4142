"""The built program, its runs, and the count of those that answered as they must."""
import os
import subprocess
import sys
from collections import namedtuple
from concurrent.futures import ThreadPoolExecutor
from pathlib import Path

ROOT = Path(__file__).resolve().parent.parent.parent
PROGRAM = ROOT / "crates/chtab/out/chtab"

# A run that takes longer than so many seconds is stopped, and has failed: it hangs, whatever else the machine does.
SECONDS = 600

# What a run wrote to standard output and to standard error, and the status that it ended with.
Answer = namedtuple("Answer", "status out err")


def build():
    """Builds the program where that is needed, or ends this script."""
    if subprocess.run([ROOT / "chtab", "--help"], stdout=subprocess.DEVNULL).returncode:
        print("the program could not be built\n0 passed, 1 failed")
        sys.exit(1)


def run(words, folder, environment=None, command=(PROGRAM,), requests=None):
    """The answer of the program on these words, run in this folder. Requests are bytes, which come through a pipe to standard input, or a
    file that is open for reading; where there are none it is empty."""
    given = {"input": requests} if isinstance(requests, bytes) else {"stdin": subprocess.DEVNULL if requests is None else requests}
    try:
        ended = subprocess.run([*command, *words], cwd=folder, env=environment or {}, capture_output=True, timeout=SECONDS, **given)
        return Answer(ended.returncode, ended.stdout, ended.stderr)
    except subprocess.TimeoutExpired:
        return Answer("stopped", b"", b"")


def agrees(answer, wanted):
    """Whether the answer is this one, where a stream that is None may have any text."""
    return all(one == other for one, other in zip(answer, wanted) if other is not None)


def with_files(words, files):
    """The words of a run over these files, each named by what it is to the program, in the order in which they are read. That of requests is
    no word: it comes to standard input."""
    options = {"saved": "--saved", "order": "--like"}
    named = [word for which, option in options.items() if which in files for word in (option, files[which])]
    return [*words, *named, *(file for which, file in files.items() if which not in (*options, "requests"))]


def side_by_side(call, items):
    """The values of the call at each item, in order, made by a thread for each processor."""
    with ThreadPoolExecutor(os.cpu_count()) as pool:
        return list(pool.map(call, items))


class Count:
    """Counts what passed and what failed, and tells the first failures."""

    MOST_TOLD = 20

    def __init__(self):
        self.passed = 0
        self.failed = 0

    def expect(self, holds, told):
        if holds:
            self.passed += 1
            return
        self.failed += 1
        if self.failed <= self.MOST_TOLD:
            print("failed:", told)

    def finish(self):
        print(f"{self.passed} passed, {self.failed} failed")
        sys.exit(self.failed > 0)

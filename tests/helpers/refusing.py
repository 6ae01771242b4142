"""Runs of the built program under the library that refuses chosen calls and sets the clock (`refusing.c`)."""
import struct
import subprocess
import tempfile
from collections import namedtuple
from pathlib import Path

from helpers.running import PROGRAM, ROOT, run

# What a run asked the system for: memory or threads, how many of these requests were refused, reads, writes, threads, readings of the clock.
Counts = namedtuple("Counts", "memory refused reads writes threads clock")


def compiler():
    """The compiler of the kit, which is there wherever the program can be built."""
    start = subprocess.run(["rt", "doc"], stdout=subprocess.PIPE, text=True, check=True).stdout.strip()
    return [Path(start).parent / "toolchain/bin/clang", "-fuse-ld=lld"]


class Refusing:
    """Runs of the program in a folder, under the library. What the library is to do is given by its names."""

    def __init__(self, folder):
        self.folder = Path(folder)
        self.library = self.folder / "refusing.so"
        subprocess.run([*compiler(), "-shared", "-fPIC", "-O2", "-nostdlib", "-o", self.library, ROOT / "tests/helpers/refusing.c"],
                       check=True)

    def run(self, words, command=(PROGRAM,), requests=b"", call=run, **settings):
        """The answer and the counts of a run, which is made by `call`. Requests come to standard input."""
        with tempfile.NamedTemporaryFile(dir=self.folder) as counts:
            counts.truncate(8 * len(Counts._fields))
            environment = {"LD_PRELOAD": str(self.library), "REFUSE_COUNTS": counts.name}
            environment |= {name: str(value) for name, value in settings.items()}
            answer = call(words, self.folder, environment, command, requests)
            return answer, Counts(*struct.unpack("=6Q", counts.read()))

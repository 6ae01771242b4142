"""What `crates.txt` says of the crates, and how the kit's compiler finds a crate and the libraries on which it is built.

The scripts beside this file use it.
"""
import contextlib
import functools
import hashlib
import os
import re
import signal
import subprocess
import sys
import time
from pathlib import Path

ROOT = Path(__file__).resolve().parent.parent
CRATES = ROOT / "crates"
# The program, and the crate of the library for C.
PROGRAM, LIBRARY = "chtab", "ch_c"
# The parts of a crate that a check reads.
PARTS = "src", "specs", "proofs"
TARGET = "x86_64-unknown-linux-gnu"
# So many seconds after a line of progress the next one comes, if nothing has ended before.
SILENCE = 45


def said(*command):
    return subprocess.run(command, capture_output=True, text=True, check=True).stdout.strip()


@functools.cache
def stands_on():
    """The libraries on which each crate is built, by `crates.txt`: those of the kit too."""
    lines = re.findall(r"^(\w+)[^:\n]*:(.*)$", (ROOT / "crates.txt").read_text(), re.MULTILINE)
    return {name: below.split() for name, below in lines}


def own_below(name):
    """The crates of the repository that a crate names."""
    return [each for each in stands_on()[name] if each in stands_on()]


def all_below(name):
    """These and those on which they are built, each after its own."""
    return dict.fromkeys(found for each in own_below(name) for found in (*all_below(each), each))


@functools.cache
def kit():
    """The folder of the kit, and its line."""
    return Path(said("rt", "doc")).parent, said("rt", "version")


def files_of(name):
    return sorted(path for part in PARTS for path in (CRATES / name / part).rglob("*") if path.is_file())


def sums(ends):
    """A sum of all that each library, and each of these ends of the chain, is made of, as the files stand now."""
    found = {}
    for name in dict.fromkeys(each for end in ends for each in (*all_below(end), end)):
        made = hashlib.sha256(repr((kit()[1], stands_on()[name], [found[each] for each in own_below(name)])).encode())
        for path in files_of(name):
            made.update(repr((str(path.relative_to(CRATES)), path.read_bytes())).encode())
        found[name] = made.hexdigest()
    return found


def finding(names, library_of):
    """The compiler's arguments for these libraries and all below them. `library_of` says where the one of a crate is."""
    folder, _ = kit()
    arguments = []
    for each in ("std", *names):
        arguments += ["--extern", f"{each}={library_of(each) if each in stands_on() else folder / 'rlibs' / f'{each}.rlib'}"]
    below = dict.fromkeys(found for each in names if each in stands_on() for found in (*all_below(each), each))
    for each in (folder / "rlibs", *(library_of(each).parent for each in below)):
        arguments += ["-L", f"dependency={each}"]
    return [*arguments, "--antt-project", folder / "rattle" / "logic" / "antt-project.json", "--logic-built", folder / "logic_built"]


def to_object(file):
    """The compiler's arguments for the object file of a program."""
    return ["--toolchain", kit()[0] / "toolchain", "--backend", "llvm", "-o", file]


def to_archive(file):
    """The compiler's arguments for a static library."""
    return ["--crate-type", "staticlib", "--toolchain", kit()[0] / "toolchain", "-o", file]


def compiler():
    return kit()[0] / "bin" / "rattle"


def linked(object_file, program):
    """What linking an object file to a program ended with."""
    folder, _ = kit()
    arguments = ["--target", TARGET, "--toolchain", folder / "toolchain", "-o", program, object_file]
    command = [folder / "bin" / "rattle-link", *arguments, folder / "c" / "libos_c.a", folder / "c" / "liblibc_c.a"]
    return subprocess.run(command, stdout=subprocess.PIPE, stderr=subprocess.STDOUT, text=True, errors="replace")


def say(text):
    print(f"chtab: {text}", file=sys.stderr, flush=True)


def refuse(lines):
    """Prints the end of what was printed, and ends."""
    say("\n".join(["not built:", *lines[-20:]]))
    sys.exit(70)


def end_by_signals():
    """Signals end a script as `sys.exit` does, so that it ends what it has started."""
    for number in signal.SIGHUP, signal.SIGINT, signal.SIGTERM:
        signal.signal(number, lambda number, _: sys.exit(128 + number))


class Underway:
    """The processes that are underway, each for a crate and with a log, and lines of progress."""

    def __init__(self):
        self.running = {}
        self.begun = self.told = time.monotonic()

    def tell(self, text):
        """Prints a line of progress."""
        self.told = time.monotonic()
        others = f"; underway: {' '.join(self.running)}" if self.running else ""
        say(f"{text} after {self.told - self.begun:.0f} seconds{others}")

    def launch(self, name, command, folder, log):
        """Starts a process for a crate, in a group of its own."""
        with log.open("w") as printed:
            self.running[name] = subprocess.Popen(command, cwd=folder, stdin=subprocess.DEVNULL, stdout=printed, stderr=subprocess.STDOUT, start_new_session=True)

    def wait(self, left):
        """Waits until one has ended, and gives its crate and its status."""
        while True:
            for name, process in self.running.items():
                if process.poll() is not None:
                    return name, self.running.pop(name).returncode
            if time.monotonic() - self.told > SILENCE:
                self.tell(f"{left} left")
            time.sleep(0.1)

    def stop(self):
        """Ends all, with the processes that they have started."""
        for process in self.running.values():
            if process.poll() is None:
                with contextlib.suppress(ProcessLookupError):
                    os.killpg(process.pid, signal.SIGKILL)
                process.wait()

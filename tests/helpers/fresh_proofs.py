"""Tests packaging/prove, packaging/library and packaging/verdicts with a stand-in for the kit: crates that are refused, changed or touched, calls that
are broken off, and crates that an earlier run has proved."""
import os
import shutil
import signal
import subprocess

from helpers.running import ROOT
from helpers.waiting import PATIENCE

# Stand-ins for a kit, whose rattle proves what a file beside it does not name, and writes down what it was asked for.
KIT = {
    "bin/rt": """#!/bin/sh
kit=$(dirname "$(dirname "$(readlink -f "$0")")")
[ "$1" = doc ] && echo "$kit/START.md" || echo kit
""",
    "bin/rattle": """#!/bin/bash
kit=$(dirname "$(dirname "$(readlink -f "$0")")")
[ "$2" != --help ] || exec cat "$kit/helps"
name=$3 to=${*: -1}
echo "$name" >>"$kit/asked"
echo "words of $name"
! grep -qx "$name" "$kit/refused" || exit 1
! grep -qx "$name" "$kit/slow" || sleep "$(cat "$kit/seconds")"
! grep -qx "$name" "$kit/changed" || echo "// more" >>src/lib.rt
! grep -qx "$name" "$kit/killed" || kill -9 $$
case $to in *.o | *.a) touch "$to" ;; *) mkdir "$to" ;; esac
echo "logic=proved functions=1 crate=$name"
""",
    "bin/rattle-link": """#!/bin/sh
echo linked
while [ "$1" != -o ]; do shift; done
printf '#!/bin/sh\necho run "$@"\n' >"$2" && chmod +x "$2"
""",
}


# What links the library for C: each writes the file that it is to make, and its name beside the kit.
LINKING = """#!/bin/sh
kit=$(dirname "$(dirname "$(readlink -f "$0")")")
basename "$0" >>"$kit/linked"
[ "$1" != rcsD ] || : >"$2"
while [ "$#" -gt 1 ]; do
  [ "$1" != -o ] || : >"$2"
  shift
done
"""
CRATES = "low:", "aside:", "high: low core", "low_checks: low", "chtab: aside high", "engine: low", "ch_c staticlib: engine core"


class Checkout:
    """A checkout whose crates are stand-ins, and what is asked of the stand-in for the kit."""

    def __init__(self, folder, system):
        self.path, self.kit = folder / "fresh", folder / "kit"
        self.environment = {**os.environ, "PATH": f"{self.kit}/bin:{system}"}
        for head in CRATES:
            self.write(head.split()[0].strip(":"), f"// {head}\n")
        (self.path / "crates.txt").write_text("".join(f"{head}\n" for head in CRATES))
        for name in "chtab", "VERSION", "include/chtab.h", "packaging/prove", "packaging/building.py", "packaging/library", "packaging/verdicts":
            (self.path / name).parent.mkdir(exist_ok=True)
            shutil.copy(ROOT / name, self.path / name)
        for name, text in {**KIT, **dict.fromkeys(("bin/gcc", "bin/ld", "bin/ar", "bin/objcopy"), LINKING)}.items():
            (self.kit / name).parent.mkdir(parents=True, exist_ok=True)
            (self.kit / name).write_text(text)
            (self.kit / name).chmod(0o755)
        (self.kit / "helps").write_text("--statements\n")
        for name in "slow", "changed", "killed", "refused", "linked", "asked":
            self.say(name)

    def say(self, name, *words):
        """What the stand-in goes by, such as which crates are refused."""
        (self.kit / name).write_text("".join(f"{word}\n" for word in words))

    def said(self, name):
        return (self.kit / name).read_text().split()

    def write(self, crate, text, file="lib.rt"):
        """Writes a source file, and gives its path."""
        source = self.path / "crates" / crate / "src" / file
        source.parent.mkdir(parents=True, exist_ok=True)
        source.write_text(text)
        return source

    def run(self, script, *words):
        return subprocess.run([self.path / script, *words], env=self.environment, capture_output=True, text=True)

    def built(self, *refused):
        """What a call ends with, and which crates were proved for the program and for the library, where these are refused."""
        self.say("asked")
        self.say("refused", *refused)
        run = self.run("chtab", "one")
        asked = [name for name in self.said("asked") if name != "aside"]
        of_library = [name for name in asked if name in ("engine", "ch_c")]
        return run.returncode, run.stdout, [name for name in asked if name not in of_library], of_library, run.stderr


def check_first_proofs(tally, folder, system):
    """Where no crate was worked on, each library is proved once, after those below it, and again if its files or theirs have changed."""
    checkout = Checkout(folder, system)
    check_library_of_first_proofs(tally, checkout)
    verdict = checkout.path / "crates" / "high" / "out" / "verdict"
    both = (["engine", "ch_c"],)
    checkout.write("high", "// other\n")
    status, out, proved, _, err = checkout.built("high")
    tally.expect((status, out, proved) == (70, "", ["high"]) and "words of high" in err, f"a refused library: {status} {out} {proved} {err}")
    status, out, proved, _, err = checkout.built()
    tally.expect((status, out, proved) == (0, "run one\n", ["high", "chtab"]), f"what was not proved yet: {status} {out} {proved} {err}")
    tally.expect(verdict.read_text() == "logic=proved functions=1 crate=high\n", f"the verdict of a library: {verdict.read_text()}")
    tally.expect(checkout.built()[:4] == (0, "run one\n", [], []), "nothing has changed")
    source = checkout.path / "crates" / "high" / "src" / "lib.rt"
    source.touch()
    tally.expect(checkout.built()[:4] == (0, "run one\n", ["chtab"], []), f"a file was touched: {checkout.said('asked')}")
    tally.expect(verdict.stat().st_mtime >= source.stat().st_mtime, "the verdict is older than a file that was touched")
    checkout.write("low", "// changed\n")
    tally.expect(checkout.built()[:4] == (0, "run one\n", ["low", "high", "chtab"], *both), f"a library changed: {checkout.said('asked')}")
    checkout.write("chtab", "// new\n", "more.rt")
    tally.expect(checkout.built("chtab")[:4] == (70, "", ["chtab"], []), f"the program is refused: {checkout.said('asked')}")
    tally.expect(checkout.built()[:4] == (0, "run one\n", ["chtab"], []), f"the program changed: {checkout.said('asked')}")
    check_broken_off(tally, checkout)
    # A file that changes while its crate is proved, and a proof that is killed.
    checkout.say("changed", "low")
    checkout.write("low", "// and again\n")
    status, out, proved, _, err = checkout.built()
    tally.expect((status, out, proved) == (70, "", ["low"]) and "changed meanwhile" in err, f"a file that changes: {status} {out} {proved} {err}")
    checkout.say("changed")
    tally.expect(checkout.built()[:4] == (0, "run one\n", ["low", "high", "chtab"], *both), f"after a file that changed: {checkout.said('asked')}")
    checkout.say("killed", "chtab")
    checkout.write("chtab", "// other\n", "more.rt")
    status = checkout.run("packaging/prove").returncode
    tally.expect(status == 69, f"a proof that is killed: {status}")


def check_library_of_first_proofs(tally, checkout):
    """The first call makes the library for C too, after the program. Where its crate is refused, the program is there all the same."""
    made = checkout.path / "out" / "library" / "lib" / "libchtab.so.1"
    status, out, proved, of_library, err = checkout.built("ch_c")
    tally.expect((status, out, "ch_c" in of_library) == (70, "", True) and "words of ch_c" in err, f"a refused library for C: {status} {of_library} {err}")
    told = checkout.run("packaging/library")
    tally.expect((told.returncode, told.stdout, made.exists()) == (1, "", False) and "is not proved" in told.stderr, f"a library that is refused: {told}")
    status, out, _, of_library, err = checkout.built()
    tally.expect((status, out) == (0, "run one\n"), f"the program without the library: {status} {out} {err}")
    told = checkout.run("packaging/library")
    tally.expect((told.returncode, told.stdout.strip()) == (0, str(made.parent.parent)) and made.exists(), f"the library is linked: {told}")
    tally.expect(checkout.said("linked") == ["ld", "objcopy", "gcc", "ar"], f"what links the library: {checkout.said('linked')}")
    tally.expect(checkout.run("packaging/library").returncode == 0 and len(checkout.said("linked")) == 4, "a library that is there is linked again")
    (checkout.path / "include" / "chtab.h").touch()
    checkout.say("asked")
    tally.expect(checkout.run("packaging/library").returncode == 0 and len(checkout.said("linked")) == 8, "the header has changed")
    tally.expect(checkout.said("asked") == [], f"what was proved to link it again: {checkout.said('asked')}")
    checkout.write("engine", "// changed\n")
    checkout.say("asked")
    told = checkout.run("packaging/library")
    tally.expect((told.returncode, checkout.said("asked")) == (0, ["engine", "ch_c"]), f"the library alone: {told} {checkout.said('asked')}")
    tally.expect("engine is proved, 1 left after" in told.stderr, f"the progress of the library: {told.stderr}")
    (checkout.kit / "bin" / "objcopy").rename(checkout.kit / "objcopy")
    without = {**checkout.environment, "PATH": f"{checkout.kit}/bin"}
    checkout.write("engine", "// changed again\n")
    (checkout.kit / "bin" / "bash").symlink_to("/bin/bash")
    for name in "dirname", "readlink", "mktemp", "rm", "find", "flock", "basename":
        (checkout.kit / "bin" / name).symlink_to(shutil.which(name))
    told = subprocess.run([checkout.path / "packaging" / "library"], env=without, capture_output=True, text=True)
    is_told = "objcopy is not there (Debian's package binutils)" in told.stderr and told.stderr.count("\n") == 1
    tally.expect((told.returncode, is_told) == (1, True), f"a command that links is missing: {told}")
    (checkout.kit / "objcopy").rename(checkout.kit / "bin" / "objcopy")


def check_broken_off(tally, checkout):
    """A call that is ended while a proof is underway says what it waits for, leaves no process, and is taken up by the next."""
    # No other process on the machine sleeps for just so long.
    seconds = f"10000.{os.getpid()}"
    checkout.say("seconds", seconds)
    checkout.say("slow", "low")
    checkout.say("asked")
    checkout.write("low", "// once more\n")
    impatient = checkout.path / "packaging" / "building.py"
    impatient.write_text(impatient.read_text().replace("SILENCE = 45", "SILENCE = 0.5"))
    running = subprocess.Popen([checkout.path / "packaging" / "prove"], env=checkout.environment, stderr=subprocess.PIPE, text=True)
    told = [running.stderr.readline() for _ in range(2)]
    tally.expect(told[1].rstrip().endswith("; underway: low"), f"what is told of a long proof: {told}")
    running.terminate()
    left = subprocess.run(["pgrep", "-f", f"^sleep {seconds}$"], capture_output=True, text=True) if running.wait(PATIENCE) == 128 + signal.SIGTERM else None
    tally.expect(left is not None and not left.stdout, f"a call that is ended: {running.returncode} {left}")
    checkout.say("slow")
    tally.expect(checkout.built()[:4] == (0, "run one\n", ["low", "high", "chtab"], ["engine", "ch_c"]), f"after a call that was ended: {checkout.said('asked')}")


# What `rt ci` prints of crates that it proves, that it refuses, and that an earlier run has proved.
LINE = "logic=proved functions={1} sum=1"
PROVED = f"== {{0}}\nfn {{0}}::one: proved\nlogic=proved functions=9 of its libraries\n{LINE}\nrt: {{0}} proved\n"
REFUSED = "== {0}\nfn {0}::one: not proved\nrt: {0} NOT PROVED\n"
EARLIER = "rt: {0} is kept: an earlier run on this machine proved the same files\n"
KEPT = "kept: an earlier run on this machine proved the same files"


def check_verdicts_of_the_gate(tally, folder, system):
    """Of a crate that an earlier run has proved, `rt ci` prints no line of the prover. That of an earlier log holds while the files are the same."""
    (folder / "gate").mkdir()
    checkout = Checkout(folder / "gate", system)
    names = [head.split()[0].strip(":") for head in CRATES]

    def kept_after(*forms):
        """The verdict of each crate, None where there is none, after a run of `rt ci` that printed this of them."""
        log = checkout.path / "log"
        log.write_text("".join(form.format(name, 3) for name, form in zip(names, forms)))
        for name in names:
            shutil.rmtree(checkout.path / "crates" / name / "out", ignore_errors=True)
        told = checkout.run("packaging/verdicts", log)
        tally.expect((told.returncode, told.stderr) == (0, ""), f"the verdicts of {forms}: {told}")
        files = [checkout.path / "crates" / name / "out" / "verdict" for name in names]
        return [path.read_text().rstrip() if path.exists() else None for path in files], told.stdout

    line, others = LINE.format("", 3), [None] * (len(CRATES) - 3)
    found, told = kept_after(PROVED, REFUSED, EARLIER)
    tally.expect(found == [line, None, KEPT, *others], f"verdicts of a run: {found}")
    tally.expect("proved by this run: low\n" in told and "whose lines are not here: high\n" in told and "none of: aside " in told, f"what is said of them: {told}")
    found, told = kept_after(EARLIER, PROVED, PROVED)
    tally.expect(found == [line, line, line, *others], f"verdicts of two runs: {found}")
    checkout.write("low", "// changed\n")
    found, _ = kept_after(EARLIER, EARLIER, EARLIER)
    tally.expect(found == [KEPT, line, KEPT, *others], f"verdicts of files that have changed: {found}")

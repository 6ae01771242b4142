#!/usr/bin/python3
"""Tests the scripts `chtab` and `install`, Debian's package and the wheel: through links, without the command rt, what is installed below a
prefix, what the package puts into a root of its own and leaves there, and what pip puts into a new environment. All three bring the library for C.

A check that needs a missing package, or a root of its own, is named and left out. The last line is 'N passed, N failed'.
"""
import hashlib
import os
import re
import shutil
import subprocess
import sys
import sysconfig
import tempfile
import zipfile
from pathlib import Path

from helpers.fresh_proofs import check_first_proofs, check_verdicts_of_the_gate
from helpers.in_process import MADE, SHARED, make
from helpers.packages import PYTHON, missing
from helpers.rooting import a_root
from helpers.running import PROGRAM, ROOT, Count, build

FIRST = [ROOT / "examples" / "first.gr", ROOT / "examples" / "first.p2p"]
SAVED = ROOT / "examples" / "first.ch"
# What the library for C puts below a prefix.
OF_LIBRARY = "include/chtab.h", "lib/libchtab.so.1", "lib/libchtab.so", "lib/libchtab.a", "lib/pkgconfig/chtab.pc"
FIRST_TEXT = "d 1 3 9\nd 3 1 -\n"
VERSION = (ROOT / "VERSION").read_text()
# The folders of commands without those that have rt.
SYSTEM = ":".join(path for path in os.environ["PATH"].split(":") if not (Path(path) / "rt").exists())


def said(command, folder, path=None, **more):
    """Status, output and errors of a command, run in this folder."""
    environment = os.environ | ({"PATH": path} if path else {}) | more
    done = subprocess.run([str(word) for word in command], cwd=folder, env=environment, capture_output=True, text=True)
    return done.returncode, done.stdout, done.stderr


def check_links(tally, folder):
    """The program and its script, called by links from another folder."""
    (folder / "linked").symlink_to(ROOT / "chtab")
    (folder / "twice").symlink_to("linked")
    for name in "linked", "twice":
        tally.expect(said([f"./{name}", "dist", *FIRST], folder) == (0, FIRST_TEXT, ""), f"by the link {name}")
    tally.expect(said(["./linked", "--version"], folder) == (0, VERSION, ""), "the version, by a link")


def check_without_rt(tally, folder):
    """A checkout whose program is a script, where no rt is on the path: its sources are older, newer, and it is gone."""
    checkout = folder / "checkout"
    program = checkout / "crates" / "chtab" / "out" / "chtab"
    program.parent.mkdir(parents=True)
    program.write_text("#!/bin/sh\necho run \"$@\"\n")
    program.chmod(0o755)
    for name in "chtab", "VERSION", "crates.txt":
        shutil.copy(ROOT / name, checkout)
    os.utime(checkout / "crates.txt", (1, 1))
    run = ["checkout/chtab", "one", "two words"]
    tally.expect(said(run, folder, SYSTEM) == (0, "run one two words\n", ""), "without rt, with a program that is newer")
    os.utime(program, (0, 0))
    status, out, err = said(run, folder, SYSTEM)
    is_told = err.count("\n") == 1 and "newer" in err
    tally.expect((status, out, is_told) == (0, "run one two words\n", True), f"without rt, with newer sources: {err}")
    program.unlink()
    status, out, err = said(run, folder, SYSTEM)
    is_told = err.count("\n") == 2 and "rt" in err and str(program) in err and "Rattle kit" in err
    tally.expect((status, out, is_told) == (70, "", True), f"without rt and a program: {err}")
    tally.expect(said(["checkout/chtab", "--version"], folder, SYSTEM) == (0, VERSION, ""), "the version, without rt and a program")


# A stand-in for rt, which builds what `./chtab` asks it for, and says what a file beside the checkout has it say.
RT = """#!/bin/sh
crate=$(basename "$PWD")
mkdir -p out/rlib
[ "$1" != run ] || { printf '#!/bin/sh\\necho run "$@"\\n' >out/chtab && chmod +x out/chtab; }
. "$SAYS"
"""


def check_verdicts(tally, folder):
    """What rt says of each crate when it is built is kept beside what was built, and is as new as the last build that passed."""
    checkout, says = folder / "proved", folder / "says"
    for crate, head in ("low", "low:"), ("low_checks", "low_checks: low"), ("chtab", "chtab: low"), ("ch_c", "ch_c staticlib: low"):
        for part in "src", "specs", "proofs":
            (checkout / "crates" / crate / part).mkdir(parents=True)
        with (checkout / "crates.txt").open("a") as layers:
            layers.write(f"{head}\n")
    (checkout / "packaging").mkdir()
    for name in "chtab", "VERSION", "packaging/keep", "packaging/building.py":
        shutil.copy(ROOT / name, checkout / name)
    (checkout / "HANDLES").write_text("Handles allowed: none.\n")
    (folder / "bin").mkdir()
    (folder / "bin" / "rt").write_text(RT)
    (folder / "bin" / "rt").chmod(0o755)
    source = checkout / "crates" / "low" / "src" / "lib.rt"
    crates = "low", "ch_c", "chtab"
    kept = [checkout / "crates" / crate / "out" / "verdict" for crate in crates]

    def built(saying):
        says.write_text(saying)
        source.touch()
        return said(["proved/chtab", "one"], folder, f"{folder}/bin:{SYSTEM}", SAYS=str(says), CHTAB_KEEP="1")

    said_all = 'echo "logic=proved functions=1"; echo "logic=proved functions=2 crate=$crate"; echo more\n'
    status, out, err = built(said_all)
    tally.expect((status, out) == (0, "run one\n"), f"built by a stand-in for rt: {status} {out} {err}")
    tally.expect("\nchtab: no library for C: " in err, f"a library that can't be linked is not told: {err}")
    for saying in said_all, "exit 0\n":
        status, _, err = built(saying)
        lines = [path.read_text() if path.exists() else "" for path in kept]
        tally.expect(status == 0 and lines == [f"logic=proved functions=2 crate={crate}\n" for crate in crates], f"verdicts: {lines} {err}")
        is_new = all(path.exists() and path.stat().st_mtime >= source.stat().st_mtime for path in kept)
        tally.expect(is_new, f"verdicts older than what was built, of {saying}")
    status, _, err = built("echo no proof; exit 1\n")
    tally.expect(status == 70 and "no proof" in err, f"refused by a stand-in for rt: {status} {err}")
    tally.expect(kept[0].stat().st_mtime < source.stat().st_mtime, "a refused crate has a verdict of its new source")
    tally.expect("no library for C" not in err, f"a library is linked after a crate was refused: {err}")


def check_lines_of_the_kit(tally):
    """The kit's line is one in all places. Another kit will do that has the same logic, because the proofs rest on that alone."""
    line = VERSION.splitlines()[1]
    for page in "README.md", "docs/PROVED.md":
        tally.expect(f"`{line}`" in (ROOT / page).read_text(), f"{page} does not name {line}")
    status, found, _ = said(["rt", "version"], ROOT)
    tally.expect(status == 0 and found.split()[1:] == line.split()[1:], f"VERSION names another logic than `rt version`: {line}, {found}")


def options_of(words, folder, path=None):
    """The options that a help text has."""
    text = said([*words, "--help"], folder, path)[1]
    return set(re.findall(r"^ +(?:-h, )?(--[a-z]+(?:-[a-z]+)*)", text, re.MULTILINE))


def completed(prefix, *words):
    """What is offered for the last of these words."""
    script = f'source "{prefix}/share/bash-completion/completions/chtab"; COMP_WORDS=("$@"); COMP_CWORD=$(($# - 1)); _chtab; echo "${{COMPREPLY[@]}}"'
    return set(said(["bash", "-c", script, "bash", *words], prefix)[1].split())


def check_installed(tally, prefix, folder):
    """The program, its tools, manual pages and completion, below a prefix."""
    path = f"{prefix}/bin:{SYSTEM}"
    tally.expect(said(["chtab", "dist", *FIRST], folder, path) == (0, FIRST_TEXT, ""), "the installed program")
    tally.expect(said(["chtab", "--version"], folder, path) == (0, VERSION, ""), "the version that is installed")
    program = prefix / "bin" / "chtab"
    tools = set(re.findall(r"^  ([a-z]+)  ", said([program, "--help"], folder)[1], re.MULTILINE)) - {"help"}
    tally.expect(completed(prefix, program, "") == tools | {"--help", "--version"}, f"completion of tools: {tools}")
    for name in re.findall(r"/usr/share/doc/chtab/([\w@.-]*\w)", (ROOT / "docs" / "OPERATING.md").read_text()):
        tally.expect((prefix / "share/doc/chtab" / name).is_file(), f"OPERATING.md names {name}, which is not installed")
    for tool in sorted(tools):
        options = options_of([program, tool], folder)
        tally.expect(len(options) > 1 and completed(prefix, program, tool, "--") == options, f"completion of {tool}: {options}")
        check_page(tally, prefix, f"chtab-{tool}", options)
    tally.expect(completed(prefix, program, "dist", "--sa") == {"--saved"}, "completion of --sa")
    for tool in sorted((ROOT / "tools").glob("*.py")):
        name = "chtab-" + tool.stem.replace("_", "-")
        status, out, err = said([name, "--help"], folder, path)
        tally.expect((status, err) == (0, "") and "usage:" in out.lower(), f"{name} --help: {status} {err}")
        check_page(tally, prefix, name, {f"\\fB{option}\\fR" for option in options_of([name], folder, path)} | {".SH SYNOPSIS"})
        tally.expect(out.startswith(f"Usage: {name} "), f"{name} is told by another name: {out[:60]}")
    for name in "chtab-page.service", "chtab-page@.service":
        unit = prefix / "share" / "doc" / "chtab" / name
        tally.expect(f"\nExecStart={prefix}/bin/chtab-page " in unit.read_text(), f"{name} for systemd names another command than the installed one")
    tally.expect((prefix / "share" / "doc" / "chtab" / "nginx.conf").is_file(), "the site for nginx is not installed")
    check_page(tally, prefix, "chtab", tools | {"--help", "--version"})
    check_found(tally, prefix, folder)


def check_page(tally, prefix, name, words):
    """A manual page that names these words, where there is the command that makes them."""
    if shutil.which("help2man"):
        page = prefix / "share" / "man" / "man1" / f"{name}.1"
        text = page.read_text().replace("\\-", "-") if page.exists() else ""
        tally.expect(text and all(word in text for word in words), f"the manual page of {name} lacks some of {sorted(words)}")
        others = {path.stem for path in page.parent.glob("*.1")} - {name}
        tally.expect(all(f"\\fB{other}\\fR(1)" in text for other in others), f"the manual page of {name} names not all others of {sorted(others)}")
        for document in re.findall(r"/[^()\n]*\bdocs/\w+\.md", re.sub(r"\\[/,]|\\f[A-Z]", "", text)):
            tally.expect(Path(document).is_file(), f"the manual page of {name} names {document}, which is not installed")
        tally.expect("usage:" not in text.lower(), f"the manual page of {name} has a mangled usage")
        for heading in "EXAMPLES", '"EXIT STATUS"', "FILES", '"SEE ALSO"':
            tally.expect(text.count(f"\n.SH {heading}\n") == 1, f"the manual page of {name} has not one section {heading}")


def check_found(tally, prefix, folder):
    """The program is found where its folder is not on the path: by a tool, and by the package from Python."""
    (folder / "one.ss").write_text("p aux sp ss 1\ns 1\n")
    words = [prefix / "bin" / "chtab-blocks", FIRST[0], "one.ss", "one.ss", "one.csv"]
    found = said(words, folder, SYSTEM)
    tally.expect(found == (0, "1 by 1 cells in one.csv, from 1 blocks\n", ""), f"a tool whose folder is not on the path: {found}")
    text = "from chtab._engine.program import program_of; print(program_of())"
    found = said([sys.executable, "-c", text], folder, SYSTEM, PYTHONPATH=str(prefix / "lib" / "chtab" / "python"))
    tally.expect(found == (0, f"{prefix}/lib/chtab/chtab\n", ""), f"the program beside the package: {found}")
    found = said([prefix / "bin" / "chtab", "dist", "none.gr", "none.p2p"], folder)
    tally.expect(found == (3, "", "chtab: cannot read graph\n"), f"files that are not there: {found}")


def by_library(graph, saved):
    """Lines of Python that ask the library for C beside the program that is found."""
    return f"import chtab; n = chtab.Network.open('{graph}', saved='{saved}', library=True); print(n.distances([(1, 3)])[0], n.routes([(1, 3)])[0].nodes)"


def check_library(tally, prefix, folder):
    """The library for C, below a prefix: the files that were made, and the package finds it there."""
    for name in OF_LIBRARY:
        tally.expect((prefix / name).is_file() and (prefix / name).read_bytes() == (MADE / name).read_bytes(), f"{name} is not the one that was made")
    if shutil.which("pkg-config"):
        found = said(["pkg-config", "--variable", "libdir", "chtab"], folder, PKG_CONFIG_PATH=str(prefix / "lib" / "pkgconfig"))
        tally.expect(found[0] == 0 and Path(found[1].strip().replace("\\", "")).resolve() == prefix / "lib", f"pkg-config: {found}")
    if not missing("python3-numpy"):
        found = said([PYTHON, "-c", by_library(FIRST[0], SAVED)], folder, SYSTEM, PYTHONPATH=str(prefix / "lib" / "chtab" / "python"))
        tally.expect(found == (0, "9 [1, 2, 3]\n", ""), f"the library beside the program: {found}")


def check_install(tally, folder):
    prefix = folder / "a prefix"
    status, out, err = said([ROOT / "install", prefix], folder)
    tally.expect((status, out) == (0, "") and "install: chtab" in err, f"install: {status} {out} {err}")
    check_installed(tally, prefix, folder)
    check_library(tally, prefix, folder)
    said([ROOT / "install", "--without-library", prefix], folder)
    left = [name for name in OF_LIBRARY if (prefix / name).exists()]
    tally.expect((prefix / "bin" / "chtab").exists() and not left, f"left of the library where it is left out: {left}")
    said([ROOT / "install", "--remove", prefix], folder)
    tally.expect(not prefix.exists(), f"left after removal: {list(prefix.glob('**/*'))}")
    (prefix / "bin").mkdir(parents=True)
    for _ in range(2):
        said([ROOT / "install", prefix], folder)
    said([ROOT / "install", "--remove", prefix], folder)
    left = [path.relative_to(prefix) for path in prefix.glob("**/*")]
    tally.expect(left == [Path("bin")], f"left after removal, where bin was there before: {left}")
    said([ROOT / "install", "/usr"], folder, DESTDIR=str(folder / "stage"))
    tally.expect((folder / "stage" / "usr" / "lib" / "chtab" / "program").exists(), "DESTDIR is put before the prefix")
    staged = [path for path in (folder / "stage" / "usr" / "share").glob("**/*.1") if str(folder) in path.read_text()]
    tally.expect(not staged, f"manual pages that name the folder of a package: {staged}")
    said([ROOT / "install", "--remove", "/usr"], folder, DESTDIR=str(folder / "stage"))
    tally.expect(not list((folder / "stage").glob("**/*")), f"left after removal: {list((folder / 'stage').glob('**/*'))}")
    for words in ["--fast"], ["one", "two"], ["--without-library", "one", "two"]:
        tally.expect(said([ROOT / "install", *words], folder)[0] == 2, f"install {words} is not refused")


# Debian's package.


def crates_of_the_package():
    """The crates that the program and the library are made of: their own and all on which these stand."""
    below = {name: words.split() for name, words in re.findall(r"^(\w+).*?:(.*)$", (ROOT / "crates.txt").read_text(), re.MULTILINE)}
    found, waiting = set(), ["chtab", "ch_c"]
    while waiting:
        name = waiting.pop()
        if name in below and name not in found:
            found.add(name)
            waiting += below[name]
    return found


def check_description(tally, package):
    """What the package says of itself, and the lines of verdict that it has."""
    fields = dict(re.findall(r"^ ?([A-Z][\w-]+): (.*)$", said(["dpkg-deb", "--field", package], package.parent)[1], re.MULTILINE))
    version = VERSION.split()[1]
    tally.expect((fields["Package"], fields["Version"]) == ("chtab", version), f"the package is {fields}")
    tally.expect(package.name == f"chtab_{version}_{fields['Architecture']}.deb", f"the package's file is {package.name}")
    needed = {name for name in re.findall(r"[\w-]+(?= |,|$)", fields["Depends"] + "," + fields["Recommends"]) if "-" in name or name == "python3"}
    tally.expect({"python3", "python3-numpy", "python3-shapely", "libjs-leaflet"} <= needed, f"the package depends on {needed}")
    known = said(["apt-cache", "show", "--no-all-versions", *sorted(needed)], package.parent)
    tally.expect(known[0] == 0, f"a name of these is not Debian's: {sorted(needed)}")
    listed = said(["dpkg-deb", "--contents", package], package.parent)[1].splitlines()
    strange = [line for line in listed if " root/root " not in line or re.match(r".{5}w|.{8}w", line) and not line.startswith("l")]
    tally.expect(listed and not strange, f"files of others in the package, or that others may write: {strange}")
    text = subprocess.run(f'dpkg-deb --fsys-tarfile "{package}" | tar -xO ./usr/share/doc/chtab/verdicts', shell=True, capture_output=True, text=True).stdout
    proved = re.findall(r"^(\w+): (?:logic=proved functions=\d+|kept:) ", text, re.MULTILINE)
    tally.expect(sorted(proved) == sorted(crates_of_the_package()), f"the package has verdicts of {proved}")
    for file in PROGRAM, SHARED:
        tally.expect(hashlib.sha256(file.read_bytes()).hexdigest() in text, f"the package names another {file.name} than the one that was made")


def check_in_root(tally, root, package):
    """The package is installed into a root of its own, runs there for a user without rights, and goes without a rest."""
    for file in *FIRST, SAVED:
        root.put(file, f"first/{file.name}")
    root.put(package, "first/chtab.deb")
    first = [f"/first/{file.name}" for file in FIRST]
    before = root.changes()
    for _ in range(2):
        status, _, err = root.run(["dpkg", "--install", "/first/chtab.deb"])
        tally.expect(status == 0, f"dpkg --install: {err}")
    tally.expect(root.run(["chtab", "dist", *first], "nobody") == (0, FIRST_TEXT, ""), "the program of the package")
    tally.expect(root.run(["chtab", "--version"], "nobody") == (0, VERSION, ""), "the version of the package")
    listed = root.run(["dpkg", "--listfiles", "chtab"])[1].splitlines()
    commands = [Path(path).name for path in listed if path.startswith("/usr/bin/")]
    tally.expect(len(commands) == 1 + len(list((ROOT / "tools").glob("*.py"))), f"the package has the commands {commands}")
    for name in commands:
        tally.expect(f"/usr/share/man/man1/{name}.1.gz" in listed, f"the package has no manual page of {name}")
        for user in "nobody", "root":
            status, out, err = root.run([name, "--help"], user)
            named = set(re.findall(r"/usr/share/doc/\S+\.md", out))
            tally.expect((status, err) == (0, "") and named <= set(listed), f"{name} --help of {user}: {status} {err} {named}")
    for path in "share/bash-completion/completions/chtab", "share/doc/chtab/copyright", "share/doc/chtab/chtab-page.service", "share/doc/chtab/chtab-page@.service", "share/doc/chtab/nginx.conf", "lib/python3/dist-packages/chtab/py.typed", *OF_LIBRARY:
        tally.expect(f"/usr/{path}" in listed, f"the package has no /usr/{path}")
    text = f"import chtab; n = chtab.Network.open('{first[0]}'); print(n.distances([(1, 3)])[0], chtab.__file__)"
    found = root.run(["/usr/bin/python3", "-c", text], "nobody")
    tally.expect(found == (0, "9 /usr/lib/python3/dist-packages/chtab/__init__.py\n", ""), f"from Python: {found}")
    found = root.run(["/usr/bin/python3", "-c", by_library(first[0], f"/first/{SAVED.name}")], "nobody")
    tally.expect(found == (0, "9 [1, 2, 3]\n", ""), f"by the library of the package: {found}")
    text = "from chtab._engine.program import program_of; print(program_of())"
    found = root.run(["env", "PATH=/nowhere", "/usr/bin/python3", "-c", text], "nobody")
    tally.expect(found == (0, "/usr/lib/chtab/chtab\n", ""), f"the program, where its folder is not on the path: {found}")
    tally.expect(root.run(["dpkg", "--verify", "chtab"]) == (0, "", ""), "the files of the package are as they were made")
    status, _, err = root.run(["dpkg", "--purge", "chtab"])
    left = root.changes()
    tally.expect((status, left) == (0, before), f"left after the package was removed: {sorted(set(left) ^ set(before))} {err}")


def check_package_without_library(tally, folder):
    """Where the library can't be made there is no package, and a line says so. On request there is one without the library."""
    checkout, stub = checkout_of(folder, "refused", True, False), folder / "stub"
    shutil.copy(ROOT / "install", checkout)
    stub.mkdir()
    (stub / "rt").write_text("#!/bin/sh\nexit 1\n")
    (stub / "rt").chmod(0o755)
    (checkout / "crates.txt").write_text("ch_c staticlib:\n")
    for part in "src", "specs", "proofs":
        (checkout / "crates" / "ch_c" / part).mkdir(parents=True)
    (checkout / "HANDLES").write_text("Handles allowed: none.\n")
    (checkout / "crates" / "chtab" / "out" / "chtab").touch()
    status, out, err = said([checkout / "packaging" / "deb", checkout], folder, f"{stub}:{SYSTEM}")
    told = [line for line in err.splitlines() if line.startswith("deb: ")]
    wanted = ["deb: no package: the library for C can't be made; --without-library leaves it out"]
    tally.expect((status, out, told, list(checkout.glob("*.deb"))) == (3, "", wanted, []), f"a package whose library can't be made: {status} {out} {err}")
    (folder / "without").mkdir()
    status, out, err = said([ROOT / "packaging" / "deb", "--without-library", folder / "without"], folder)
    print("".join(f"{line}\n" for line in err.splitlines() if "rt check has to say" in line), end="", flush=True)
    listed = said(["dpkg-deb", "--contents", out.strip()], folder)[1]
    tally.expect(status == 0 and "usr/lib/chtab/program" in listed and "libchtab" not in listed, f"a package without the library: {status} {out} {err}")


def check_package(tally, folder):
    """The package is made, and tried in a root of its own where that may be done."""
    for words in ["--fast"], ["one", "two"], ["--without-library", "one", "two"], ["one", "--without-library"]:
        tally.expect(said([ROOT / "packaging" / "deb", *words], folder)[0] == 2, f"packaging/deb {words} is not refused")
    lacking = [name for name in ("dpkg-deb", "rt") if not shutil.which(name)] + missing("help2man", "python3-numpy")
    if lacking:
        print(f"left out: Debian's package needs {', '.join(lacking)}")
        return
    check_package_without_library(tally, folder)
    status, out, err = said([ROOT / "packaging" / "deb", "none"], folder)
    tally.expect((status, out) == (1, "") and "none" in err, f"packaging/deb into no folder: {status} {out} {err}")
    status, out, err = said([ROOT / "packaging" / "deb", folder], folder)
    tally.expect(status == 0 and Path(out.strip()).is_file(), f"packaging/deb: {status} {out} {err}")
    if status == 0:
        package = Path(out.strip())
        check_description(tally, package)
        (folder / "layers").mkdir()
        with a_root(folder / "layers") as root:
            if root:
                check_in_root(tally, root, package)
            else:
                print("left out: installing Debian's package needs root, unshare, nsenter and overlays")


# The wheel.


def checkout_of(folder, name, has_program, has_library):
    """A checkout that has the program and the library or hasn't, and that an earlier build of a wheel has used."""
    checkout = folder / name
    for part in "python", "packaging", "include":
        shutil.copytree(ROOT / part, checkout / part, ignore=shutil.ignore_patterns("build", "*.egg-info", "__pycache__"))
    for part in "VERSION", "chtab", "crates.txt":
        shutil.copy(ROOT / part, checkout)
    stale = checkout / "python" / "build" / "lib" / "chtab" / "bin" / "program"
    stale.parent.mkdir(parents=True)
    stale.write_text("an older program")
    (checkout / "crates" / "chtab" / "out").mkdir(parents=True)
    if has_program:
        shutil.copy(PROGRAM, checkout / "crates" / "chtab" / "out")
    if has_library:
        # Copied files are as new as the copy, so that the library is newer than the header.
        shutil.copytree(MADE, checkout / "out" / "library", copy_function=shutil.copy)
    return checkout


def wheel_of(checkout, *words):
    """The wheel that pip makes of a checkout where no rt is on the path, None where it makes none; and what was said."""
    pip = [PYTHON, "-m", "pip", "wheel", "--no-index", "--no-deps", "--no-input", "--disable-pip-version-check", "--wheel-dir", checkout]
    done = said([*pip, *words, checkout / "python"], checkout, SYSTEM)
    return next(checkout.glob("*.whl"), None), done


def check_parts_of_a_wheel(tally, folder):
    """A wheel that would lack the program or the library is not made, in one line that says what is missing, unless that is asked for."""
    leave_out = "--config-settings=--without-library=yes"
    for name, has_program, missed in ("unbuilt", False, "the proved program"), ("unlinked", True, "the library for C"):
        checkout = checkout_of(folder, name, has_program, False)
        wheel, (status, out, err) = wheel_of(checkout)
        lines = [line for line in err.splitlines() if "no wheel: " in line]
        is_told = len(lines) == 1 and f"no wheel: {missed} is not there" in lines[0] and leave_out.split("=", 1)[1] in lines[0]
        tally.expect((wheel, status, is_told) == (None, 1, True), f"a wheel of a checkout without {missed}: {wheel} {status} {err}")
        wheel, done = wheel_of(checkout, leave_out)
        names = zipfile.ZipFile(wheel).namelist() if wheel else []
        tally.expect(wheel and wheel.name.endswith("-py3-none-any.whl") != has_program, f"a wheel without {missed}: {wheel} {done}")
        found = [path for path in names if "/bin/" in path or "/scripts/" in path]
        tally.expect(names and bool(found) == has_program and not [path for path in found if "libchtab" in path], f"what a wheel without {missed} has: {names}")


def check_wheel(tally, folder):
    """A wheel has the program where it was built. It is installed into a new environment off the path, runs there, and goes without a rest."""
    lacking = missing("python3-numpy", "python3-pip", "python3-setuptools", "python3-venv", "python3-wheel")
    if lacking:
        print(f"left out: the wheel needs {', '.join(lacking)}")
        return
    check_parts_of_a_wheel(tally, folder)
    wheel, done = wheel_of(checkout_of(folder, "built", True, True))
    platform = sysconfig.get_platform().replace("-", "_").replace(".", "_")
    tally.expect(wheel and wheel.name == f"chtab-{VERSION.split()[1]}-py3-none-{platform}.whl", f"a wheel with the program: {wheel} {done}")
    if wheel:
        tally.expect(zipfile.ZipFile(wheel).read("chtab/bin/program") == PROGRAM.read_bytes(), "the program of the wheel is not the one that was built")
        for file, name in (SHARED, "libchtab.so.1"), (MADE / "include" / "chtab.h", "chtab.h"):
            tally.expect(zipfile.ZipFile(wheel).read(f"chtab/bin/{name}") == file.read_bytes(), f"{name} of the wheel is not the one that was made")
        check_environment(tally, folder, wheel)


def check_environment(tally, folder, wheel):
    said([PYTHON, "-m", "venv", "--system-site-packages", "environment"], folder)
    bin, pip = folder / "environment" / "bin", ["-m", "pip", "--no-input", "--disable-pip-version-check"]
    before = sorted(bin.parent.glob("**/*"))
    done = said([bin / "python", *pip, "install", "--no-index", wheel], folder)
    tally.expect(done[0] == 0, f"pip install: {done}")
    elsewhere = "/usr/bin:/bin"
    tally.expect(said([bin / "chtab", "dist", *FIRST], "/", elsewhere) == (0, FIRST_TEXT, ""), "the program of the wheel")
    tally.expect(said([bin / "chtab", "--version"], "/", elsewhere) == (0, VERSION, ""), "the version of the wheel")
    found = said([bin / "chtab", "dist", "none.gr", "none.p2p"], "/", elsewhere)
    tally.expect(found == (3, "", "chtab: cannot read graph\n"), f"files that are not there: {found}")
    text = f"import chtab, chtab._engine.program; n = chtab.Network.open('{FIRST[0]}'); print(n.distances([(1, 3)])[0], chtab._engine.program.program_of())"
    found = said([bin / "python", "-c", text], "/", elsewhere)
    tally.expect(found[0] == 0 and found[1].startswith("9 ") and found[1].endswith("chtab/bin/chtab\n"), f"from Python, by the wheel: {found}")
    found = said([bin / "python", "-c", by_library(FIRST[0], SAVED)], "/", elsewhere)
    tally.expect(found == (0, "9 [1, 2, 3]\n", ""), f"by the library of the wheel: {found}")
    said([bin / "python", *pip, "uninstall", "--yes", "chtab"], folder)
    left = sorted(set(bin.parent.glob("**/*")) - set(before))
    tally.expect(not left, f"left after pip uninstall: {left}")


def main():
    build()
    make()
    tally = Count()
    with tempfile.TemporaryDirectory() as kept:
        folder = Path(kept)
        check_links(tally, folder)
        check_without_rt(tally, folder)
        check_verdicts(tally, folder)
        check_first_proofs(tally, folder, SYSTEM)
        check_verdicts_of_the_gate(tally, folder, SYSTEM)
        check_lines_of_the_kit(tally)
        check_install(tally, folder)
        check_package(tally, folder)
        check_wheel(tally, folder)
    tally.finish()


if __name__ == "__main__":
    main()

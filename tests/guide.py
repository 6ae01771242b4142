#!/usr/bin/python3
"""Runs each command of README.md, docs/GUIDE.md, docs/PYTHON.md and examples/README.md, in order, and compares what it prints with the lines
below it, and so each line of Python with `>>>` before it. A check that needs a missing package is named and left out.

The pictures of the guide are those that the commands make. The server of README.md is started as that says, and answers each line `curl` of the
pages. The last line is 'N passed, N failed'.
"""
import contextlib
import doctest
import io
import re
import shlex
import subprocess
import sys
import tempfile
from pathlib import Path

from helpers.packages import missing
from helpers.running import ROOT, Count, build

PAGES = ROOT / "README.md", ROOT / "docs" / "GUIDE.md", ROOT / "docs" / "PYTHON.md", ROOT / "examples" / "README.md"
PACKAGES = "python3-numpy", "python3-scipy", "python3-shapely", "python3-pandas"
OF_SERVER = "python3-aiohttp", "python3-numpy", "python3-scipy", "python3-shapely", "libjs-leaflet", "curl"
# The pages with requests to the server, which README.md starts.
SERVED = PAGES[0], ROOT / "docs" / "OPERATING.md", ROOT / "docs" / "SERVICE.md"
# Those of a section that imports one.
OF_SECTIONS = {"osmnx": "python3-osmnx"}
PICTURES = "routes.svg", "reach.svg", "near.svg"
# A line of progress, which comes only where other work of the machine makes a command take more than ten seconds.
PROGRESS = re.compile(r"^\w+: [\d,]+ (?:of [\d,]+ )?\w+ after \d+ s(?:, some \d+ s left)?\n", re.MULTILINE)
# What the commands find in the folder that they are run in, beside the program.
PLACES = "tools", "examples", "tests"
# The page whose lines run by themselves, without what the commands of other pages have made.
ALONE = "PYTHON.md"


def commands(text):
    """The commands of a page, each with what it prints: the lines of its block that follow."""
    found, is_shown = [], False
    for line in text.splitlines(keepends=True):
        if line.startswith("    $ "):
            found.append((line[6:].strip(), []))
            is_shown = True
        elif is_shown and line.startswith("    "):
            found[-1][1].append(line[4:])
        else:
            is_shown = False
    return [(command, "".join(lines)) for command, lines in found]


def needs_packages(command):
    """Whether a command needs more than Python's own library."""
    return command.startswith(("tools/trips.py", "tools/reach.py"))


def has_packages(section):
    """Whether the packages are there that the Python of a section imports; those that are missing are told."""
    lacking = missing(*(OF_SECTIONS[name] for name in re.findall(r">>> import (\w+)$", section, re.MULTILINE) if name in OF_SECTIONS))
    if lacking:
        print(f"left out: the Python of {section.splitlines()[0]} needs {', '.join(lacking)}")
    return not lacking


def run_python(tally, page, folder):
    """Runs the lines of Python of a page, all in one."""
    sys.path.insert(0, str(ROOT / "python"))
    text = "".join(section for section in re.split("(?m)^(?=## )", page.read_text()) if has_packages(section))
    test = doctest.DocTestParser().get_doctest(text, {}, page.name, str(page), 0)
    told = io.StringIO()
    with contextlib.chdir(folder):
        found = doctest.DocTestRunner(verbose=False).run(test, out=told.write)
    tally.expect(not found.failed, told.getvalue())


def run_command(tally, command, wanted, folder):
    done = subprocess.run(command, shell=True, cwd=folder, capture_output=True, text=True)
    printed = PROGRESS.sub("", done.stderr)
    if "| head" in command:
        # On a busy machine the reader may be gone before the last part is written.
        printed = re.sub(r"chtab: cannot write after \d+ bytes\n", "", printed)
    is_wanted = (done.returncode, printed, done.stdout) == (0, "", wanted)
    tally.expect(is_wanted, f"{command}\n  status {done.returncode}\n  wanted: {wanted}\n  came:   {done.stdout}{done.stderr}")


def requests(text):
    """The requests of a page by curl, each with the answer that follows, where `..` is any text."""
    return re.findall(r"^    (curl .*)\n((?:    (?!curl ).*\n)*)", text, re.MULTILINE)


def is_answered(answer, wanted):
    """Whether an answer is the wanted one, but for blanks."""
    pattern = ".*".join(re.escape(re.sub(r"\s", "", part)) for part in wanted.split(".."))
    return re.fullmatch(pattern or ".+", re.sub(r"\s", "", answer)) is not None


def run_server(tally, folder):
    """The server of README.md, by the files that the commands above it made, answers the requests of the pages."""
    command = re.search(r"^    (tools/page\.py .*)$", SERVED[0].read_text(), re.MULTILINE)[1]
    with subprocess.Popen([*shlex.split(command), "--port", "0"], cwd=folder, stdout=subprocess.PIPE, text=True) as server:
        address = server.stdout.readline().strip().rstrip("/")
        for page in SERVED:
            for line, wanted in requests(page.read_text()):
                options = "--silent --show-error" if wanted else "--silent --show-error --fail"
                asked = line.replace("curl ", f"curl {options} ", 1).replace("http://127.0.0.1:8080", address)
                done = subprocess.run(asked, shell=True, capture_output=True, text=True)
                is_wanted = done.returncode == 0 and is_answered(done.stdout, wanted)
                tally.expect(is_wanted, f"{page.name}: {line}\n  wanted: {wanted}\n  came:   {done.stdout}{done.stderr}")
        server.terminate()


def is_the_same(picture, folder):
    made = folder / "guide" / picture
    return made.exists() and made.read_bytes() == (ROOT / "docs" / picture).read_bytes()


def made(folder):
    """A folder in which commands run."""
    folder.mkdir()
    for name in PLACES:
        (folder / name).symlink_to(ROOT / name)
    (folder / "chtab").write_text(f'#!/bin/sh\nexec "{ROOT}/chtab" "$@"\n')
    (folder / "chtab").chmod(0o755)
    return folder


def main():
    build()
    tally = Count()
    lacking = missing(*PACKAGES)
    with tempfile.TemporaryDirectory() as kept:
        alone, together = made(Path(kept) / "alone"), made(Path(kept) / "together")
        for page in PAGES:
            folder = alone if page.name == ALONE else together
            for command, wanted in commands(page.read_text()):
                if lacking and needs_packages(command):
                    print(f"left out: {command} needs {', '.join(lacking)}")
                else:
                    run_command(tally, command, wanted, folder)
            if lacking:
                print(f"left out: the Python of {page.name} needs {', '.join(lacking)}")
            else:
                run_python(tally, page, folder)
        if absent := missing(*OF_SERVER):
            print(f"left out: the server needs {', '.join(absent)}")
        else:
            run_server(tally, together)
        for picture in PICTURES:
            tally.expect(is_the_same(picture, together), f"docs/{picture} is not what the commands make")
    tally.finish()


if __name__ == "__main__":
    main()

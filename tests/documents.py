#!/usr/bin/python3
"""Tests that the documents name what exists: links and their anchors, files, commits, the calls and clauses that carry what is proved,
the scripts of all figures, and the text of planted bugs. Tests that docs/REFERENCE.md has each option, limit, fault and status once, that
lines and sentences are short, in the help of the tools too, that what users of Python see has docstrings, that there is one version, where
code says that there is no memory, and that no file speaks of the machine that it was written on.

It only reads files, and needs no built program. The last line is 'N passed, N failed'.
"""
import ast
import functools
import re
import shutil
import subprocess
import sys
from pathlib import Path

sys.path.insert(0, str(Path(__file__).resolve().parent.parent / "packaging"))

import believe
import options
from helpers import adding, lacks, layers
from helpers.planting import pairs_of
from helpers.prose import CODE, check_prose, check_sentence, prose
from helpers.running import ROOT, Count
from helpers.statements import check_proved

PAGES = (
    ROOT / "README.md", ROOT / "CONTRIBUTING.md", ROOT / "CHANGELOG.md", *sorted((ROOT / "docs").glob("*.md")), ROOT / "examples" / "README.md",
    ROOT / "bench" / "README.md", ROOT / "packaging" / "README.md",
)
MEASUREMENTS, REFERENCE = (ROOT / "docs" / name for name in ("MEASUREMENTS.md", "REFERENCE.md"))
MOST_LINES_OF_README, MOST_WORDS_OF_ARCHITECTURE = 110, 2_600
# Pages that are longer are two pages, or say what another one says. Those that list all options and all calls may be longer.
MOST_LINES, LONGER = 300, {"REFERENCE.md": 380, "PYTHON.md": 380}
# An option that is added changes at most so many files.
MOST_FILES_OF_OPTION = 12
# A name of a file or folder with a slash; one without, of what a document is about; and the suffixes of text.
PATH = re.compile(r"[\w.-]+(?:/[\w.-]+)+/?|[\w-]+/")
FILE = re.compile(r"[\w-]+\.(?:antt|c|cpp|md|py|rs|rt|sh|toml)")
# A name of the reader's own stands for it: a word in capitals, as NAME. What the documents' commands make, what is installed, and a unit.
OF_THE_READER = re.compile(r"\b[A-Z]+(?:_[A-Z]+)*\b")
ELSEWHERE = re.compile(r"guide/|lib/chtab|.*\bout/|km/h|app\.c$")
# Words and places that no document, source or script has.
STRANGE = re.compile(r"\b[s]essions?\b|\b[i]ssues? #?\d+|(?<![\w.$}/-])/(?:home|mnt|opt|root|tmp|work)/")
DAY = re.compile(r"\b\d{1,2} (?:January|February|March|April|May|June|July|August|September|October|November|December) 20\d\d\b")


def told(path):
    return path.relative_to(ROOT)


@functools.cache
def tracked():
    """The files of the repository: those that git knows, or where there is no git all that are no products."""
    listed = subprocess.run(["git", "ls-files", "-z", "--cached", "--others", "--exclude-standard"], cwd=ROOT, capture_output=True, text=True)
    if listed.returncode == 0:
        return [ROOT / name for name in listed.stdout.split("\0") if name and (ROOT / name).is_file()]
    return [path for path in sorted(ROOT.glob("**/*")) if path.is_file() and not {"out", "__pycache__", ".git"} & set(path.parts)]


# Links and names of files.


@functools.cache
def anchors(page):
    """The anchors of a page's headings, as web pages of Markdown make them."""
    heads = re.findall(r"^#+ +(.*)", prose(page), re.MULTILINE)
    return {re.sub(r"[^\w\- ]", "", head.lower()).strip().replace(" ", "-") for head in heads}


def check_links(tally, page):
    for target in re.findall(r"\]\(([^)\s]+)\)", prose(page)):
        if not re.match(r"[a-z]+:", target):
            name, _, anchor = target.partition("#")
            path = page.parent / name if name else page
            tally.expect(path.exists() and (not anchor or anchor in anchors(path)), f"{told(page)}: the link {target} leads nowhere")


def is_there(name, page):
    """Whether a name leads to something from the page, the repository, its crates, or a folder that the page is about."""
    crates = sorted((ROOT / "crates").glob("*/"))
    bases = [page.parent, ROOT, ROOT / "crates", *crates, *(crate / "src" for crate in crates)]
    return any((base / name).exists() for base in bases)


def check_names(tally, page):
    """What stands in code and looks like a path is there; so is a file of text that is named alone, somewhere."""
    files = {path.name for path in tracked()}
    for code in CODE.findall(prose(page)):
        for word in code.split():
            word = word.removeprefix("./")
            if OF_THE_READER.search(word.removesuffix("README.md")) or ELSEWHERE.match(word):
                continue
            if PATH.fullmatch(word):
                tally.expect(is_there(word, page), f"{told(page)}: {word} is not there")
            elif FILE.fullmatch(word):
                tally.expect(word in files, f"{told(page)}: there is no file {word}")


@functools.cache
def has_history():
    """Whether git has all commits here."""
    done = subprocess.run(["git", "rev-parse", "--is-shallow-repository"], cwd=ROOT, capture_output=True, text=True)
    return done.stdout.strip() == "false"


def check_commits(tally, page):
    """The commits that a page names are of this history."""
    for commit in set(re.findall(r"\bcommit ([0-9a-f]{7,})\b", page.read_text())) if has_history() else ():
        done = subprocess.run(["git", "merge-base", "--is-ancestor", commit, "HEAD"], cwd=ROOT, capture_output=True)
        tally.expect(done.returncode == 0, f"{told(page)}: commit {commit} is not of this history")


# How pages and help read.


def check_help(tally, path):
    """The sentences of a tool's help are as those of pages: its text, and what it says of each option and argument."""
    tree = ast.parse(path.read_text())
    asked = [node for node in ast.walk(tree) if isinstance(node, ast.keyword) and node.arg == "help" and isinstance(node.value, ast.Constant)]
    texts = [ast.get_docstring(tree), *(node.value.value for node in asked)]
    tally.expect(texts[0], f"{told(path)} has no text of help")
    for block in filter(None, re.split(r"\n\n|\n  ", "\n\n".join(map(str, texts)))):
        for sentence in re.split(r"(?<=[.?!:;]) ", " ".join(block.split())):
            check_sentence(tally, path, sentence)


# What docs/REFERENCE.md has once.

FORM = ROOT / "crates" / "ch_words" / "src" / "form.rt"
FAULTS = ROOT / "crates/ch_run/specs/Fault.antt"
# The modules of commands, those of the maps and of the service among them.
COMMANDS = sorted([
    *(ROOT / "python/chtab_tools").glob("[!s]*.py"), ROOT / "python/chtab_maps/command.py", ROOT / "python/chtab_server/command.py",
])
# The constants of limits with the rows that state them, and those that no user meets.
LIMITS = (
    ("MOST_NODES", "nodes of a graph"), ("MOST_ARCS", "arcs of a graph"), ("MOST_WEIGHT", "number of nodes times the weight of any arc"),
    ("MOST_QUERIES", "queries of a file"), ("MOST_LISTED", "nodes of a list of sources or of targets"), ("MOST_LEGS", "edges of a saved hierarchy"),
    ("MOST_CELLS", "cells of a table, sources times targets"), ("MOST_WEIGHT", "weight of an edge"), ("MOST_NODES", "arcs that an edge stands for"),
    ("MOST_WEIGHT", "`--within R`"), ("MOST_LISTED", "`--count K`"),
)
INNER_LIMITS = "MOST_SUM", "MOST_PATH_ARCS", "MOST_OFFER"


def rows(heading):
    """The rows of the tables below a heading of the page, up to the next heading, as lists of cells."""
    section = re.split(r"^#+ ", REFERENCE.read_text().split(f"# {heading}\n")[1], flags=re.MULTILINE)[0]
    return [[cell.strip() for cell in line.strip("|").split(" | ")] for line in section.splitlines() if re.match(r"\|(?!-)", line)]


def expect_once(tally, what, found):
    tally.expect(len(found) == 1, f"REFERENCE.md has {len(found)} rows of {what}")


def all_in(tally, path, pattern):
    """What a file of the sources has of this form, which is something."""
    found = re.findall(pattern, path.read_text(), re.MULTILINE)
    tally.expect(found, f"documents.py finds nothing of the form {pattern} in {told(path)}")
    return found


def limits():
    """The value of each constant that is a limit."""
    values = {}
    for file in "ch_graph/src/limits.rt", "ch_work/src/limits.rt", "ch_job/src/options.rt":
        for name, value in re.findall(r"^pub const (\w+): \w+ = (.*);", (ROOT / "crates" / file).read_text(), re.MULTILINE):
            values[name] = eval(re.sub(r"limits::| as u\d+", "", value), {}, dict(values))
    return values


def shown(value):
    """The ways to write a limit."""
    power = value.bit_length() - 1
    return [str(value), f"{value:,}", *([f"2^{power}"] if value == 1 << power else [])]


def check_limits(tally):
    stated = {**{row[0]: row[1:] for row in rows("Options")}, **{row[0]: row[1:] for row in rows("Limits")}}
    values, table = limits(), (ROOT / options.TABLE).read_text()
    for name in values:
        is_known = name in INNER_LIMITS or any(name == known for known, _ in LIMITS) or re.search(rf"\bmost: {name}\b", table)
        tally.expect(is_known, f"documents.py knows no row of the limit {name}")
    for name, label in LIMITS:
        expect_once(tally, f"the limit {label}", [row for row in rows("Options") + rows("Limits") if row[0] == label])
        words = set(re.findall(r"[\d^,]+", " ".join(stated.get(label, []))))
        tally.expect(words & set(shown(values[name])), f"REFERENCE.md: {label} has not the value of {name}, {values[name]}")


def check_made(tally, root):
    """What is made of the table of options is as the table has it."""
    for file, make in options.MADE.items():
        tally.expect((root / file).read_text() == make(root), f"{file} is not as packaging/options.py writes it")


def check_options(tally):
    """Each option of the program and of the tools has one row, and the help of each number of the program has its limits."""
    check_made(tally, ROOT)
    found = options.options()
    for name in {option.name for option in found} | {"help", "version"}:
        expect_once(tally, f"the option --{name}", [row for row in rows("Options") if re.search(rf"`--{name}\b", row[0])])
    for option in found:
        is_told = not option.limits or "from {} to {}".format(*option.limits) in option.help
        tally.expect(is_told, f"the help of --{option.name} does not have its limits {option.limits}")
    tools = "".join(path.read_text() for path in COMMANDS)
    names = {name for name, more in re.findall(r'add_argument\(\s*"--([\w-]+)"(.*)', tools) if "SUPPRESS" not in more}
    tally.expect(names, "documents.py finds no options of the tools")
    for name in names:
        expect_once(tally, f"the tools' option --{name}", [row for row in rows("Options of the tools") if re.match(rf"`--{name}\b(?!-)", row[1])])
    for row in rows("Options of the tools")[1:]:
        tally.expect(row[1].strip("`").split()[0].removeprefix("--") in names, f"REFERENCE.md has the option {row[1]}, which no tool has")


def check_added(tally):
    """An option is added in a copy, by the steps of CONTRIBUTING.md: they change few files, and what is made of the table has it then."""
    try:
        copy, changed = adding.added(ROOT)
    except LookupError as fault:
        tally.expect(False, f"the steps to add an option: {fault}")
        return
    check_made(tally, copy)
    row, telling = "| `--beyond R` | `table` | 0 to 1152921504606846976 | no limit |", " | --beyond | "
    tally.expect(row in (copy / options.REFERENCE).read_text(), "an option that is added has no row in REFERENCE.md")
    tally.expect(telling in (copy / options.TELLING).read_text(), "an option that is added is not known to packaging/telling")
    tally.expect(len(changed) <= MOST_FILES_OF_OPTION, f"an option that is added changes {len(changed)} files: {changed}")
    steps = (ROOT / "CONTRIBUTING.md").read_text().split("## How do I add an option?")[1].split("\n## ")[0]
    for file in changed:
        named = str(Path(file).parent) if file.endswith(".edit") else file
        tally.expect(f"`{named}`" in steps, f"CONTRIBUTING.md does not name {named} among the files of an option")
    print(f"an option that is added changes {len(changed)} files")
    shutil.rmtree(copy)


def check_faults(tally):
    """Each line of a fault, each fault of a file and each word of a saved hierarchy has one row."""
    for name, words in all_in(tally, FAULTS, r'^(read_heading|fault_words) .* = codes "([^"]*)"'):
        text = f"chtab: {words}"
        begins = f"`{text}line N" if name == "read_heading" else f"`{text}"
        expect_once(tally, f"the line {text}", [row for row in rows("What does a fault look like?") if row[0].startswith(begins)])
    for file, heading in ("ch_read/specs/Text.antt", "What does FAULT mean?"), ("ch_hierarchy/specs/FaultText.antt", "What does WORD mean?"):
        texts = all_in(tally, ROOT / "crates" / file, r'^(?:kind|fault)_text \(?[A-Z].* = codes "([^"]*)"$')
        for text in texts:
            expect_once(tally, text, [row for row in rows(heading) if row[0] == f"`{text}`"])
        for row in rows(heading)[1:]:
            tally.expect(row[0].strip("`") in texts, f"REFERENCE.md has {row[0]}, which no file is refused for")


def check_statuses(tally):
    """Each exit status of the program and of its script has one row."""
    found = [*all_in(tally, FAULTS, r"^status_of .* = (\d+)$"), *all_in(tally, ROOT / "crates/ch_words/specs/Line.antt", r"status_of .* = (\d+)$")]
    found += all_in(tally, ROOT / "chtab", r"^ +exit (\d+)$")
    for status in sorted(set(found)):
        expect_once(tally, f"the status {status}", [row for row in rows("Exit statuses") if row[0] == status])
    for row in rows("Exit statuses")[1:]:
        tally.expect(row[0] in found, f"REFERENCE.md has the status {row[0]}, which nothing ends with")


# Planted bugs, figures, and what no file has.


def check_edit(tally, edit):
    """The text that each pair replaces stands once in its file, as the pairs before have left it."""
    texts = {}
    for file, old, new in pairs_of(edit):
        path = edit.parent.parent / (file or "")
        name = f"{edit.parent.parent.name}/{edit.name}"
        if not file or not old or not path.is_file():
            tally.expect(False, f"{name}: no file, or nothing that is replaced")
            return
        text = texts.setdefault(file, path.read_text())
        tally.expect(text.count(old) == 1, f"{name}: this stands {text.count(old)} times in {file}: {old.strip()}")
        texts[file] = text.replace(old, new)


def check_glossary(tally):
    """The words of DEFINITIONS.md are in order, each once."""
    section = (ROOT / "docs" / "DEFINITIONS.md").read_text().split("\n## What does each word mean?\n")[1].split("\n## ")[0]
    found = [line.split(" | ")[0].strip("| ").lower() for line in section.splitlines() if re.match(r"\|(?!-)", line)][1:]
    tally.expect(found == sorted(set(found)), "the words of DEFINITIONS.md are not in order")


def check_figures(tally):
    """Each section of figures names its script, a day and a machine; each script that measures has a line in bench/README.md, and the
    other way round."""
    for section in MEASUREMENTS.read_text().split("\n## ")[1:]:
        head = section.splitlines()[0]
        scripts = re.findall(r"`(?:\./)?(bench/[\w.]+|check|chtab)\b", section)
        tally.expect(scripts and all((ROOT / script).is_file() for script in scripts), f"MEASUREMENTS.md, {head}: no script, or one that is gone")
        tally.expect(DAY.search(section) or NOT_MEASURED in section, f"MEASUREMENTS.md, {head}: no day")
        tally.expect("GHz" in section or NOT_MEASURED in section, f"MEASUREMENTS.md, {head}: no machine")
    told = set(re.findall(r"^\| `(\w+)` \|", (ROOT / "bench" / "README.md").read_text(), re.MULTILINE))
    scripts = {path.name for path in (ROOT / "bench").iterdir() if path.is_file() and not path.suffix}
    tally.expect(told == scripts, f"bench/README.md and the scripts of bench/ differ by {sorted(told ^ scripts)}")


NOT_MEASURED = "Not measured yet"


def check_versions(tally):
    """The engine, the Python package, the package that README names and the list of changes have one version."""
    version = re.search(r'^version = "(.*)"$', (ROOT / "python" / "pyproject.toml").read_text(), re.MULTILINE)[1]
    tally.expect((ROOT / "VERSION").read_text().startswith(f"chtab {version}\n"), f"VERSION and python/pyproject.toml, {version}, differ")
    line = (ROOT / "VERSION").read_text().removeprefix("chtab ").rstrip("\n").replace("\n", "\\n")
    tally.expect(f'const VERSION: &str = "{line}";' in FORM.read_text(), f"{told(FORM)} has another version than VERSION")
    package = re.search(r'^__version__ = "(.*)"$', (ROOT / "python" / "chtab" / "__init__.py").read_text(), re.MULTILINE)[1]
    tally.expect(package == version, f"chtab.__version__ is {package}, not {version}")
    named = re.findall(r"\bchtab_([\d.]+)_", (ROOT / "README.md").read_text())
    tally.expect(set(named) == {version}, f"README.md names packages of the versions {named}, not {version}")
    changed = re.findall(r"^## \[([\d.]+)\] - \d{4}-\d\d-\d\d$", (ROOT / "CHANGELOG.md").read_text(), re.MULTILINE)
    tally.expect(changed[:1] == [version], f"CHANGELOG.md begins with the version {changed[:1]}, not {version}")


def public(body, above=""):
    """The public functions and classes of a module with their methods, each with its name."""
    for node in body:
        if isinstance(node, (ast.FunctionDef, ast.AsyncFunctionDef, ast.ClassDef)) and not node.name.startswith("_"):
            yield above + node.name, node
            if isinstance(node, ast.ClassDef):
                yield from public(node.body, f"{above}{node.name}.")


def check_docstrings(tally):
    """What users of the Python package see has docstrings: its modules, networks, errors, commands, and what `chtab.files` exports."""
    package = ROOT / "python" / "chtab"
    exported = set(re.findall(r'"(\w+)"', (package / "files.py").read_text()))
    for path in sorted((ROOT / "python").glob("chtab*/**/*.py")):
        tree = ast.parse(path.read_text())
        tally.expect(ast.get_docstring(tree), f"{told(path)} has no docstring")
        for name, node in public(tree.body):
            is_file = path.parent.name == "_files" and name.split(".")[0] in exported
            is_seen = is_file or path in COMMANDS or path in (package / "errors.py", package / "network.py")
            tally.expect(not is_seen or ast.get_docstring(node), f"{told(path)}: {name} has no docstring")


def check_parts(tally):
    """Each test is a part of ./check, or of this script, or is run by hand, and has a row in TESTING.md. What tests share says what it is."""
    check, page = (ROOT / "check").read_text(), (ROOT / "docs" / "TESTING.md").read_text()
    for test in sorted([*(ROOT / "tests").glob("*.py"), *(ROOT / "tests").glob("*.sh"), *(ROOT / "tests" / "python").glob("test_*.py")]):
        found = [line for line in page.splitlines() if line.startswith("|") and f"`{told(test)}`" in line]
        is_run = re.search(rf'"{re.escape(str(told(test)))}[" ]', check) or any("by hand" in row for row in found)
        is_other = test.name in ("believe.py", "conftest.py", "packages.sh")
        tally.expect(is_other or found and is_run, f"{told(test)} is no part of ./check, or has no row in TESTING.md")
    for path in sorted([*(ROOT / "tests" / "oracles").glob("*.*"), *(ROOT / "tests" / "helpers").glob("*.*")]):
        tally.expect(re.match(r'(#!.*\n)?("""|//|/\*|# )', path.read_text()), f"{told(path)} does not say in its first line what it is")


def check_first_lines(tally):
    """Each file of a crate says in its first line what it holds, defines or proves."""
    for path in sorted([*ROOT.glob("crates/*/src/**/*.rt"), *ROOT.glob("crates/*/specs/**/*.antt"), *ROOT.glob("crates/*/proofs/**/*.antt")]):
        opening = r"//! .*\w" if path.suffix == ".rt" else r"-- .*\w"
        tally.expect(re.match(opening, path.read_text()), f"{told(path)} does not say in its first line what it is about")


def check_columns(tally):
    """No line of specs and proofs is too long to be read, and none leaves many arguments without a name."""
    for path in sorted([*ROOT.glob("crates/*/specs/**/*.antt"), *ROOT.glob("crates/*/proofs/**/*.antt")]):
        lines = list(enumerate(path.read_text().splitlines(), 1))
        tally.expect(not (found := [number for number, line in lines if len(line) > 140]), f"{told(path)} has lines of over 140 columns: {found}")
        tally.expect(not (found := [number for number, line in lines if " _" * 8 in line]), f"{told(path)} leaves eight arguments in a row without a name: {found}")


def check_python_columns(tally):
    """No line of Python in the packages is longer than 100 columns."""
    for path in sorted((ROOT / "python").rglob("*.py")):
        found = [number for number, line in enumerate(path.read_text().splitlines(), 1) if len(line) > 100]
        tally.expect(not found, f"{told(path)} has lines of over 100 columns: {found}")


def check_text(tally, path):
    """A file of text has none of the strange words, and the pages that it names are there."""
    try:
        text = path.read_text()
    except UnicodeDecodeError:
        return
    found = STRANGE.search(text)
    tally.expect(not found, f"{told(path)} has `{found and found[0]}`")
    for name in re.findall(r"\bdocs/\w+\.(?:md|antt\.txt|svg|png)\b", text):
        tally.expect((ROOT / name).is_file(), f"{told(path)} names {name}, which is not there")


def main():
    tally = Count()
    for page in PAGES:
        check_links(tally, page)
        check_names(tally, page)
        check_commits(tally, page)
        check_prose(tally, page)
        most, lines = LONGER.get(page.name, MOST_LINES), len(page.read_text().splitlines())
        tally.expect(lines <= most, f"{told(page)} has {lines} lines")
    for path in COMMANDS:
        check_help(tally, path)
    check_proved(tally)
    for edit in sorted([*ROOT.glob("crates/*/must-fail/*.edit"), *ROOT.glob("crates/*/planted/*.edit"), *ROOT.glob("python/planted/*.edit")]):
        check_edit(tally, edit)
    check_limits(tally)
    check_options(tally)
    check_added(tally)
    check_faults(tally)
    check_statuses(tally)
    believe.check_page(tally)
    check_glossary(tally)
    check_figures(tally)
    check_versions(tally)
    check_docstrings(tally)
    check_parts(tally)
    check_first_lines(tally)
    check_columns(tally)
    check_python_columns(tally)
    layers.check_layers(tally)
    layers.check_times(tally)
    lacks.check_lacks(tally)
    for path in tracked():
        check_text(tally, path)
    tally.expect((lines := len((ROOT / "README.md").read_text().splitlines())) <= MOST_LINES_OF_README, f"README.md has {lines} lines")
    tally.expect((words := len((ROOT / "docs" / "ARCHITECTURE.md").read_text().split())) <= MOST_WORDS_OF_ARCHITECTURE, f"ARCHITECTURE.md has {words} words")
    tally.finish()


if __name__ == "__main__":
    main()

#!/usr/bin/python3
"""Tests that docs/claim.antt.txt has the definitions that a distance rests on, and no others, and that docs/BELIEVE.md takes about an hour.

  believe.py           compares the file and the page with the sources
  believe.py --write   writes the file; that needs the kit, for the bodies of standard words

The clause `written` of `run_dist` is where the list starts. A definition of `crates/*/specs` belongs to it if the clause, or a definition
of the list, mentions its name. The names of ROUTES are left out: they count only where routes are written. Those of SAVED count only where
a hierarchy was saved or an order is given. A name that is neither of a definition nor of a type of the code nor of the kit's library is a fault,
and so is an operator that is not the library's.

It only reads files, and needs no built program. The last line is 'N passed, N failed'.
"""
import re
import sys

from helpers import claim, prose
from helpers.running import ROOT, Count

PAGE = ROOT / "docs" / "BELIEVE.md"
CONTRACT = ROOT / "crates/ch_run/src/run/dist.rt"
ROUTES = {"IsRouteText", "IsOfRoutes", "LevelsAndLegs"}
SAVED = {"ComesFromFile", "AreChecked", "AreBuiltLike", "OrderAndLegs"}
IMPORT = re.compile(r"^(?:ghost )?use Rattle\.([\w.]+)\.\{([^}]*)\};?$", re.MULTILINE)
MODULE = re.compile(r"^(?:ghost )?use Rattle\.([\w.]+) as (\w+);?$", re.MULTILINE)
OPERATORS = "std.specs.Prelude"
HEAD = re.compile(r"(?:unfoldable )?(?:abbrev )?pub (?:(?:record|data) )?(\w+)")


class Source:
    """A file with its imports, as (module, name) by the word that stands for each, and its definitions, as texts by name."""

    def __init__(self, path):
        self.path, self.text = path, path.read_text()
        self.unread = re.findall(r"^(?:pub |ghost )*use Rattle\b.*$", MODULE.sub("", IMPORT.sub("", self.text)), re.MULTILINE)
        self.imports = {word: (module, word) for module, word in MODULE.findall(self.text)}
        for module, names in IMPORT.findall(self.text):
            for item in names.split(", "):
                name, _, word = item.partition(" as ")
                self.imports[word or name] = (module, name)
        self.definitions, self.cases = {}, {}
        for block in re.split(r"\n\n+", self.text):
            lines = [line for line in block.splitlines() if not line.startswith("--")]
            if lines and (head := HEAD.match(lines[0])):
                self.definitions[head[1]] = block.strip("\n")
                if "pub data " in lines[0]:
                    self.cases.update((case, head[1]) for case in re.findall(r"^  (\w+) :", "\n".join(lines), re.MULTILINE))

    def owner(self, name):
        """The definition that a name belongs to: its own, or that of the data of which it is a case."""
        return self.cases.get(name, name)


def sources():
    """The files of definitions, by module: ch_graph.specs.Walk."""
    return {f"{path.parent.parent.name}.specs.{path.stem}": Source(path) for path in sorted(ROOT.glob("crates/*/specs/*.antt"))}


def clause():
    """The text of the clause `written` of `run_dist`."""
    contract = CONTRACT.read_text().split("pub fn run_dist")[1]
    return re.search(r"ensures written \{(.*?)\n\n", contract, re.DOTALL)[1]


def words(text):
    """The words of a definition without its comments."""
    return set(re.findall(r"\w[\w']*", re.sub(r"--.*", "", text)))


def operators(source, text):
    """The imported operators of which a definition has each sign. In names of operators a circle stands where an argument does."""
    bare = re.sub(r"--.*", "", text)
    return {name for name in source.imports if "◌" in name and all(sign in bare for sign in name.split("◌") if sign)}


class Closure:
    """What the clause needs without some names: the definitions of each file, the types of the code, and the words of std. `lost` has the names that
    are none of these, and the imports that are not read."""

    def __init__(self, left_out=frozenset()):
        self.files, self.left_out = sources(), left_out
        self.definitions, self.types, self.std, self.lost = {}, set(), set(), set()
        self.follow(Source(CONTRACT), clause())

    def follow(self, source, text):
        """Adds what a text of this file mentions."""
        self.lost.update(source.unread)
        self.lost.update(name for name in operators(source, text) if source.imports[name][0] != OPERATORS)
        for word in words(text) - ROUTES - SAVED - self.left_out:
            module, name = source.imports.get(word, (None, word))
            if module is None and source.owner(name) in source.definitions:
                self.add(source, source.owner(name))
            elif module in self.files:
                self.add(self.files[module], self.files[module].owner(name))
            elif module and module.startswith("std."):
                self.std.add(name)
            elif module and ".declared." in module:
                self.types.add(module.split(".TheVariants")[0])
            elif module:
                self.lost.add(f"{module}.{name}")

    def add(self, source, name):
        known = self.definitions.setdefault(source, set())
        if name not in known:
            known.add(name)
            self.follow(source, source.definitions[name])

    def below(self, source):
        """The other files whose definitions those of this file mention."""
        mentioned = set().union(*(words(source.definitions[name]) for name in self.definitions[source]))
        modules = {source.imports[word][0] for word in mentioned & set(source.imports)}
        return [other for module, other in self.files.items() if module in modules and other in self.definitions]

    def in_order(self):
        """The files, each after those that it needs."""
        ordered = []

        def put(source):
            if source not in ordered:
                for other in self.below(source):
                    put(other)
                ordered.append(source)

        for source in sorted(self.definitions, key=lambda source: str(source.path)):
            put(source)
        return ordered

    def types_in_files(self):
        """The types by the files of the code that declare them; `limits` stands for constants."""
        found = {}
        for module in self.types:
            crate, _, _, *inner, name = module.split(".")
            found.setdefault("/".join(("crates", crate, "src", *inner)) + ".rt", set()).add("limits" if name == "TheConstants" else name)
        return found


# How long a reader takes, in seconds: a word, a line of a definition, and a row of a table.
WORD, LINE, ROW = 60 / 200, 30, 10
MOST_MINUTES = 65


def page_seconds():
    """How long the page takes: its words, and the rows of its tables."""
    rows = [line for line in prose.prose(PAGE).splitlines() if re.match(r"\|(?!-)", line)]
    blocks = [line for line in PAGE.read_text().splitlines() if line.startswith("    ")]
    text = [line for line in PAGE.read_text().splitlines() if line not in rows and line not in blocks]
    return WORD * len(re.findall(r"\w[\w.,'-]*", " ".join(text))) + ROW * (len(rows) + len(blocks))


def piece_seconds(piece):
    """How long a piece of the file takes, by the same measure. Its comments are words."""
    lines = [line for line in piece.splitlines() if line.strip(" })")]
    comments = [line for line in lines if line.startswith("--")]
    return WORD * len(re.findall(r"\w[\w.,'-]*", " ".join(comments))) + LINE * (len(lines) - len(comments))


def count_lines(piece):
    """The lines of a piece that are neither empty nor comments, nor close a bracket and do nothing else."""
    return sum(bool(line.strip(" })")) and not line.startswith("--") for line in piece.splitlines())


def check_claim(tally, pieces, std):
    """The file is what the sources make. The bodies of standard words are compared where the kit is."""
    text = claim.FILE.read_text()
    tally.expect(text.startswith("\n\n".join(pieces) + "\n\n"), "docs/claim.antt.txt is not what tests/believe.py --write makes of the sources")
    lost = Closure().lost
    tally.expect(not lost, f"the claim mentions what is no definition, type or standard word: {sorted(lost)}")
    if folder := claim.kit():
        tally.expect(not (found := claim.unexplained(folder)), f"standard words use what is not explained: {sorted(found)}")
        tally.expect(text.endswith(claim.standard_text(folder, std) + "\n"), "docs/claim.antt.txt has other standard words than the kit")


def check_example(tally):
    """A test of the crates runs the worked example, on the very bytes of both files."""
    code = (ROOT / "crates/ch_run_checks/src/calling.rt").read_text()
    for text in *((ROOT / "examples" / name).read_text() for name in ("first.gr", "first.p2p")), claim.ANSWERS:
        tally.expect('b"{}"'.format(text.replace("\n", "\\n")) in code, f"calling.rt of ch_run_checks does not have {text!r}")


def check_hour(tally, page, pieces):
    """The page says how many lines each part has and how long it takes. The page takes about an hour, with the first part, the types and the
    standard words that this names."""
    _, _, first, example, *others, _ = pieces
    looked_up = Closure(claim.PARTS[0][0])
    rows = len(looked_up.types) + len(looked_up.std - set(claim.IN_WORDS))
    hour = (page_seconds() + piece_seconds(first) + piece_seconds(example) + ROW * rows) / 60
    tally.expect(hour <= MOST_MINUTES, f"BELIEVE.md with part 1 takes {hour:.0f} minutes")
    for number, piece, minutes in (1, first, hour), *((number, piece, piece_seconds(piece) / 60) for number, piece in enumerate(others, 2)):
        row = re.search(rf"^\| {number} \|.*\| (\d+) \| (\d+) \|$", page, re.MULTILINE)
        tally.expect(row and row[1] == str(count_lines(piece)), f"BELIEVE.md: part {number} has {count_lines(piece)} lines")
        tally.expect(row and abs(int(row[2]) - minutes) <= 2, f"BELIEVE.md: part {number} takes {minutes:.0f} minutes")


def check_way(tally, page):
    """The page counts the lines of definitions between the command and the clause, rounded up to fifties, and those of the code outside of
    contracts."""
    for row in re.findall(r"^\|.*\]\(\.\./crates/.*specs/.*\|$", page, re.MULTILINE):
        files = [(ROOT / path).read_text() for path in re.findall(r"\]\(\.\./(crates/[^)]+)\)", row)]
        lines = [line for text in files for line in text.splitlines() if line.strip(" })") and not line.startswith(("--", "use ", "ghost use "))]
        most = -(-len(lines) // 50) * 50
        tally.expect(row.endswith(f"| {most} |"), f"BELIEVE.md: at most {most} lines, not as in {row}")
    code = [line for name in ("main", "system") for line in (ROOT / f"crates/chtab/src/{name}.rt").read_text().splitlines()]
    count = sum(bool(line.strip()) and not line.lstrip().startswith("//") for line in code)
    tally.expect(f"with {count} lines of code" in page, f"BELIEVE.md: main.rt and system.rt have {count} lines of code")


def check_bugs(tally, page):
    """Each planted bug that the page has a section of is shown as it is. The others that it names are of the gate."""
    shown = re.findall(r"^### [^#]*?\]\(\.\./(crates/[^)]+\.edit)\)", page, re.MULTILINE)
    tally.expect(shown, "BELIEVE.md shows no planted bug")
    for bug in shown:
        for key, text in re.findall(r"^(old|new): (.*)$", (ROOT / bug).read_text(), re.MULTILINE):
            sign = "-" if key == "old" else "+"
            tally.expect(f"\n    {sign} {text.strip()}\n" in page, f"BELIEVE.md does not show {sign} {text.strip()} of {bug}")
    for bug in set(re.findall(r"\]\(\.\./(crates/[^)]+\.edit)\)", page)) - set(shown):
        tally.expect("/must-fail/" in bug, f"BELIEVE.md names {bug}, which the gate does not try")


def made():
    """The pieces of the file, and the standard words that it needs."""
    closures = [Closure(left_out) for left_out, _ in claim.PARTS]
    return claim.texts("    ensures written {" + clause().rstrip(), closures), closures[-1].std


def check_page(tally):
    """Compares the file and the page with the sources."""
    page, (pieces, std) = PAGE.read_text(), made()
    check_claim(tally, pieces, std)
    check_example(tally)
    check_hour(tally, page, pieces)
    check_way(tally, page)
    check_bugs(tally, page)


def main():
    if sys.argv[1:] == ["--write"]:
        pieces, std = made()
        claim.FILE.write_text("\n\n".join([*pieces, claim.standard_text(claim.kit(), std)]) + "\n")
        return
    tally = Count()
    check_page(tally)
    tally.finish()


if __name__ == "__main__":
    main()

"""The statements of docs/PROVED.md: each names calls that are there, with clauses that their contracts have."""
import re

from helpers.prose import CODE
from helpers.running import ROOT

PROVED = ROOT / "docs" / "PROVED.md"
# A name in code, alone or with `::`.
NAME = re.compile(r"(?:\w+::)*\w+")


class Crate:
    """The functions of a crate with the clauses of each, and its other names."""

    def __init__(self, folder):
        self.files = {path.relative_to(folder / "src"): path.read_text() for path in sorted((folder / "src").glob("**/*.rt"))}
        self.clauses, self.types, self.modules = {}, {}, {}
        for path, text in self.files.items():
            self.read(path, text)
        specs = "\n".join(path.read_text() for path in (folder / "specs").glob("**/*.antt"))
        self.defined = set(re.findall(r"^(?:abbrev )?pub (\w+)", specs, re.MULTILINE))
        self.defined |= set(re.findall(r"^abbrev (?:pub )?(\w+)", specs, re.MULTILINE))
        self.defined |= set(re.findall(r"^(?:pub record|  pub) (\w+)", specs, re.MULTILINE))
        self.words = set(re.findall(r"\w+", "\n".join([*self.files.values(), specs])))

    def read(self, path, text):
        starts = [found.start() for found in re.finditer(r"^ *(?:pub )?(?:unsafe )?(?:extern \"C\" )?fn \w+", text, re.MULTILINE)] + [len(text)]
        for start, end in zip(starts, starts[1:]):
            name = re.search(r"fn (\w+)", text[start:end])[1]
            self.clauses.setdefault(name, set()).update(re.findall(r"^ *ensures (\w+) \{", text[start:end], re.MULTILINE))
        of_file = set(re.findall(r"^ *ensures (\w+) \{", text, re.MULTILINE))
        of_file |= set(re.findall(r"^ *ghost (\w+) =", text, re.MULTILINE))
        for name in re.findall(r"^(?:pub )?(?:struct|enum|trait) (\w+)", text, re.MULTILINE):
            self.types.setdefault(name, set()).update(of_file)
        for name in re.findall(r"^impl\b.* for (\w+)", text, re.MULTILINE):
            self.types.setdefault(name, set()).update(of_file)
        folder = "" if path.stem in ("lib", "main") else path.stem
        self.modules.setdefault(folder, set()).update(of_file)

    def of(self, call):
        """The clauses of a call, by its last name: a function, a type (with all that its file has) or a module. None where there is none."""
        name = call.split("::")[-1]
        for known in self.clauses, self.types, self.modules:
            if name in known:
                return known[name]
        return None

    def has_path(self, call):
        """Each name before the last is one of a module or a type."""
        return all(part in self.modules or part in self.types for part in call.split("::")[:-1])


def statements():
    """The parts of docs/PROVED.md that each tell what is proved of some calls, as (crate, text, text of the calls, whether all names in
    that are calls): the rows of its tables, and paragraphs with the lists below them."""
    crate, columns = None, []
    for block in re.split(r"\n\n(?!- )", PROVED.read_text().split("\n## Neither")[0]):
        if head := re.match(r"## `(\w+)`", block):
            crate = head[1]
        for row in re.findall(r"^\|(.*)\|$", block, re.MULTILINE):
            cells = [cell.strip() for cell in row.split(" | ")]
            if cells[0] in ("call", "crate"):
                columns = cells
            elif not cells[0].startswith("---"):
                crate = cells[0].strip("`") if columns[0] == "crate" and cells[0] else crate
                yield crate, row, cells[columns.index("call")] if "call" in columns else cells[-1], True
        if crate and not block.startswith(("|", "#")):
            yield crate, block, re.split(r"[,:]\s", block)[0] if "\n- " in block else block, "\n- " in block


def bare(text):
    """The text without what stands in brackets."""
    return re.sub(r"\([^()]*\)", "", text)


def check_proved(tally):
    crates = {path.name: Crate(path) for path in sorted((ROOT / "crates").glob("*/")) if (path / "src").exists()}
    listed = {"HANDLES", *re.findall(r"\w+", (ROOT / "crates.txt").read_text())}
    for name, text, calls, are_calls in statements():
        tally.expect(name in crates, f"PROVED.md: there is no crate {name}")
        if name in crates:
            check_statement(tally, crates[name], name, text, calls, are_calls)
            for word in filter(NAME.fullmatch, CODE.findall(text)):
                is_known = word in listed or any(word.split("::")[-1] in crate.words for crate in crates.values())
                tally.expect(is_known, f"PROVED.md: nothing is named {word}")


def check_statement(tally, crate, name, text, calls, are_calls):
    """The calls that a statement names are there, and have the clauses that stand in brackets behind them, or anywhere in the statement."""
    found = [call for call in CODE.findall(bare(calls)) if NAME.fullmatch(call)]
    if are_calls:
        for call in found:
            tally.expect(crate.of(call) is not None and crate.has_path(call), f"PROVED.md: {name} has no call {call}")
    clauses = set().union(*(crate.of(call) or () for call in found))
    for call, inside in re.findall(r"`([\w:]+)` \((`[^()]*)\)", calls):
        for clause in CODE.findall(inside):
            tally.expect(clause in (crate.of(call) or ()), f"PROVED.md: {call} of {name} has no clause {clause}")
    for inside in re.findall(r"\((`[^()]*)\)", " ".join(text.split())):
        elsewhere = set().union(*crate.modules.values()) if " of " in inside else set()
        for word in filter(NAME.fullmatch, CODE.findall(inside.split(" of ")[0])):
            is_known = word in clauses or word in crate.defined or word in crate.types or word in elsewhere
            tally.expect(is_known, f"PROVED.md: {name}: none of the calls that are named there has a clause {word}")

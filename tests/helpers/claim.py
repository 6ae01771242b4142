"""The text of docs/claim.antt.txt: all that a distance rests on, in the order in which it is read."""
import re
import shutil
import subprocess
import textwrap
from pathlib import Path

from helpers.running import ROOT

FILE = ROOT / "docs" / "claim.antt.txt"
COLUMNS = 140
HEAD = """\
-- What a distance of chtab rests on, in the order in which it is read. The page docs/BELIEVE.md goes with it.
--
-- Part 1 is what you read in the hour of that page. Part 2 says what chains of reads and writes are, part 3 what the bytes of
-- files mean, and part 4 which files are accepted. Then come the types of the code and the standard words that the definitions use.
-- Definitions that count only for routes and for saved hierarchies are named and left out.
--
-- `tests/believe.py --write` writes this file from the sources, and `./check` compares the two."""
# The parts, each with the names that it leaves to the next one, and what it is.
PARTS = (
    (
        {
            "Gave", "GaveAll", "GaveUntilFault", "Took", "TookUntilFault", "DeviceFault", "lines", "heading_in", "items_in", "IsAccepted",
            "IsWithinLimits", "SourceReading", "NoFile", "SavedFile", "OrderFile", "CustomizedFile", "FoundOrder",
        },
        "What a distance is, what files name, and what is written",
    ),
    ({"lines", "heading_in", "items_in", "IsAccepted", "IsWithinLimits"}, "What the reads of an input gave, and what the writes of an output took"),
    ({"IsAccepted", "IsWithinLimits"}, "Lines, words and numbers of files, and what they declare and list"),
    (set(), "Which files are accepted"),
)
NOTES = (
    """\
-- `GaveAll gives old bytes new` says that the reads of an input gave these bytes, one after the other: from `old` up to a read that gave none,
-- which left it as `new`. `Took takes old text new` says that the writes of an output took this text, and `TookUntilFault` that they took its
-- first bytes up to a write that failed. Part 2 has the definitions. `gives` and `takes` say what one call of a device may do. They are the
-- device's own, and have no meaning here, so that no code can claim a call that it did not make. `NoFile` says that the run reads no saved
-- hierarchy and no order.
--
-- Of a file, `lines bytes` are its lines, `heading_in form lines` is what its problem line declares, and `items_in form part lines` are the
-- numbers of each of its item lines: docs/REFERENCE.md describes the files, and part 3 has the definitions. `IsAccepted form bytes` and
-- `IsWithinLimits g` only add to the promise, and are in part 4.""",
    """\
-- Each call of a device is one step, from the device before it to the device after it. The steps of a chain are numbered: `suc n` is n + 1.""",
    """\
-- `IsAccepted form bytes` only adds to the promise: each line of the file is a comment or one of the lines that follow. It is in part 4.""",
    """\
-- All of this only adds to what the other parts promise. If it were left out, chtab could accept a file with a line that it doesn't
-- understand, or with a number out of range. The distances would still be those of the graph that `NamesGraph` names.""",
)
EXAMPLE = """\
-- The worked example: examples/first.gr, and the queries of examples/first.p2p
--
-- The lines of both files:
{graph}
{queries}
--
-- What they name, by `NamesGraph` and `NamesQueries`. `heading_in` finds `p sp 3 2`, and `items_in` the numbers of the lines `a`:
--     items_in Graph First (lines bytes) = (1 ∷ 2 ∷ 4 ∷ []) ∷ (2 ∷ 3 ∷ 5 ∷ []) ∷ []
-- Files count nodes from 1 and definitions count them from 0, so `arc_from` subtracts 1. The graph g and the queries are
--     g.nodes = 3
--     g.arcs  = record {{ from = 0; to = 1; weight = 4 }} ∷ record {{ from = 1; to = 2; weight = 5 }} ∷ []
--     pairs   = (0, 2) ∷ (2, 0) ∷ []
--
-- The first query asks from 0 to 2. `IsWalk g 0 2 g.arcs` holds: the first arc is one of g and starts at 0, the second is one of g
-- and starts at 1, where the first ends, and it ends at 2. `weight_of g.arcs` is 4 + 5 = 9. No other arc starts at 0 or at 1, so
-- each walk from 0 to 2 has these two arcs, and none weighs less. That is `IsDistance g 0 2 9`.
--
-- The second query asks from 2 to 0. A walk there would start with an arc from 2, but there is none. The empty walk leads from 2 to 2
-- alone. That is `IsUnreachable g 2 0`, and the weight of the answer is None.
--
-- `distance_text` counts nodes from 1 again. By `HasText` the text of both answers is
{text}
-- `Took takes old text new` says that the writes of the output took these bytes, and no others."""
ANSWERS = "d 1 3 9\nd 3 1 -\n"
# The standard words and what these use, by their files below the kit's folder `rattle`.
STANDARD = {
    "antt/port/mathlib/src/Core/Bool.antt": ("cond", "not"),
    "antt/port/mathlib/src/Core/List/Defs.antt": ("map",),
    "logic/Lib/ListN.antt": ("length", "get_or", "take", "drop"),
    "logic/Lib/Chars.antt": ("codes",),
    "logic/Lib/Pointwise.antt": ("pointwise",),
    "core/specs/Option.antt": ("is_some", "is_none", "MatchOption", "option_map", "option_and_then", "option_map_or"),
    "core/specs/Result.antt": ("MatchResult", "IfOk"),
    "core/specs/List.antt": (
        "slice_get", "slice_index", "All", "Contains", "AllZip", "fold", "sum_by", "filter", "list_all", "cons_option", "filter_map", "flat_map",
        "onto_first", "slice_split",
    ),
    "core/specs/Str.antt": ("bytes_eq", "all_ascii_digits"),
    "core/specs/Str/Parse.antt": ("digits_value_after", "digits_value"),
    "core/specs/Fmt.antt": ("digit_glyph", "digits_onto", "digits", "decimal"),
}
# Those that are as in most languages, or that the file's signs explain, in words.
IN_WORDS = {
    "ℕ": "the natural numbers 0, 1, 2, ..", "Bool": "true and false", "true": "", "false": "", "List": "lists", "Option": "Some x, or None",
    "Some": "", "None": "", "Result": "Ok x, or Err fault", "Ok": "", "Err": "", "nat_le": "at most, as a truth value",
    "nat_lt": "less, as a truth value", "zero": "the number 0", "suc": "of a number: the next one", "slice_index_or": "another name of get_or",
}
# What the bodies use that has a long definition of its own.
USED = {
    "is_ascii_digit": "a byte from 48 to 57", "digit_value": "of such a byte: it less 48", "code": "of a character: its code point",
    "String": "texts, as lists of characters", "nil": "the text without characters", "nat_eq": "equal, as a truth value",
}


def wrapped(text):
    """A text in lines of at most so many columns, cut at blanks. A comment goes on as one, and code is indented."""
    lines = []
    for line in text.splitlines():
        following = "-- " if line.startswith("--") else " " * 12 if line.startswith(" ") else " " * 4
        while len(line) > COLUMNS and " " in line[len(following):COLUMNS]:
            cut = line.rindex(" ", len(following), COLUMNS)
            lines.append(line[:cut])
            line = following + line[cut + 1:]
        lines.append(line)
    return "\n".join(lines)


def filled(note):
    """The paragraphs of a note, which are comments, in lines of that width."""
    blocks = note.split("\n--\n")
    bare = [" ".join(line.removeprefix("-- ") for line in block.splitlines()) for block in blocks]
    options = {"initial_indent": "-- ", "subsequent_indent": "-- ", "break_long_words": False, "break_on_hyphens": False}
    return "\n--\n".join(textwrap.fill(block, COLUMNS, **options) for block in bare)


def title(text):
    return f"-- {'=' * 20}\n-- {text}"


def part_text(number, note, heading, closure, before):
    """A part: its definitions by files, without those of the parts before it."""
    blocks = [title(f"Part {number}. {heading}"), filled(note)]
    for source in closure.in_order():
        names = [name for name in source.definitions if name in closure.definitions[source] and name not in before.get(source.path, ())]
        if names:
            blocks.append(f"-- {source.path.relative_to(ROOT)}")
            blocks += [source.definitions[name] for name in names]
    return "\n\n".join(blocks)


def declaration(path, name):
    """A type of the code in one line: its fields, or its cases."""
    if re.search(rf"^pub struct {name};$", path.read_text(), re.MULTILINE):
        return f"{name} has one value, without fields"
    body = re.search(rf"^pub (struct|enum) {name}\b.*?{{(.*?)^}}", path.read_text(), re.MULTILINE | re.DOTALL)
    bare = re.sub(r"//.*", "", body[2])
    joined = re.sub(r"(\w+) {\n(.*?)\n    }", lambda case: f"{case[1]} {{ {' '.join(case[2].split()).rstrip(',')} }}", bare, flags=re.DOTALL)
    parts = re.findall(r"^ *(?:pub )?(\w.*),$", joined, re.MULTILINE)
    return f"{name} = {'; '.join(parts)}" if body[1] == "struct" else f"{name} = {' | '.join(parts)}"


def constants(path, used):
    """The limits that the definitions name, one a line."""
    found = re.findall(r"^pub const (\w+): \w+ = (.*);$", path.read_text(), re.MULTILINE)
    return "\n".join(f"{name} = {value}" for name, value in found if name in used)


def types_text(closure):
    """The types of the code that the definitions name."""
    used = set().union(*(set(re.findall(r"\w+", source.definitions[name])) for source, names in closure.definitions.items() for name in names))
    blocks = [title("The types of the code, by fields or by cases. u32, u64 and usize are read as ℕ, Vec<T> as List T")]
    for path, names in sorted(closure.types_in_files().items()):
        found = [constants(ROOT / path, used) if name == "limits" else declaration(ROOT / path, name) for name in sorted(names)]
        blocks.append("\n".join([f"-- {path}", *found]))
    return "\n\n".join(blocks)


def kit():
    """The folder of the kit's definitions, or None where there is no kit."""
    if not shutil.which("rt"):
        return None
    page = subprocess.run(["rt", "doc"], capture_output=True, text=True).stdout.strip()
    return Path(page).parent / "rattle"


def kit_definition(path, name):
    """A definition of the kit as it is there, without what it is indented by."""
    lines = path.read_text().splitlines()
    start = next(at for at, line in enumerate(lines) if re.match(rf" *(?:abbrev |unfoldable )*pub {re.escape(name)} ", line))
    indent = len(lines[start]) - len(lines[start].lstrip())
    end = next((at for at in range(start, len(lines)) if not lines[at].strip()), len(lines))
    return "\n".join(line[indent:] for line in lines[start:end])


def unexplained(folder):
    """The words of the kit that the bodies of standard words use, and that the text neither has nor explains."""
    known, found = {*IN_WORDS, *USED, *(name for names in STANDARD.values() for name in names)}, set()
    for path, names in STANDARD.items():
        text = (folder / path).read_text()
        imports = [item.rpartition(" as ") for listed in re.findall(r"^ *(?:pub )?use [\w.]+\.\{([^}]*)\}", text, re.MULTILINE) for item in listed.split(",")]
        own = {word.strip() for _, _, word in imports} | set(re.findall(r"^ *(?:abbrev |unfoldable )*pub (?:record |data )?(\w+)", text, re.MULTILINE))
        for name in names:
            found |= set(re.findall(r"\w[\w']*", re.sub(r"--.*", "", kit_definition(folder / path, name)))) & own - known
    return found


def standard_text(folder, std):
    """The standard words: those that are known in words, then the bodies of the others."""
    missing = std - set(IN_WORDS) - {name for names in STANDARD.values() for name in names}
    if missing:
        raise SystemExit(f"helpers/claim.py knows no body of {', '.join(sorted(missing))}")
    known = [*((word, meaning) for word, meaning in IN_WORDS.items() if meaning and word in std), *USED.items()]
    words = "\n".join(f"--     {word:15} {meaning}" for word, meaning in known)
    bodies = [kit_definition(folder / path, name) for path, names in STANDARD.items() for name in names]
    return wrapped("\n\n".join([title("The standard words, as the kit defines them"), words, *bodies]))


def shown(path):
    """The lines of a file, each as a comment."""
    return "\n".join(f"--     {line}" for line in path.read_text().splitlines())


def example_text():
    text = "\n".join(f"--     {line}" for line in ANSWERS.splitlines())
    return title(EXAMPLE[3:].format(graph=shown(ROOT / "examples/first.gr"), queries=shown(ROOT / "examples/first.p2p"), text=text))


def texts(clause, closures):
    """The pieces of the file, but for the standard words."""
    before, pieces = {}, [HEAD, f"{title('The clause `written` of `run_dist`, in crates/ch_run/src/run/dist.rt')}\n\n{clause}"]
    for number, ((_, heading), note, closure) in enumerate(zip(PARTS, NOTES, closures), 1):
        pieces.append(part_text(number, note, heading, closure, before))
        before = {source.path: set(names) for source, names in closure.definitions.items()}
        if number == 1:
            pieces.append(example_text())
    return [wrapped(piece) for piece in (*pieces, types_text(closures[-1]))]

#!/usr/bin/env python3
"""Writes what is made of the table of options: the rows of docs/REFERENCE.md, and the options that packaging/telling knows.

The table is crates/ch_words/src/options.rt, from which the program makes its arguments and `--help`. Run this script after each change of the
table. tests/documents.py fails if a page differs from what it would write.
"""
import dataclasses
import re
from pathlib import Path

ROOT = Path(__file__).resolve().parent.parent
TABLE, REFERENCE, TELLING = "crates/ch_words/src/options.rt", "docs/REFERENCE.md", "packaging/telling"
# The tools, in the order in which the reference lists them.
TOOLS = "dist", "table", "near", "ask", "save"
# Where the constants of limits have their values.
LIMITS = "crates/ch_graph/src/limits.rt", "crates/ch_work/src/limits.rt"
# A row with its comment, the rows of a tool or of all tools, and the first lines of the table of options in the reference.
ROW = re.compile(r"((?:^/// [^\n]*\n)+)^const (\w+): Row = Row \{\n(.*?)^\};\n", re.MULTILINE | re.DOTALL)
LIST = re.compile(r"^pub\(crate\) fn (\w+)_options\(\) .*?^    \[(.*?)\]", re.MULTILINE | re.DOTALL)
HEAD = "| option | tools | range | default | meaning |\n|---|---|---|---|---|\n"


@dataclasses.dataclass(frozen=True)
class Option:
    """An option of the program."""

    name: str
    # The letter that stands for its value, or None for a flag.
    letter: str | None
    # The least and the greatest number, or None if the value is no number.
    limits: tuple[int, int] | None
    default: str
    help: str
    # The sentence of the reference.
    meaning: str
    # The tools that have it, or None if all have it.
    tools: tuple[str, ...] | None

    def range(self):
        """The cell `range` of its row."""
        if self.limits:
            return f"{self.limits[0]} to {self.limits[1]}"
        return "name of a file" if self.letter else "flag"

    def row(self):
        """Its row in the reference."""
        name = f"--{self.name} {self.letter}" if self.letter else f"--{self.name}"
        tools = ", ".join(f"`{tool}`" for tool in self.tools) if self.tools else "all"
        return f"| `{name}` | {tools} | {self.range()} | {self.default} | {self.meaning} |\n"


def constants(root):
    """The values of the constants of limits."""
    values = {}
    for file in LIMITS:
        for name, value in re.findall(r"^pub const (\w+): u\d+ = ([\w<> -]+);", (root / file).read_text(), re.MULTILINE):
            values[name] = eval(re.sub(r"(\d)_(\d)", r"\1\2", value), {}, dict(values))
    return values


def field(text, name, pattern):
    """What a row has in this field, or None."""
    found = re.search(rf"\b{name}:\s+{pattern}", text, re.DOTALL)
    return found and found[1]


def sentence(comment):
    """The cell `meaning`: a row's comment without its full stop, and with a small letter first."""
    text = " ".join(line.removeprefix("/// ") for line in comment.splitlines()).removesuffix(".")
    return text[0].lower() + text[1:]


def option_of(comment, text, tools, values):
    """The option of a row. The default of a number is in its value; that of a file or a limit is the end of its help, and a flag has none."""
    told = re.sub(r"\\\n\s*", "", field(text, "help", r'"(.*)",\n$'))
    letter = "FILE" if "Value::File" in text else field(text.split("value:")[1], "name", r'"(\w+)"')
    least, most = int(field(text, "least", r"(\d+)") or 1), field(text, "most", r"(\w+)")
    limits = (least, int(most) if most.isdigit() else values[most]) if most else None
    default = field(text, "default", r'"(\d+)"') or (re.search(r"\[default: (.*)\]$", told) or ["", "off"])[1]
    return Option(field(text, "name", r'"(\w+)"'), letter, limits, default, told, sentence(comment), tools)


def options(root=ROOT):
    """All rows of the table, in order, as options. An option whose help differs from tool to tool has several."""
    table = (root / TABLE).read_text()
    lists = {name: set(re.findall(r"\w+", rows)) for name, rows in LIST.findall(table)}
    values = constants(root)
    found = []
    for comment, constant, text in ROW.findall(table):
        tools = None if constant in lists["shared"] else tuple(tool for tool, rows in lists.items() if constant in rows)
        found.append(option_of(comment, text, tools, values))
    return found


def merged(found):
    """Each option once: the first row of its name, with the tools of all of them."""
    names = list(dict.fromkeys(option.name for option in found))
    for name in names:
        same = [option for option in found if option.name == name]
        tools = None if same[0].tools is None else tuple(tool for tool in TOOLS if any(tool in option.tools for option in same))
        yield dataclasses.replace(same[0], tools=tools)


def reference(root=ROOT):
    """The text of the reference, with the rows of the options as the table has them. The rows of help and of the version stay."""
    before, rows = (root / REFERENCE).read_text().split(HEAD)
    rest = rows[rows.index("| `-h`"):]
    return before + HEAD + "".join(option.row() for option in merged(options(root))) + rest


def telling(root=ROOT):
    """The text of packaging/telling, with the options that have a value as the table has them."""
    found = list(merged(options(root)))
    numbers = [f"--{option.name}" for option in found if option.limits]
    files = [f"--{option.name}" for option in found if option.letter and not option.limits]
    patterns = {
        r"--[a-z| -]+\) \[": " | ".join(numbers) + ") [",
        r"--[a-z| -]+\)$": " | ".join(files) + ")",
        r"--[a-z]+=\*[a-z=*| -]*\)": " | ".join(f"{name}=*" for name in files) + ")",
    }
    text = (root / TELLING).read_text()
    for pattern, names in patterns.items():
        text = re.sub(rf"^      {pattern}", f"      {names}", text, count=1, flags=re.MULTILINE)
    return text


# Each file with the function that makes its text.
MADE = {REFERENCE: reference, TELLING: telling}


def main():
    for file, make in MADE.items():
        text = make()
        if text != (ROOT / file).read_text():
            (ROOT / file).write_text(text)
            print(f"{file} is written")


if __name__ == "__main__":
    main()

"""How pages read: the length of lines, paragraphs, sentences and cells, and words in whose place the field has better ones."""
import re

from helpers.running import ROOT

MOST_LINES, MOST_COLUMNS, MOST_WORDS, MOST_OF_CELL = 5, 100, 30, 25
# What scripts write into a page, between two marks.
WRITTEN = re.compile(r"<!-- What stands from here.*?<!-- End of what.*?-->", re.DOTALL)
CODE = re.compile(r"`([^`]+)`")
# Words that hide who does what, that turn a sentence round, or that make a chain.
HARD = r"(?:that|those) of (?:[\w']+ ){1,4}of|as ever|of whose|(?:is|are|was|were|be|been|being) told|whoever|hence|thus|thereby|signs? of life"
# Words that the field has others for: arguments, CPU time, wall time, synthetic, components, workspace, 'is', 'start'.
FOREIGN = (
    r"words of the (?:command )?line|processor (?:time|seconds)|\w*(?:seconds|minutes) of processors?|by the clock|made[- ]up"
    r"|hangs? (?:apart|together)|(?:a|its|the|one|clean|each) rooms? of|stands?(?! for\b)(?!-)|stood|beg(?:in|ins|an|un)"
)
FIELD = re.compile(rf"\b(?:{HARD}|{FOREIGN})\b", re.IGNORECASE)
# A hierarchy has edges, and a graph has paths. Three pages say what the definitions, and OSRM, call them.
OF_CODE = re.compile(r"\blegs?\b|(?<!\*)\bwalks?\b(?!\*)", re.IGNORECASE)
WITH_CODE = "docs/BELIEVE.md", "docs/DEFINITIONS.md", "docs/SERVICE.md"


def prose(page):
    """The text of a page without its blocks of code, a line for each line."""
    lines, fenced = [], False
    for line in page.read_text().splitlines():
        fenced ^= line.startswith("```")
        lines.append("" if fenced or line.startswith(("```", "    ")) else line)
    return "\n".join(lines)


def by_hand(page):
    """The prose of a page without what scripts write, a line for each line."""
    return WRITTEN.sub(lambda written: "\n" * written[0].count("\n"), prose(page))


def paragraphs(page):
    """The paragraphs and the items of lists of a page. Tables and headings are left out."""
    lines = by_hand(page).splitlines()
    lines = ["" if line.lstrip().startswith(("|", "#")) else re.sub(r"^ *(?:[-*]|\d+\.) ", "\n", line) for line in lines]
    return [block.strip("\n") for block in "\n".join(lines).split("\n\n") if block.strip()]


def bare(text):
    """The text in one line, where a piece of code and the target of a link are one word."""
    return " ".join(re.sub(r"\]\([^)]*\)", "]", CODE.sub("X", text)).split())


def sentences(paragraph):
    return re.split(r"(?<=[.?!])[*)]* (?=\[|\W*[A-Z\d])", bare(paragraph))


def count(sentence):
    return len(re.findall(r"\w[\w.,'-]*", sentence))


def check_sentence(tally, path, sentence):
    """A sentence is short, and has none of the words."""
    tally.expect(count(sentence) <= MOST_WORDS, f"{path.relative_to(ROOT)}: {count(sentence)} words: {sentence}")
    found = FIELD.search(sentence)
    tally.expect(not found, f"{path.relative_to(ROOT)} has '{found and found[0]}': {sentence}")


def check_layout(tally, page):
    """Lines and paragraphs are short. Tables may have long lines."""
    for number, line in enumerate(by_hand(page).splitlines(), 1):
        tally.expect(len(line) <= MOST_COLUMNS or line.lstrip().startswith("|"), f"{page.relative_to(ROOT)}:{number}: {len(line)} columns")
    for paragraph in paragraphs(page):
        lines = len(paragraph.splitlines())
        tally.expect(lines <= MOST_LINES, f"{page.relative_to(ROOT)}: {lines} lines: {paragraph[:80]}")


def check_cells(tally, page):
    """A cell of a table is a phrase, or a short sentence or two."""
    for line in by_hand(page).splitlines():
        # What the table of options says of each is its help, and is made from there.
        for cell in line.strip("| ").split(" | ") if line.startswith("|") and not line.startswith("| `--") else ():
            tally.expect(count(bare(cell)) <= MOST_OF_CELL, f"{page.relative_to(ROOT)}: a cell of {count(bare(cell))} words: {cell}")


def check_words(tally, page):
    """Tables too have the field's words; headings too."""
    name = str(page.relative_to(ROOT))
    for line in by_hand(page).splitlines():
        for words in (FIELD, *([] if name in WITH_CODE else [OF_CODE])):
            found = words.search(bare(line))
            tally.expect(not found, f"{name} has '{found and found[0]}': {line.strip()[:120]}")


def check_prose(tally, page):
    """Lines, sentences, cells and words of a page are those that a reader understands at once."""
    check_layout(tally, page)
    for paragraph in paragraphs(page):
        for sentence in sentences(paragraph):
            check_sentence(tally, page, sentence)
    check_cells(tally, page)
    check_words(tally, page)

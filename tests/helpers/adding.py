"""Adds an option in a copy of the files that name options, by the steps of CONTRIBUTING.md, and says which files changed."""
import shutil
import tempfile
from pathlib import Path

import options

# What the steps change by hand, as (file, text, its replacement): the option --beyond R of `table`, whose value reaches the runs as that of
# --within does. A text that is empty is that of a new file.
BY_HAND = (
    # Its row in the table, and the tool that has it.
    ("crates/ch_words/src/options.rt", "/// Write at most the K nearest targets", '''/// Leave out distances below R.
const BEYOND: Row = Row {
    name: "beyond",
    value: Value::Limit {
        name: "R",
        least: 0,
        most: MOST_WEIGHT,
    },
    help: "Leave out distances below R, from 0 to 1152921504606846976 [default: no limit]",
};

/// Write at most the K nearest targets'''),
    ("crates/ch_words/src/options.rt", "fn table_options() -> [Row; 2]", "fn table_options() -> [Row; 3]"),
    ("crates/ch_words/src/options.rt", "[WITHIN, SAVED]", "[WITHIN, BEYOND, SAVED]"),
    # The option of a run, and its range.
    ("crates/ch_job/src/options.rt", "    pub within: Option<u64>,\n", '''    pub within: Option<u64>,
    /// The least distance that a table reports, if there is a limit.
    pub beyond: Option<u64>,
'''),
    ("crates/ch_job/specs/Job.antt", "  pub count : IfSome options.count IsCount\n", '''  pub beyond : IfSome options.beyond (λ most. most ≤ MOST_WEIGHT)
  pub count : IfSome options.count IsCount
'''),
    ("crates/ch_run_checks/src/runs.rt", "    within: None,\n", "    within: None,\n    beyond: None,\n"),
    # Its rule, and the value that the line gets.
    ("crates/ch_words/specs/Line.antt", "table_rules = within_rule ∷", 'table_rules = within_rule ∷ limit_rule (codes "beyond") 0 MOST_WEIGHT ∷'),
    ("crates/ch_words/specs/Line.antt", '''  pub count : line.job.options.count ≡ number_in given (codes "count")
''', '''  pub beyond : line.job.options.beyond ≡ number_in given (codes "beyond")
  pub count : line.job.options.count ≡ number_in given (codes "count")
'''),
    # The code that reads it.
    ("crates/ch_words/src/given.rt", '''    ensures count { IfOk result (λ options. options.count''', '''    ensures beyond { IfOk result (λ options. options.beyond ≡ number_in (rows_of (found_of matches.now)) (codes "beyond")) }
    ensures count { IfOk result (λ options. options.count'''),
    ("crates/ch_words/src/given.rt", '''        within: limit_given(matches, "within", MOST_WEIGHT)?,
''', '''        within: limit_given(matches, "within", MOST_WEIGHT)?,
        beyond: limit_given(matches, "beyond", MOST_WEIGHT)?,
'''),
    # What `tests/believe.py --write` makes of the fields of the options.
    ("docs/claim.antt.txt", "within: Option<u64>; count", "within: Option<u64>; beyond: Option<u64>; count"),
    # A planted bug, a test of the answers, and the note for users.
    ("crates/ch_words/planted/the_upper_limit_is_taken_for_the_lower.edit", "", '''file: src/given.rt
old: limit_given(matches, "beyond", MOST_WEIGHT)
new: limit_given(matches, "within", MOST_WEIGHT)
'''),
    ("tests/random_graphs.py", '''    check_near(case, folder, *options)
''', '''    assert folder.run("table", "--beyond", "0", *options, *lists) == case.table()
    check_near(case, folder, *options)
'''),
    ("CHANGELOG.md", "[Keep a Changelog](https://keepachangelog.com/en/1.1.0/).\n", "[Keep a Changelog](https://keepachangelog.com/en/1.1.0/).\n\n- `--beyond R` is new.\n"),
)
# What the script of the table reads and writes.
MADE_FROM = options.TABLE, *options.LIMITS, *options.MADE


def added(root):
    """A copy of the files of `root` in which the option is added, in a folder that the caller removes, and the files that differ from those of
    `root`. Fails where a text that a step changes is not there once."""
    copy = Path(tempfile.mkdtemp())
    files = {file for file, _, _ in BY_HAND} | set(MADE_FROM)
    for file in files:
        (copy / file).parent.mkdir(parents=True, exist_ok=True)
        if (root / file).is_file():
            shutil.copyfile(root / file, copy / file)
    for file, old, new in BY_HAND:
        text = (copy / file).read_text() if old else ""
        if old and text.count(old) != 1:
            raise LookupError(f"this stands {text.count(old)} times in {file}: {old}")
        (copy / file).write_text(text.replace(old, new) if old else new)
    for file, make in options.MADE.items():
        (copy / file).write_text(make(copy))
    return copy, sorted(file for file in files if not (root / file).is_file() or (copy / file).read_text() != (root / file).read_text())

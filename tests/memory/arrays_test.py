#!/usr/bin/env -S python3 -B
"""A test of tests/memory/arrays.py: copies of the tree's sources in which something is changed; the check must name it, or let it pass."""

import shutil
import subprocess
import sys
import tempfile
from concurrent.futures import ThreadPoolExecutor
from pathlib import Path

import arrays

TREE = Path(__file__).parents[2].resolve()
OPERATIONS = "crates/operations/src/lib.rt"
JUDGE = "    solver::solve(table, file, wide, &sheet);\n"  # a line of `judge` alone

# What is put into `judge`, what is declared beside it, and what the check must say of it. No two have the same length.
LONG = [
    ("let a = [0u64; 257];", "", "operations::judge has a value of 2,056 bytes"),
    ("let b = [7u8; 2049];", "", "operations::judge has a value of 2,049 bytes"),
    ("let c = [wide; 2050];", "", "operations::judge has a value of 2,050 bytes"),
    ("let d = [[0u16; 4]; 258];", "", "operations::judge has a value of 2,064 bytes"),
    ("if wide { let e = [0u64; 259]; }", "", "operations::judge has a value of 2,072 bytes"),
    ("let s = sets::none(wide); let f = [s; 65];", "", "operations::judge has a value of 2,080 bytes"),
    ("let g = [rows::Label(3); 2051];", "", "operations::judge has a value of 2,051 bytes"),
    ("let h = [sheet::fresh(wide), sheet::fresh(wide)];", "", "operations::judge has a value of 6,288 bytes"),
    # an array as long as the sheet
    ("let q = [0u64; 393];", "", "operations::judge has a value of 3,144 bytes"),
    # lengths and values from elsewhere
    ("let i = [0u64; MANY];", "use rows::LARGE_TABLE_WORDS as MANY;", "operations::judge has a value of 286,720 bytes"),
    ("let j = [0u64; 2 * LESS];", "const LESS: usize = rows::TABLE_WORDS - 2300;", "operations::judge has a value of 2,112 bytes"),
    ("let k = NUMBERS;", "const NUMBERS: [u64; 265] = [3; 265];", "operations::judge has a value of 2,120 bytes"),
    ("let l = OTHERS[3];", "const OTHERS: [u64; 266] = [3; 266];", "operations::judge has a value of 2,128 bytes"),
    ("let m = longer()[3];", "fn longer() -> [u64; 267] { [0; 267] }", "operations::longer has a value of 2,136 bytes"),
    ("let n = first_of([0; 268]);", "fn first_of(a: [u64; 268]) -> u64 { a[0] }", "operations::first_of has a value of 2,144 bytes"),
    # what is copied as a whole
    ("let o = Both { one: [0; 200], other: [0; 69] };", "#[derive(Clone, Copy)] struct Both { one: [u64; 200], other: [u64; 69] }", "operations::judge has a value of 2,152 bytes"),
    ("let p = Held { sheet: sheet::fresh(wide), more: [0; 270] };", "#[derive(Clone, Copy)] struct Held { sheet: sheet::Sheet, more: [u64; 270] }", "operations::judge has a value of 2,160 bytes"),
]

SHORT = [
    ("let a = [0u64; 256]; let b = [7u8; 2048]; let c = [[0u64; 16]; 16]; let d = [rows::Label(3); 2048]; let e = sheet::fresh(wide);", ""),
    ("let f = 3; // [0u64; 257]", "/* [0u64; 257] */"),
    ("let g = Held { sheet: sheet::fresh(wide), more: [0; 256] };", "#[derive(Clone, Copy)] struct Held { sheet: sheet::Sheet, more: [u64; 256] }"),
    ("let h = 3;", "fn never_called() { let a = [0u64; 257]; }"),
]

# Files that are changed, each with a text in it and what stands there instead; and what the check must say of a crate's verdict then.
CHANGED = [
    ("pezvoran_c", [(OPERATIONS, JUDGE, f"    let a = [0u64; UNKNOWN];\n{JUDGE}")], ["pezvoran_c: this check cannot tell what pezvoran_c is compiled to"]),
    ("pezvoran_c", [("crates/pezvoran_c/src/lib.rt", "fn verdict(", "fn verdicts(")], ["pezvoran_c: this check cannot tell what pezvoran_c is compiled to"]),
    ("pezvoran_c", [("crates.txt", "\npezvoran_c staticlib:", "\npezvoran_c staticlib: libc"), ("crates/pezvoran_c/src/lib.rt", "    pezvoran::verdict(", "    libc::close(3);\n    pezvoran::verdict(")],
     ["pezvoran_c: the verdict for C needs close"]),
    ("pezvoran_c", [("crates/sheet/src/lib.rt", "const VARIABLES: usize = 256;", "const VARIABLES: usize = 255 + 1;")], ["by which the sheet is made longer"]),
    ("verdict", [("crates/verdict/src/main.rt", "TABLE_WORDS]", "TABLE_WORDS + 1]"), ("crates/desk/src/lib.rt", "[0u8; layout::LONGEST + 1]", "[0u8; layout::LONGEST + 2]")],
     [": verdict::main has a value of 19,464 bytes", "desk::judge_input has a value of 32,770 bytes"]),
    ("verdict", [("crates/verdict/src/main.rt", "    let mut table", "    let mut second = [0u64; TABLE_WORDS];\n    let mut table")], ["verdict::main has a value of 19,456 bytes"]),
    ("verdict", [("crates.txt", "\nverdict:", "\nverdicted:")], ["crates.txt has no verdict"]),
]

wrong = []


def judge_with(cases):
    """The change that puts these into `judge`, and what is declared beside before it."""
    inside, beside = ("\n".join(case[i] for case in cases) for i in (0, 1))
    text = (TREE / OPERATIONS).read_text()
    return [(OPERATIONS, text, text.replace(JUDGE, f"{inside}\n{JUDGE}") + beside + "\n")]


def said_of(crate, changes, examine=lambda tree, crate: arrays.examined(tree, [crate])[0]):
    """What the check says of a crate's verdict in a changed copy of the tree."""
    with tempfile.TemporaryDirectory() as folder:
        tree = Path(folder)
        shutil.copy(TREE / "crates.txt", tree)
        for sources in TREE.glob("crates/*/src"):
            shutil.copytree(sources, tree / sources.relative_to(TREE))
        for path, old, new in changes:
            text = (tree / path).read_text()
            if text.count(old) != 1:
                wrong.append(f"{path} has {old!r} {text.count(old)} times")
            (tree / path).write_text(text.replace(old, new))
        return examine(tree, crate)


def by_command(tree, crate):
    ended = subprocess.run([arrays.__file__, tree, crate], capture_output=True, text=True)
    return ended.stderr.splitlines() if ended.returncode == 1 else [f"the command ended with {ended.returncode} and said {ended.stderr}"]


def must_say(said, expected):
    if not any(expected in line for line in said):
        wrong.append(f"should say {expected}\n    says {said}")


with ThreadPoolExecutor(2) as pool:  # each compiles two programs side by side
    long, short = judge_with(LONG), judge_with(SHORT)
    named, passing = pool.submit(said_of, "pezvoran_large_c", long, by_command), pool.submit(said_of, "pezvoran_c", short)
    changed = [(pool.submit(said_of, crate, changes), expected) for crate, changes, expected in CHANGED]
must_say(named.result(), f"{OPERATIONS}:" + str(1 + next(i for i, line in enumerate(long[0][2].splitlines()) if "fn longer" in line)))
for said, expected in [(named, [expected for _, _, expected in LONG]), *changed]:
    for words in expected:
        must_say(said.result(), words)
if passing.result():
    wrong.append(f"should say nothing\n    says {passing.result()}")
if wrong:
    sys.exit("\n".join(["tests/memory/arrays_test.py:", *wrong]))
print(f"tests/memory/arrays_test.py: {len(LONG) + len(CHANGED)} changes are named by the check, {len(SHORT)} pass")

"""Edits that scripts/try-edits tries, and the names and messages of rattle that dev/ reads."""

import shutil
from typing import NamedTuple

from dev.edits import Ran
from dev.functions import Function, function_at, owner_of
from dev.testing import ROOT, Tally, files_of
from edits_tests.repository import COPY, COUNT, FIRST, MOST, ONE, ONE_AGAIN, RIGHT, SOURCES, Repository, edit, results


class Case(NamedTuple):
    """Edits of the crate low, the lines about them without the places after a colon, the exit status, and the runs of rattle."""

    name: str
    edits: dict[str, str]
    lines: list[str]
    status: int
    calls: list[str]


CASES = [
    Case(
        "each is refused in one run",
        {"a": ONE, "b": COUNT, "c": COPY},
        ["a: refused at low::one", "b: refused at low::table::Table::count", "c: refused at low::table::TableClone::clone"],
        0,
        ["low: one table::Table::count table::TableClone::clone"],
    ),
    Case(
        "one that is proved is found",
        {"a": COUNT, "b": RIGHT},
        ["a: refused at low::table::Table::count", "b: NOT REFUSED"],
        1,
        ["low: first table::Table::count", "low: first", "low: the crate"],
    ),
    Case(
        "one that is proved, and calls what another one changes",
        {"a": ONE, "b": RIGHT},
        ["a: refused at low::one", "b: NOT REFUSED"],
        1,
        ["low: first one", "low: first", "low: the crate"],
    ),
    Case(
        "one that isn't, and calls what another one changes",
        {"a": ONE, "b": FIRST},
        ["a: refused at low::one", "b: refused at low::first"],
        0,
        ["low: first one"],
    ),
    Case(
        "two of one function",
        {"a": ONE, "b": ONE_AGAIN, "c": COUNT},
        ["a: refused at low::one", "b: refused at low::one", "c: refused at low::table::Table::count"],
        0,
        ["low: one table::Table::count", "low: one"],
    ),
    Case(
        "one of two functions",
        {"a": edit("lib", "    one(a)", "    (one(a))", "    b", "    wrong(b)"), "b": ONE},
        ["a: refused at low::one", "b: refused at low::one"],
        0,
        ["low: first one", "low: one"],
    ),
    Case("of a constant, whose users aren't refused", {"a": MOST}, ["a: NOT REFUSED"], 1, ["low: limited", "low: the crate"]),
    Case(
        "of a constant, and its user is refused",
        {"a": edit("lib", "const MOST: u64 = 5;", "const MOST: u64 = 6;", "    a.min(MOST)", "    a.min(MOST) + wrong")},
        ["a: refused at low::limited"],
        0,
        ["low: limited"],
    ),
    Case(
        "one that doesn't compile",
        {"a": ONE, "b": edit("lib", "    a.min(MOST)", "    syntax"), "c": COUNT},
        ["a: refused at low::one", "b: BAD EDIT", "c: refused at low::table::Table::count"],
        1,
        ["low: limited one table::Table::count", "low: ", "low: ", "low: ", "low: one table::Table::count"],
    ),
    Case(
        "one that can't be read",
        {"a": edit("lib", "    a.min(MOST)", "    unreadable"), "b": COUNT},
        ["a: BAD EDIT", "b: refused at low::table::Table::count"],
        1,
        ["low: limited table::Table::count", "low: ", "low: ", "low: limited", "low: the crate", "low: table::Table::count"],
    ),
    Case(
        "one at a limit of the prover",
        {"a": edit("lib", "    a.min(MOST)", "    endless"), "b": COUNT},
        ["a: refused only by a limit of the prover", "b: refused at low::table::Table::count"],
        0,
        ["low: limited table::Table::count", "low: ", "low: ", "low: limited", "low: the crate", "low: table::Table::count"],
    ),
    Case(
        "one that only a proof file doesn't fit",
        {"a": edit("lib", "    let b = a;", "    let b = lost;"), "b": COUNT},
        ["a: NOT SHOWN", "b: refused at low::table::Table::count"],
        1,
        ["low: one table::Table::count", "low: one", "low: the crate"],
    ),
    Case(
        "those that can't be applied",
        {
            "a": edit("lib", "    c", "    d"),
            "b": edit("lib", "u64", "u32"),
            "c": edit("nowhere", "a", "b"),
            "d": "file: ../../high/src/lib.rt\nold: a\nnew: b\n",
            "e": "file: src/lib.rt\nnew: b\n",
            "f": edit("lib", "    b", "    b"),
            "g": "file: src/lib.rt\n",
        },
        [
            "a: BAD EDIT: an 'old:' text is in src/lib.rt 0 times, and not once",
            "b: BAD EDIT: an 'old:' text is in src/lib.rt 7 times, and not once",
            "c: BAD EDIT: there is no file src/nowhere.rt",
            "d: BAD EDIT: a 'file:' line names no file below src/, specs/ or proofs/",
            "e: BAD EDIT: a 'new:' line stands before any 'file:' or 'old:' line",
            "f: BAD EDIT: it changes nothing (an 'old:' and a 'new:' text are one line each, and no other line is read)",
            "g: BAD EDIT: it has no 'old:' and 'new:' pair",
        ],
        1,
        [],
    ),
]


# The headers of impls, and the names that rattle prints for them.
OWNERS = {
    "Shape {": "Shape",
    "<T: Copy> JoinedLists<T> {": "JoinedLists",
    "JoinedLists<Point> {": "JoinedLists+Point",
    "fmt::Display for LoadFault {": "LoadFaultDisplay",
    "Places for ArrayVec<Point, 10> {": "ArrayVecPoint10Places",
    "Places for ArrayVec<u32, 5> {": "ArrayVecU325Places",
    "Collector for Vec<Record> {": "VecRecordCollector",
    "Keyed<(u64, u16)> for Rec2 {": "Rec2KeyedTuple2U64U16",
    "<K: Key> Keyed<K> for K {": "AnyKeyed",
    "<T: Drop> From<AllocFailed<T>> for LinkFault {": "LinkFaultFromAllocFailed",
    "<'a, C: Chart> Listed for ChainPoints<'a, C> {": "ChainPointsListed",
    "Source for SlowSource<'_> {": "SlowSourceSource",
    "<T: Copy> Listed for &[T] {": "RefSliceListed",
    "<const N: usize> Same for [u8; N] {": "ArrayU8Same",
    "<A: Same, B: Same> Same for (A, B) {": "Tuple2Same",
    "<T: Same> Same for Option<T> {": "OptionSame",
    "Same for u32 {": "U32Same",
    "<F: Fn(&[u8]) -> bool, T> Test<T> for Tested<F> where F: Copy {": "TestedTest",
}


# A function, and whether rattle means it by a name.
COUNT_OF_TABLE = Function("src/table.rt", "table", "Table::count", range(4, 9))
NAMED = {
    "low::table::Table::count": True,
    "low::table::Table::fn::count::closure": True,
    "low::table::Shelf::count": False,
    "low::shelf::Table::count": False,
    "low::table::count": False,
    "low::count": False,
    "low::table::Table::counts": False,
}


# Ends of lines about a text of a crate, and whether they mean that rattle can't read tree.
PRINTED = {
    "`one`: `this` is not in scope": True,
    "`one`: a `Table` has no field `this`": True,
    "`one`: `5` is no name": True,
    "`one`: an operand is missing": True,
    "`one`: expected the end of the text": True,
    "`one`: the check cannot continue": True,
    "it can't be parsed": True,
    "`one`: the goal `this is not in scope` isn't proved": False,
}


def try_cases(tally: Tally, tree: Repository) -> None:
    tally.equal("links in the repository, which rt accepts nowhere", [], [name for name in files_of(ROOT) if (ROOT / name).is_symlink()])
    for printed, is_named in NAMED.items():
        tally.equal(f"whether Table::count of table is {printed}", is_named, COUNT_OF_TABLE.is_named(printed))
    text = SOURCES["crates/low/src/lib.rt"]
    one = function_at("src/lib.rt", text, text.index("    b\n"))
    tally.equal("the function around a place", Function("src/lib.rt", "", "one", range(10, 14)), one)
    for line, is_unread in PRINTED.items():
        lines = [f"src/lib.rt:2:5: {word}: {line}" for word in ("warning", "error")]
        tally.equal(f"whether a text can be read: {line}", lines[1] if is_unread else "", Ran(1, lines).unread([]))
    for header, wanted in OWNERS.items():
        tally.equal(f"the name of impl{header[:1] if header[0] == '<' else ' ' + header[:1]}{header[1:]}", wanted, owner_of(header))
    for case in CASES:
        tree.has_edits(case.edits)
        status, lines = tree.run("try-edits", "--fresh", "low")
        printed = [line.split(": it doesn't compile")[0].split(": the prover can't")[0] for line in results(lines)]
        passed = sum("refused" in line for line in case.lines)
        tally.equal(case.name, case.lines, printed)
        closing = f"{passed} passed, {len(case.lines) - passed} failed"
        tally.equal(f"{case.name}: status and last line", (case.status, closing), (status, lines[-1]))
        tally.equal(f"{case.name}: runs", case.calls, tree.calls)


def try_kept(tally: Tally, tree: Repository) -> None:
    """A refused edit is kept, and is tried again after a change of the edit or of its crate."""
    tree.has_edits({"a": ONE, "b": COUNT})
    runs = ["low: one table::Table::count"]
    rows: list[tuple[str, list[str], list[str]]] = [("fresh", ["--fresh"], runs), ("at first", [], runs), ("again", [], [])]
    for name, words, wanted in [*rows, ("fresh again", ["--fresh"], runs)]:
        status, lines = tree.run("try-edits", *words, "low")
        tally.equal(f"kept, {name}", (0, "2 passed, 0 failed", wanted), (status, lines[-1], tree.calls))
    tree.write("crates/low/must-fail/b.edit", COUNT.replace("self.wrong", "self.wrong + 1"))
    tree.run("try-edits", "low")
    tally.equal("kept, after an edit was changed", ["low: table::Table::count"], tree.calls)
    tree.write("crates/low/specs/Low.antt", "-- what low is now\n")
    tree.run("try-edits", "low")
    tally.equal("kept, after a definition was changed", runs, tree.calls)
    source = (tree.root / "crates/low/src/table.rt").read_text()
    tree.write("crates/low/specs/Low.antt", "-- what low is then\n")
    tree.write("../rattle-edits", "")
    tree.run("try-edits", "low")
    (tree.room / "rattle-edits").unlink()
    tree.write("crates/low/src/table.rt", source)
    for wanted in (runs, []):
        tree.run("try-edits", "low")
        tally.equal("kept, where a source was edited meanwhile", wanted, tree.calls)


def try_kept_above(tally: Tally, tree: Repository) -> None:
    """A refused edit is tried again after a change of anything that was read outside its crate."""
    for name, place in (("a crate below", "crates/low/src/table.rt"), ("a proof below", "crates/low/proofs/Low.antt"), ("the kit", "../kit/KIT-ID")):
        tree.run("try-edits", "high")
        tally.equal(f"kept, before {name} was changed", (0, []), (tree.run("try-edits", "high")[0], tree.calls))
        tree.write(place, (tree.root / place).read_text() + "\n" if (tree.root / place).exists() else "")
        tree.run("try-edits", "high")
        tally.equal(f"kept, after {name} was changed", ["high: top"], tree.calls)
    changes = {"the list of crates": ("crates.txt", "high: low", "high:  low"), "the rules": ("dev/edits.py", 'RULES = "', 'RULES = "more than ')}
    for name, (place, old, new) in changes.items():
        tree.write(place, (tree.root / place).read_text().replace(old, new))
        tree.run("try-edits", "high")
        tally.equal(f"kept, after {name} was changed", ["high: top"], tree.calls)


def try_not_kept(tally: Tally, tree: Repository) -> None:
    """An edit that isn't refused is tried each time, and so is one whose prover was killed."""
    tree.has_edits({"a": RIGHT})
    for _ in range(2):
        status, lines = tree.run("try-edits", "low")
        tally.equal("what isn't refused is tried each time", (1, ["low: first", "low: the crate"]), (status, tree.calls))
    tree.write("../rattle-is-killed", "")
    status, lines = tree.run("try-edits", "low")
    tally.equal("a prover that is killed", (1, "0 passed, 1 failed"), (status, lines[-1]))
    wanted = "must-fail low/a: NOT TRIED: its check ended with status -9"
    tally.holds("a prover that is killed: the message", lines[0].startswith(wanted), lines)


def try_nothing_to_try(tally: Tally, tree: Repository) -> None:
    """Without the crate, its libraries or the kit nothing is tried, and the status is 2."""
    for word in ("lower", "--all"):
        tally.equal(f"{word}: status", 2, tree.run("try-edits", word)[0])
    shutil.rmtree(tree.root / "crates/low/out")
    tally.equal("without a library", (2, []), tree.run("try-edits", "high"))
    tally.equal("without a library: the message", "try-edits: low isn't built: rt lib builds it\n", tree.err)
    (tree.room / "kit/KIT-ID").unlink()
    for name in ("try-edits", "gate"):
        said = f"{name}: rt on the PATH isn't that of a Rattle kit with rattle beside it\n"
        tally.equal(f"{name} without a kit", (2, [], said), (*tree.run(name), tree.err))


TESTS = (try_cases, try_kept, try_kept_above, try_not_kept, try_nothing_to_try)

"""Runs of scripts/gate: rt ci on a copy, and the edits beside tree."""

import hashlib
import os
import select
import signal
from contextlib import suppress
from pathlib import Path

from dev.testing import Tally, await_that, hash_of_sources
from edits_tests.repository import COUNT, FIRST, ONE, ONE_AGAIN, RIGHT, SCRIPTS, SOURCES, Repository, results


def try_gate(tally: Tally, tree: Repository) -> None:
    """rt ci runs on a copy without the edits, which are tried too; and its results come into the tree."""
    tree.has_edits({"a": ONE, "b": COUNT, "note": "x"})
    (tree.root / "crates/low/must-fail/note.edit").rename(tree.root / "crates/low/must-fail/note")
    tree.write("crates/low/out/incremental/file", "kept by rt")
    tree.write("crates/low/out/low", "an earlier program")
    tree.write("out/file", "")
    status, lines = tree.run("gate")
    tally.equal("gate: last line and status", (1, "5 passed, 1 failed"), (status, lines[-1]))
    tally.holds("gate: a file that is no edit", any(line.startswith("must-fail low/note: BAD EDIT") for line in lines), lines)
    tally.equal("gate: edits of low", ["a: refused at low::one", "b: refused at low::table::Table::count"], results(lines)[:2])
    tally.equal("gate: edits of high", ["adds: refused at high::top"], results(lines, "high"))
    tally.holds("gate: a place of the copy", f"rt: of {tree.root}/crates" in lines, lines)
    tally.equal("gate: closing lines", 1, sum(line.endswith(" failed") for line in lines))
    files = {line.removeprefix("./") for line in (tree.room / "found").read_text().splitlines()}
    wanted = {place for place in SOURCES if "must-fail" not in place} | {*SCRIPTS}
    tally.equal("gate: what rt ci finds", wanted, files)
    made = {place: (tree.root / "crates" / place).read_text() for place in ("low/out/low", "high/out/high", "low/out/incremental/file")}
    tally.equal("gate: what it leaves", {"low/out/low": "low\n", "high/out/high": "high\n", "low/out/incremental/file": "kept by rt"}, made)
    tally.holds("gate: a library", (tree.root / "crates/low/out/rlib/low.rlib").is_dir())
    tally.equal("gate: what it asks of rt", "ci\n", (tree.room / "asked").read_text())


def compare_built(tally: Tally, tree: Repository, name: str, *files: str) -> None:
    """Compares out/, where these files are of the last run."""
    out = tree.root / "out"
    lines = [f"{hashlib.sha256((out / file).read_bytes()).hexdigest()}  {file}" for file in files]
    wanted = [f"sources: {hash_of_sources(tree.root)}", "kit: a kit", *lines]
    tally.equal(f"gate: {name}", wanted, (out / "built-from").read_text().splitlines())
    tally.equal(f"gate: {name}: files", {"built-from", "file", "tigercanon", "tigercanon.o"}, {path.name for path in out.iterdir()})


def try_gate_program(tally: Tally, tree: Repository) -> None:
    """The program that rt ci built counts as built here, with its object if that is of this run."""
    out = tree.root / "out"
    tree.write("out/file", "")
    tree.run("gate")
    compare_built(tally, tree, "the program", "tigercanon", "tigercanon.o")
    tally.equal("gate: the program's bytes", "tigercanon_main\n", (out / "tigercanon").read_text())
    tree.write("../rt-keeps", "tigercanon_main")
    tree.write("crates/low/src/more.rt", "// more\n")
    tree.run("gate")
    compare_built(tally, tree, "a program that was built earlier", "tigercanon")
    (tree.room / "rt-keeps").unlink()
    tree.write("../rt-fails", "low")
    tree.write("crates/low/src/more.rt", "// still more\n")
    tree.run("gate")
    tally.holds("gate: a program of another run", hash_of_sources(tree.root) not in (out / "built-from").read_text())
    (tree.room / "rt-fails").unlink()
    before = hash_of_sources(tree.root)
    tree.write("../rt-edits", "")
    tree.run("gate")
    tally.holds("gate: a source is edited meanwhile", before != hash_of_sources(tree.root))
    tally.equal("gate: a source is edited meanwhile: the sources of the program", f"sources: {before}", (out / "built-from").read_text().splitlines()[0])


def try_gate_notes(tally: Tally, tree: Repository) -> None:
    """The libraries that rt ci built are noted as proved. A run that fails notes nothing, and a library of rt's own stays."""
    note = tree.root / "crates/low/out/rlib/proved-from"
    tree.run("gate")
    first = note.read_text()
    tree.write("crates/low/src/more.rt", "// more\n")
    tree.run("gate")
    second = note.read_text()
    tally.holds("gate: another note for other sources", second != first)
    tree.write("../rt-fails", "low")
    tree.write("crates/low/src/more.rt", "// still more\n")
    tree.run("gate")
    tally.equal("gate: a library of another run", second, note.read_text())
    tree.write("../rt-fails", "high")
    tree.run("gate")
    tally.holds("gate: a library of a run that fails has no note", not note.exists())
    (tree.room / "rt-fails").unlink()
    tree.run("gate")
    third = note.read_text()
    tree.write("crates/low/out/rlib/stamp", "rt's own")
    tree.run("gate")
    tally.equal("gate: a library of rt's own", (third, "rt's own"), (note.read_text(), (note.parent / "stamp").read_text()))


def try_gate_silence(tally: Tally, tree: Repository) -> None:
    """A run that passes over something isn't green."""
    tree.has_edits({"a": ONE, "b": COUNT})
    tree.run("gate")
    (tree.room / "calls").write_text("")
    tree.write("../rt-is-silent", "high")
    status, lines = tree.run("gate")
    silent = ["gate: rt ci doesn't say whether high is proved", "gate: must-fail high/adds: NOT TRIED"]
    tally.equal("gate: rt ci that says nothing of a crate", (1, silent, "4 passed, 2 failed"), (status, lines[-3:-1], lines[-1]))
    tree.write("../rt-ends", 'echo "rt: high: its tests are proved"; echo 2 passed, 0 failed; exit 0')
    status, lines = tree.run("gate")
    tally.equal("gate: rt ci that speaks only of its tests", (1, silent, "4 passed, 2 failed"), (status, lines[-3:-1], lines[-1]))
    (tree.room / "rt-is-silent").unlink()
    for name, ends in {"no count": "exit 0", "a bad end": "echo 2 passed, 0 failed; exit 3", "a kill": "kill -9 $$", "no count and a bad end": "exit 1"}.items():
        tree.write("../rt-ends", ends)
        status, last = tree.ended("gate")
        tally.equal(f"gate: rt ci with {name}", (1, "1 failed"), (status, last.split(", ")[1]))
    (tree.room / "rt-ends").unlink()
    tree.write("../rt-keeps", "high")
    tree.write("crates/high/must-fail/adds.edit", "file: src/lib.rt\nold:     a\nnew:     wrong(a, a)\n")
    status, lines = tree.run("gate")
    tally.equal("gate: edits of a crate that rt kept", (0, ["adds: refused at high::top"], ["high: top"]), (status, results(lines, "high"), tree.calls))
    (tree.room / "rt-keeps").unlink()
    tree.has_memory(0)
    tree.has_edits({"a": ONE_AGAIN, "b": FIRST})
    tally.equal("gate: edits where there is no memory", (0, "5 passed, 0 failed"), tree.ended("gate"))
    tree.has_memory(1 << 40)


def try_gate_fresh(tally: Tally, tree: Repository) -> None:
    """With --fresh nothing that is kept is taken, and no refusal is kept."""
    tree.has_edits({"a": ONE, "b": COUNT})
    tree.run("gate")
    runs = ["high: top", "low: one table::Table::count"]
    tally.equal("gate: before --fresh", ((0, "5 passed, 0 failed"), []), (tree.ended("gate"), tree.calls))
    for _ in range(2):
        tally.equal("gate: --fresh", ((0, "5 passed, 0 failed"), runs), (tree.ended("gate", "--fresh"), sorted(tree.calls)))
    tally.equal("gate: --fresh, what it asks of rt", "ci --anew\n", (tree.room / "asked").read_text())
    tree.write("crates/low/specs/Low.antt", "-- what low is with --fresh\n")
    for _ in range(2):
        tally.equal("gate: --fresh keeps no refusal", ((0, "5 passed, 0 failed"), runs), (tree.ended("gate", "--fresh"), sorted(tree.calls)))
    tally.equal("gate: an unknown option", 2, tree.run("gate", "--anew")[0])


def try_gate_again(tally: Tally, tree: Repository) -> None:
    """What is refused isn't tried again; an edit that is proved fails; and the edits of a crate that isn't proved don't count."""
    tree.has_edits({"a": ONE, "b": COUNT})
    tree.run("gate")
    tally.equal("gate: again", (0, "5 passed, 0 failed"), tree.ended("gate"))
    tally.equal("gate: again, runs", [], tree.calls)
    tree.has_edits({"a": RIGHT})
    tally.equal("gate: an edit that is proved", (1, "3 passed, 1 failed"), tree.ended("gate"))
    tree.write("../rt-fails", "low")
    status, lines = tree.run("gate")
    tally.equal("gate: a crate that isn't proved", (1, "1 passed, 3 failed"), (status, lines[-1]))
    tally.equal("gate: no edit of it counts", [], results(lines))
    untried = [line for line in lines if line.startswith("gate: ")]
    tally.equal("gate: its edits aren't tried", ["gate: must-fail high/adds: NOT TRIED", "gate: must-fail low/a: NOT TRIED"], untried)
    (tree.room / "rt-fails").unlink()


def has_ended(number: str) -> bool:
    """Returns whether a process has ended, even if nobody has waited for it."""
    with suppress(FileNotFoundError):
        return "State:\tZ" in Path("/proc", number, "status").read_text()
    return True


def try_gate_signals(tally: Tally, tree: Repository) -> None:
    """A run that is stopped keeps what it has judged, and leaves no files."""
    tree.has_edits({"a": ONE, "b": COUNT})
    tree.write("crates/low/specs/Low.antt", "-- what low is in the end\n")
    tree.write("../rt-waits", "")
    for kept, number in (3, signal.SIGTERM), (6, signal.SIGINT):
        process = tree.start("gate")
        is_so = await_that(lambda: len(list(tree.room.glob(".cache/tigercanon-edits/*"))) == kept)
        tally.holds(f"gate, before {number}: its edits are kept", is_so)
        process.send_signal(number)
        process.communicate(timeout=60)
        tally.equal(f"gate, ended by {number}: status", 128 + number, process.returncode)
        tally.equal(f"gate, ended by {number}: what is left", [], [path.name for path in tree.room.glob("tigercanon-*")])
        tree.write("crates/low/specs/Low.antt", f"-- what low is after {number}\n")


def try_gate_hangs_up(tally: Tally, tree: Repository) -> None:
    """A run whose terminal is gone has printed what rt ci printed, and ends."""
    tree.has_edits({"a": ONE, "b": COUNT})
    tree.write("../rt-waits", "")
    tree.write("../rattle-waits", "")
    process = tree.start("gate")
    tally.holds("gate, before it hangs up: it tries edits", await_that(lambda: tree.calls))
    tally.holds("gate, before it hangs up: it prints what rt ci prints", select.select([process.stdout], [], [], 60)[0])
    process.send_signal(signal.SIGHUP)
    process.communicate(timeout=60)
    tally.equal("gate, that hangs up: status", 128 + signal.SIGHUP, process.returncode)


def try_gate_killed(tally: Tally, tree: Repository) -> None:
    """A run that is killed ends rt ci, and the next run removes its copy and does the rest."""
    tree.has_edits({"a": ONE, "b": COUNT})
    tree.write("../rt-waits", "")
    tree.write("../rattle-waits", "")
    process = tree.start("gate")
    tally.holds("gate, before it is killed: it tries edits", await_that(lambda: tree.calls))
    process.kill()
    process.communicate()
    tally.holds("gate, killed: rt ci ends", await_that(lambda: has_ended((tree.room / "number").read_text().strip())))
    left = [path.name for path in tree.room.glob("tigercanon-gate-*")]
    tally.holds("gate, killed: it leaves a copy", len(left) == 1, left)
    (tree.room / "rattle-waits").unlink()
    (tree.room / "rt-waits").unlink()
    others = [tree.room / f"tigercanon-gate-{name}" for name in (f"{os.getpid()}-of-a-run", "of-another-kind")]
    for folder in others:
        folder.mkdir()
    status, lines = tree.run("gate")
    for folder in others:
        tally.holds(f"gate, after one that was killed: {folder.name} stays", folder.is_dir())
        folder.rmdir()
    tally.equal("gate, after one that was killed", (0, "5 passed, 0 failed"), (status, lines[-1]))
    tally.equal("gate, after one that was killed: what is left", [], [path.name for path in tree.room.glob("tigercanon-gate-*")])


TESTS = (try_gate, try_gate_again, try_gate_program, try_gate_notes, try_gate_silence, try_gate_fresh, try_gate_signals, try_gate_hangs_up, try_gate_killed)

"""Two runs with one manifest, files that take no more, and a reader that is gone. With a fake program."""

import os
import shutil
from pathlib import Path

import pytest
from dev.testing import ROOT, await_that
from support import HEAD, NAME, Four, begin, call, count_of_lines, end, left_behind, limit_files, put, zip_up


def test_two_runs(four: Four) -> None:
    """The second one, and a verification, name the process that writes."""
    put("in/b.RT1", b"waits\n")
    put("waits")
    run = begin("fingerprint", "-o", "m", "in")
    assert await_that(lambda: Path("calls").read_text())
    for words in ("fingerprint -o m in", "verify m"):
        status, _, err = call(*words.split())
        assert (status, err.startswith(f"{NAME}m: another run writes to it: process {run.pid} on ")) == (2, True)
    os.unlink("waits")
    assert end(run).status == 0
    assert call("verify", "m").status == 0


@pytest.mark.parametrize("count, added, unchecked", [(7, 1, 4), (12, 0, 4), (15, 0, 0)])
def test_a_manifest_that_takes_no_more(four: Four, count: int, added: int, unchecked: int) -> None:
    """The run ends with 2, whole lines stay, and the same command goes on. Counties that aren't checked yet are listed first."""
    before = HEAD + "".join(f"{number:064}  a/no-{number:02}\n" for number in range(count))
    put("m", before.encode())
    ended = call("fingerprint", "--jobs", "1", "-o", "m", "in", preexec_fn=limit_files(1200))
    assert (ended.status, "m: can't be written: File too large" in ended.lines) == (2, True)
    lines = Path("m").read_text().splitlines()
    assert lines[: count + 1] == before.splitlines()
    assert lines[count + 1 :][:unchecked] == [f"# ? -  failed: not checked yet  {stem}" for stem in four][:unchecked]
    assert len(lines) == count + 1 + unchecked + 2 * added and Path("m").read_text().endswith("\n")
    assert not [name for name in os.listdir(".") if name.startswith("m.")]
    assert call("fingerprint", "-o", "m", "in").status == 0
    assert count_of_lines("m") == count + 1 + 2 * len(four)


def test_no_room_for_a_lock(four: Four) -> None:
    """The lock is removed, and the message names it."""
    before = sorted(os.listdir("."))
    ended = call("fingerprint", "-o", "m", "in", preexec_fn=limit_files(0))
    assert ended == (2, "", f"{NAME}m.lock: can't be written: File too large\n")
    assert sorted(os.listdir(".")) == before


def test_no_room_for_a_zip(four: Four) -> None:
    """It is reported, and the others are done."""
    put("in/b.RT1", b"x" * 3000)
    zip_up("in/b")
    ended = call("fingerprint", "in", preexec_fn=limit_files(1024))
    assert ended.reports == {"in/b": f"can't be unpacked into {os.environ['TIGERCANON_SHM']}: File too large"}
    assert (ended.status, len(ended.out.splitlines()), left_behind()) == (1, 4, [])


def test_no_room_for_a_comparison(room: Path, fake: Path) -> None:
    """A file that can't be written to its end isn't left behind, and an older file of its name is unchanged."""
    shutil.copy(ROOT / "examples/autauga/canonical.txt", "one")
    put("geojson", b"older")
    before = sorted(os.listdir("."))
    ended = call("diff", "--geojson", "geojson", "--all", "one", "one", preexec_fn=limit_files(1024))
    assert ended == (2, "", f"{NAME}geojson: can't be written: File too large\n")
    assert (sorted(os.listdir(".")), Path("geojson").read_bytes()) == (before, b"older")


@pytest.mark.parametrize("words", ["fingerprint in", "fingerprint --json in"])
def test_a_reader_that_is_gone(four: Four, words: str) -> None:
    """The command ends by SIGPIPE, silently."""
    run = begin(*words.split())
    assert run.stdout
    run.stdout.close()
    run.stdout = None
    ended = end(run)
    assert (ended.status, [text for text in ended.lines if "write" in text or "pipe" in text.lower()]) == (-13, [])

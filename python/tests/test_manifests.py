"""Manifests: which of several lines counts, what --update notices, locks, and outputs, one of them not whole."""

from __future__ import annotations

import fcntl
import os
import shutil
import tempfile
import threading
import time
from pathlib import Path
from typing import Iterator

import pytest
from dev.testing import await_that
from support import HEAD, Four, complete, left_behind, listed, manifest, put, zip_up

import tigercanon
from tigercanon import judge, manifests, resources
from tigercanon.errors import Failure
from tigercanon.inputs import Inputs
from tigercanon.judging import Verified
from tigercanon.manifests import Line, lock_held, lock_of, parsed, take_lock
from tigercanon.resources import Resources, new_files, remove_stale_folders

COMMENT = "# 1 2006-01-01T00:00:00Z  {}\n"


def lines_of(text: str) -> list[Line]:
    put("m", text.encode())
    return parsed("m")[1]


def test_several_lines_for_a_county(room: Path) -> None:
    """The last one counts, whether it is a fingerprint, a refusal or a failure; the sources come before their fingerprint."""
    one, two = f"{1:064}  a\n", f"{2:064}  a\n"
    refused, failed = COMMENT.format("refused 14 LinkMissing 7  a"), COMMENT.format("failed: the zip is cut off  a")
    assert lines_of(one + two) == [Line(f"{2:064}", "a")]
    assert lines_of(one + refused) == [Line("", "a", "1 2006-01-01T00:00:00Z", "refused 14 LinkMissing 7")]
    assert lines_of(refused + failed) == [Line("", "a", "1 2006-01-01T00:00:00Z", "failed: the zip is cut off")]
    assert lines_of(failed + one) == [Line(f"{1:064}", "a")]
    assert lines_of(COMMENT.format("a") + one + COMMENT.format("b")) == [Line(f"{1:064}", "a", "1 2006-01-01T00:00:00Z")]
    assert [line.stem for line in lines_of(one + f"{3:064}  b\n" + two)] == ["b", "a"]


def test_line_endings(room: Path) -> None:
    """If all lines end in CR LF these are line endings. Otherwise a CR belongs to the name."""
    for ends, names in ((("\r\n", "\r\n"), ["a", "b"]), (("\r\n", "\n"), ["a\r", "b"]), (("\n", "\r\n"), ["a", "b\r"])):
        assert [line.stem for line in lines_of(f"{1:064}  a{ends[0]}{2:064}  b{ends[1]}")] == names


@pytest.mark.parametrize("head", ["", "# tigercanon form 1\n"])
def test_a_wrong_line_has_its_number(room: Path, head: str) -> None:
    for line, why in (("x", "not a manifest: line {} isn't"), ("# of mine", "line {} is a comment")):
        with pytest.raises(Failure, match=f"^m: {why.format(2 + bool(head))}"):
            lines_of(f"{head}{1:064}  a\n{line}\n")


@pytest.mark.parametrize("reason", ["it isn't a zip", "rejected by --strict: no .RT2 .RT4", "x" * 500])
def test_lines_are_read_as_they_are_written(room: Path, reason: str) -> None:
    for line in (
        Line(f"{1:064}", "a  b", "1 t, 10 t, ? -"),
        Line("", "in/a b", "1 t", f"failed: {reason}"),
        Line("", "a", "? -", "refused 8 Device"),
    ):
        assert lines_of(line.entry) == [line]


def test_names_that_differ_in_case(four: Four) -> None:
    """They are one county, with its last line, and it isn't judged again."""
    put("m", (manifest(four) + f"{9:064}  in/B\n").encode())
    assert [*tigercanon.manifest("in", output="m")] == []
    assert [(line.stem, line.fingerprint[-1]) for line in parsed("m")[1] if line.stem.upper() == "IN/B"] == [("in/B", "9")]
    assert [line.stem for line in parsed("m")[1]] == ["in/-d", "in/B", "in/a a", "in/c"]


def test_update_looks_at_each_file(four: Four) -> None:
    """Another size or time of a county's last file has it judged again."""
    assert len([*tigercanon.manifest("in", output="m")]) == 4
    put("in/b.RTP", b"y\n")
    os.utime("in/c.RT2", (0, 0))
    assert sorted(each.county for each in tigercanon.manifest("in", output="m", update=True)) == ["in/b", "in/c"]
    assert [*tigercanon.manifest("in", output="m", update=True)] == []


def test_sizes_and_times_are_taken_before_judging(room: Path, fake: Path) -> None:
    """A file that changes while its county is judged is judged again by the next update."""
    complete("in/a", b"waits\n")
    put("waits")
    judged: list[object] = []
    thread = threading.Thread(target=lambda: judged.extend(tigercanon.manifest("in", output="m")))
    thread.start()
    assert await_that(lambda: Path("calls").read_text())
    os.utime("in/a.RT4", (0, 0))
    os.unlink("waits")
    thread.join()
    assert len(judged) == 1 and len([*tigercanon.manifest("in", output="m", update=True)]) == 1


def test_a_large_zip_is_not_unpacked(room: Path, fake: Path, monkeypatch: pytest.MonkeyPatch) -> None:
    """Its directory has its size."""
    complete("in/a", b"x" * 1000)
    zip_up("in/a")

    def pieces(*_: object) -> Iterator[bytes]:
        pytest.fail("it is unpacked")
        yield b""

    monkeypatch.setattr(judge, "pieces_of", pieces)
    monkeypatch.setattr(Resources, "place", lambda *_: pytest.fail("it is unpacked"))
    (judged,) = tigercanon.manifest("in", largest=1000)
    assert judged.reason == "the zip unpacks to 1016 bytes, more than --largest 1000"


def test_a_failure_loses_no_fingerprint(four: Four) -> None:
    """Without update a listed county keeps its line, even if it can't be read now; and failed ones are tried again each time."""
    assert len([*tigercanon.manifest("in", output="m")]) == 4
    os.rename("in/b.RT1", "in/kept")
    os.symlink("nowhere", "in/b.RT1")
    (judged,) = tigercanon.manifest("in", output="m")
    assert (judged.county, judged.fingerprint, listed("m")) == ("in/b", None, manifest(four))
    (judged,) = tigercanon.manifest("in", output="m", update=True)
    assert "in/b" not in listed("m") and Line("", "in/b", "? -", f"failed: {judged.reason}") in parsed("m")[1]
    assert [*tigercanon.verify("m")][0] == Verified("in/b", "FAILED", judged.reason or "")
    os.rename("in/kept", "in/b.RT1")
    assert [each.county for each in tigercanon.manifest("in", output="m")] == ["in/b"]
    assert listed("m") == manifest(four)


def test_counties_that_are_gone(four: Four) -> None:
    """They keep their lines until prune takes these out, by the folder or by their names; one that was moved has one line."""
    assert len([*tigercanon.manifest("in", output="m")]) == 4
    for name in os.listdir("in"):
        if name.startswith("b."):
            os.renames(f"in/{name}", f"in/deep/{name}")
        elif name.startswith("c."):
            os.unlink(f"in/{name}")
    left = {stem: text for stem, text in four.items() if stem != "in/b"}
    assert [each.county for each in tigercanon.manifest("in", output="m", update=True)] == ["in/deep/b"]
    assert sorted(listed("m").splitlines()) == sorted(manifest({**left, "in/deep/b": four["in/b"]}).splitlines())
    (absent,) = tigercanon.manifest("in/c.RT1", output="m", update=True)
    assert absent.fingerprint is None and "in/c\n" in listed("m")
    assert len([*tigercanon.manifest("in/c", output="m", update=True, prune=True)]) == 1
    assert "in/c\n" not in listed("m") and "in/deep/b\n" in listed("m")
    shutil.rmtree("in")
    assert len([*tigercanon.manifest("in/-d", "in/a a", "in/deep/b", output="m", update=True, prune=True)]) == 3
    assert Path("m").read_text() == HEAD


def test_a_county_of_a_name_that_is_gone(four: Four) -> None:
    """In another folder and with another map it is another county, and the first one keeps its line, even if a source has its name."""
    assert len([*tigercanon.manifest("in", output="m")]) == 4
    for name in [name for name in os.listdir("in") if name.startswith("b.")]:
        os.renames(f"in/{name}", f"in/deep/{name}")
    put("in/deep/b.RT1", b"another map\n")
    for source, county in (("in", "in/deep/b"), ("in/b", "in/b")):
        assert [each.county for each in tigercanon.manifest(source, output="m", update=True)] == [county]
        assert listed("m") == manifest({**four, "in/deep/b": b"another map\n"})


def test_a_double_that_a_stopped_run_has_left(room: Path, fake: Path) -> None:
    """A run that was killed when it had noted the file with its zip's line: the next one notes it once."""
    complete("in/TGR01001", b"1 one map\n")
    zip_up("in/TGR01001")
    put("in/TGR01001.txt", b"1 one map\n")
    assert len([*tigercanon.manifest("in", output="m")]) == 2
    whole = Path("m").read_bytes()
    put("m", whole.replace(b"form 1\n", b"form 1\n# ? -  failed: not checked yet  in/TGR01001.txt\n"))
    assert [each.is_double for each in tigercanon.manifest("in", output="m")] == [True]
    assert Path("m").read_bytes() == whole


def test_verifications_at_once(four: Four) -> None:
    """They only look whether a run has the lock, and don't keep each other out."""
    put("m", manifest(four).encode())
    put("m.lock", b"process 1 on a machine that was turned off\n")
    with open("m.lock") as other:
        fcntl.flock(other, fcntl.LOCK_SH)
        assert [each.verdict for each in tigercanon.verify("m")] == ["OK"] * 4


def test_a_lock_whose_name_leads_elsewhere(room: Path) -> None:
    put("mine", b"process 1 on a machine\n")
    os.symlink("mine", "m.lock")
    with pytest.raises(Failure, match="m.lock: can't be written"):
        take_lock("m")
    assert Path("mine").read_bytes() == b"process 1 on a machine\n"


def test_a_lock_that_was_removed_meanwhile(room: Path, monkeypatch: pytest.MonkeyPatch) -> None:
    """Another run takes its file away between opening and locking: a new file is made and locked."""
    real = manifests.lock

    def late(name: str, handle: int, how: int, patience: float) -> None:
        monkeypatch.setattr(manifests, "lock", real)
        os.unlink(lock_of("m"))
        real(name, handle, how, patience)

    monkeypatch.setattr(manifests, "lock", late)
    with lock_held("m"):
        with open("m.lock") as other, pytest.raises(BlockingIOError):
            fcntl.flock(other, fcntl.LOCK_EX | fcntl.LOCK_NB)
        assert Path("m.lock").read_text().startswith(f"process {os.getpid()} on ")
    assert not os.path.exists("m.lock")


def test_a_lock_is_held_until_its_name_is_gone(room: Path, monkeypatch: pytest.MonkeyPatch) -> None:
    """Otherwise the name that is removed could be that of the next run's lock. A lock that isn't taken leaves no file open."""
    real = os.unlink

    def unlink(name: str) -> None:
        open_files = os.listdir("/proc/self/fd")
        with pytest.raises(Failure, match="another run writes to it"):
            take_lock("m")
        assert os.listdir("/proc/self/fd") == open_files
        real(name)

    with lock_held("m"):
        monkeypatch.setattr(os, "unlink", unlink)
    assert not os.path.exists("m.lock")


@pytest.mark.parametrize("bad", ["first", "second"])
def test_of_two_outputs_one_is_not_whole(room: Path, monkeypatch: pytest.MonkeyPatch, bad: str) -> None:
    """None of them takes its place, and nothing is left behind."""
    put("first", b"old")
    real = resources.NewFile.finish

    def finish(file: resources.NewFile) -> None:
        if file.name == bad:
            raise Failure("a disk is full")
        real(file)

    monkeypatch.setattr(resources.NewFile, "finish", finish)
    before = sorted(os.listdir("."))
    with pytest.raises(Failure), Resources() as run, new_files(["first", "second"], Inputs([]), run) as files:
        for file in files.values():
            file.write(b"new")
    assert (sorted(os.listdir(".")), Path("first").read_bytes()) == (before, b"old")


def test_what_killed_runs_have_left_beside_a_file(room: Path) -> None:
    """It doesn't stop the next run, even one with the same process number. It is removed once it is old and no run holds it."""
    kept = {f".new.{os.getpid()}.part", ".new.2.part", ".new.notes.part", ".newer.3.part"}
    for name in (*kept, ".new.1.part", ".new.4.part"):
        put(name, b"old")
        os.utime(name, (0, 0))
    os.utime(f".new.{os.getpid()}.part")
    with resources.locked(".new.2.part", fcntl.LOCK_EX), Resources() as run, new_files(["new"], Inputs([]), run) as files:
        files["new"].write(b"new")
    assert (Path("new").read_bytes(), {name for name in os.listdir(".") if ".part" in name}) == (b"new", kept)


def test_a_file_that_is_being_written(room: Path) -> None:
    """Another run with the same output doesn't take it away, even if it is a minute old."""
    with Resources() as run, new_files(["new"], Inputs([]), run) as files:
        files["new"].write(b"first")
        os.utime(files["new"].path, (0, 0))
        with Resources() as other, new_files(["new"], Inputs([]), other) as others:
            others["new"].write(b"second")
        assert Path("new").read_bytes() == b"second"
    assert (Path("new").read_bytes(), [name for name in os.listdir(".") if ".part" in name]) == (b"first", [])


def test_folders_that_are_removed(room: Path, monkeypatch: pytest.MonkeyPatch) -> None:
    """Those of runs that were killed: old, of this user, held by nobody, and without other files."""
    monkeypatch.setattr(tempfile, "tempdir", f"{room}/tmp")
    for name in ("old", "young", "held", "other", "theirs"):
        put(f"tmp/tigercanon-{name}.tmp/county.RT1")
        os.utime(f"tmp/tigercanon-{name}.tmp", (0, 0))
    put("tmp/tigercanon-other.tmp/mine")
    os.utime("tmp/tigercanon-other.tmp", (0, 0))
    now = time.time()
    os.utime("tmp/tigercanon-young.tmp", (now, now))
    left = {"young", "held", "other"}
    if os.geteuid() == 0:
        os.chown("tmp/tigercanon-theirs.tmp", 65534, 65534)
        left.add("theirs")
    with resources.locked("tmp/tigercanon-held.tmp", fcntl.LOCK_EX):
        remove_stale_folders()
    assert {Path(path).name[len("tigercanon-") : -len(".tmp")] for path in left_behind()} == left

"""The calls for archives do what the commands of their names do. They have nothing in common, and end what they have started."""

import os
import shutil
import subprocess
import sys
import tempfile
import threading
import types
import typing
from pathlib import Path
from typing import Callable

import pytest
from dev.testing import ROOT, await_that
from support import (
    Four,
    complete,
    count_of_lines,
    digest,
    environment,
    left_behind,
    listed,
    manifest,
    packed,
    processes,
    put,
    zip_up,
)

import tigercanon
from tigercanon.contents import contents
from tigercanon.errors import Failure
from tigercanon.resources import Closed, Resources


def test_manifest(four: Four) -> None:
    """Fingerprints come without a file, or with one that is the command's. What it lists isn't judged again, unless it has changed."""
    complete("in/x", b"broken\n")
    reason = "refused 1 UnknownType 1 1"
    judged = {each.county: each.fingerprint or each.reason for each in tigercanon.manifest("in")}
    assert judged == {**{stem: digest(text) for stem, text in four.items()}, "in/x": reason}
    assert len([*tigercanon.manifest("in", output="m")]) == 5
    assert listed("m") == manifest(four)
    assert [*tigercanon.manifest("in", output=Path("m"))] == []
    assert [each.reason for each in tigercanon.manifest("in", output="m", again=True)] == [reason]
    complete("in/b", b"county x\n")
    (changed,) = tigercanon.manifest("in", output="m", update=True)
    assert (changed.county, changed.fingerprint, changed.is_changed) == ("in/b", digest(b"county x\n"), True)
    assert listed("m") == manifest({**four, "in/b": b"county x\n"})
    with pytest.raises(ValueError):
        next(tigercanon.manifest("in", update=True))


def test_open_files_after_a_manifest(four: Four) -> None:
    """The calls leave neither the manifest nor its lock open."""
    assert len([*tigercanon.manifest("in", output="m")]) == len([*tigercanon.verify("m", "in")]) == len(four)
    opened = subprocess.run(["ls", "-l", f"/proc/{os.getpid()}/fd"], capture_output=True, text=True).stdout
    assert f"{os.getcwd()}/m" not in opened and "0 -> " in opened


def test_verify(four: Four) -> None:
    put("m", manifest(four).encode())
    complete("in/b", b"county x\n")
    complete("in/x", b"x\n")
    os.unlink("in/c.RT1")
    for kind in "245678IP":
        os.unlink(f"in/c.RT{kind}")
    verdicts = {each.county: each.verdict for each in tigercanon.verify("m", "in")}
    assert verdicts == {"in/-d": "OK", "in/a a": "OK", "in/b": "FAILED", "in/c": "MISSING", "in/x": "NEW"}
    with pytest.raises(Failure, match="nothing: no such file, folder or county"):
        next(tigercanon.verify("m", "nothing"))
    os.rename("in", "moved")
    assert sum(each.verdict == "OK" for each in tigercanon.verify("m")) == 0
    put("m", manifest({"a a": four["in/a a"]}).encode())
    assert [(each.county, each.verdict) for each in tigercanon.verify("m", root=Path("moved"))] == [("a a", "OK")]


def test_checks_and_explain(four: Four, monkeypatch: pytest.MonkeyPatch) -> None:
    """A county that is refused, with the place; what a refusal means; and a county that is accepted."""
    assert [each.reason for each in tigercanon.checks("in/a a")] == [None]
    assert tigercanon.explain(county="in/a a") is None
    county = (ROOT / "examples/autauga/TGR01001.RT1").read_bytes()
    complete("in/a a", county.replace(b"1", b"1         x", 1))
    monkeypatch.setenv("REFUSAL", "refused 4 BadNumber 1 1 6")
    (checked,) = tigercanon.checks("in/a a")
    assert (checked.reason, [(each.file, each.line, each.first) for each in checked.faults]) == (
        "refused 4 BadNumber 1 1 6",
        [("in/a a.RT1", 1, 6)],
    )
    told = tigercanon.explain(county="in/a a")
    assert told and (told.refusal, told.faults) == ("refused 4 BadNumber 1 1 6", checked.faults)
    told = tigercanon.explain("BadNumber")
    assert told and (told.lines[0], told.faults) == ("refused 4 BadNumber PART LINE COLUMN", ())
    with pytest.raises(Failure, match="isn't a refusal"):
        tigercanon.explain("25")


def test_duplicates(room: Path) -> None:
    names = {"a/TGR01001": 1, "b/TGR01001": 1, "a/TGR01003": 2, "a/TGR01005": 2, "a/TGR01007": 3}
    put("m", "".join(["# tigercanon form 1\n", *(f"{number:064}  {name}\n" for name, number in names.items())]).encode())
    groups = [(group.fingerprint[-1], group.counties, group.is_different) for group in tigercanon.duplicates("m")]
    assert groups == [("1", ("a/TGR01001", "b/TGR01001"), False), ("2", ("a/TGR01003", "a/TGR01005"), True)]


def test_where_a_county_is_unpacked(room: Path, monkeypatch: pytest.MonkeyPatch) -> None:
    """In memory, if 64 MiB stay free there, and else in TMPDIR."""
    monkeypatch.setattr(tempfile, "tempdir", None)
    monkeypatch.setattr(shutil, "disk_usage", lambda _: types.SimpleNamespace(free=1 << 30))
    most = (1 << 30) - (64 << 20)
    with Resources() as resources:
        assert [Path(resources.place(size)).parents[1] for size in (most, most + 1)] == [room / "shm", room / "tmp"]
        monkeypatch.setenv("TIGERCANON_SHM", "")
        assert Path(resources.place(0)).parents[1] == room / "tmp"


def at_work(program: Path) -> int:
    """Returns how many processes of the fake there are."""
    return sum(bytes(program) in command and b"fingerprint" in command for _, _, command in processes())


def closed_early(folder: str) -> None:
    """Closes the generator before its end."""
    call = tigercanon.manifest(folder, jobs=2)
    assert next(call).county == f"{folder}/quick"
    call.close()


def ended_by_an_error(folder: str) -> None:
    """Ends the loop over it by an error."""
    with pytest.raises(RuntimeError):
        for _ in tigercanon.manifest(folder, output=f"{folder}.manifest", jobs=2):
            raise RuntimeError


@pytest.mark.parametrize("end", [closed_early, ended_by_an_error])
def test_two_calls_at_once(room: Path, fake: Path, end: Callable[[str], None]) -> None:
    """A call that is ended early ends its own processes and removes its own folders, at once. One in another thread goes on."""
    for name in ("one", "other"):
        complete(f"{name}/quick", b"x\n")
        complete(f"{name}/waiting", b"waits\n")
        zip_up(f"{name}/waiting")
    put("waits")
    judged: list[str] = []
    other = threading.Thread(target=lambda: judged.extend(each.county for each in tigercanon.manifest("other", jobs=2)))
    other.start()
    assert await_that(lambda: at_work(fake) == 1 and judged == ["other/quick"])
    end("one")
    assert await_that(lambda: at_work(fake) == 1, 1)
    assert (len(left_behind()), os.path.exists("one.manifest.lock")) == (1, False)
    os.unlink("waits")
    other.join()
    assert (judged, left_behind(), at_work(fake)) == (["other/quick", "other/waiting"], [], 0)


def test_nothing_starts_after_the_end(room: Path) -> None:
    with Resources() as resources:
        place = Path(resources.place(0))
        place.write_bytes(b"x")
        with resources.part() as part:
            inner = Path(part.place(0))
            assert inner.parent.is_dir()
        assert (inner.parent.exists(), place.parent.is_dir()) == (False, True)
    assert left_behind() == []
    starts: list[Callable[[], object]] = [
        lambda: resources.place(0),
        lambda: resources.run(["/bin/true"]),
        resources.part().__enter__,
    ]
    for start in starts:
        with pytest.raises(Closed):
            start()


def test_what_a_program_has_started_ends_with_it(room: Path) -> None:
    sleeper = shutil.copy("/bin/sleep", room / "sleeper")

    def are_asleep() -> bool:
        return any(command.startswith(bytes(sleeper)) for _, _, command in processes())

    with Resources() as resources:
        threading.Thread(target=resources.run, args=(["/bin/sh", "-c", f"{sleeper} 60 & wait"],), daemon=True).start()
        assert await_that(are_asleep)
    assert await_that(lambda: not are_asleep(), 5)


def test_names_and_types_of_the_package() -> None:
    """dir has each public name, all of them are there, and the hints of each call and type resolve."""
    assert {*tigercanon.__all__} <= {*dir(tigercanon)}
    public = {name: getattr(tigercanon, name) for name in tigercanon.__all__}
    hints = {name: typing.get_type_hints(value) for name, value in public.items() if isinstance(value, (type, types.FunctionType))}
    own = {name: str(getattr(value, "__annotations__", "")) for name, value in public.items()}
    assert [name for name, found in own.items() if "|" in found] == []  # which Python 3.9 can't resolve
    assert [name for name, found in hints.items() if name[0].islower() and "return" not in found] == []
    assert {"fingerprint", "notes"} <= {*hints["Judged"]} and hints["manifest"]["return"] == tigercanon.Results[tigercanon.Judged]


def test_results_and_paths(four: Four, fake: Path) -> None:
    """A call finds the counties and the skipped files at once, and checks them while the results are read. A program can be a path."""
    put("in/read.me", b"x")
    results = tigercanon.manifest(Path("in"), output=Path("m"), program=fake)
    assert (results.skipped, os.path.exists("m"), Path("calls").read_text()) == (("in/read.me",), False, "")
    with results:
        first = next(results)
        assert digest(four[first.county]) == first.fingerprint and first.line in Path("m").read_text()
    assert [*results] == [] and not os.path.exists("m.lock")
    with pytest.raises(Failure, match="with no flags, but this run has --no-sources"):
        next(tigercanon.verify("m", no_sources=True))
    put("calls")
    assert [each.verdict for each in tigercanon.verify("m", quick=True, program=fake)] == ["OK", "ACCEPTED", "ACCEPTED", "ACCEPTED"]
    assert count_of_lines("calls") == 3


def test_explaining_an_exception_or_a_number() -> None:
    refusals: list[typing.Union[str, int, Exception]] = [4, "4", "BadNumber", tigercanon.Refusal(4, "BadNumber", (1, 1, 6))]
    for refusal in refusals:
        answer = tigercanon.explain(refusal)
        assert answer and answer.lines[0] == "refused 4 BadNumber PART LINE COLUMN"
    assert answer and "part 1, line 1, column 6" in answer.lines


def test_one_file_lists_no_folder(room: Path, monkeypatch: pytest.MonkeyPatch) -> None:
    """The calls of the library read a zip or a file with all records without a look at the names beside it."""
    put("in/a.txt", b"1\n")
    put("in/TGR01001.ZIP", packed({"TGR01001.RT1": b"1\n"}))
    monkeypatch.setattr(os, "scandir", lambda *_: pytest.fail("a folder is listed"))
    assert contents("in/a.txt") == [b"1\n"] and contents("in/TGR01001.ZIP")[0] == b"1\n"


CUTS = "import os\nwhile True:\n    os.truncate('all.txt', 0)\n    os.truncate('all.txt', 1 << 24)\n"
READS = """\
import time
from tigercanon.judge import types_missing
end = time.monotonic() + 2
while time.monotonic() < end:
    types_missing("all.txt")
"""


def test_a_file_that_is_cut_off_while_it_is_read(room: Path) -> None:
    """It ends no run, as it would one that had mapped the file."""
    put("all.txt")
    start = [sys.executable, "-c"]
    with subprocess.Popen([*start, CUTS]) as cutting:
        ended = subprocess.run([*start, READS], env=environment(), capture_output=True)
        cutting.kill()
    assert (ended.returncode, ended.stderr) == (0, b"")

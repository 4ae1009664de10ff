"""The work that is sent to the workers of a cluster, and the results from their answers. A fake client of Dask does at once
what it is given."""

import time
from concurrent.futures import CancelledError, Future
from pathlib import Path
from typing import Any, Callable

import pytest
from support import HEAD, Four, complete, manifest, put, zip_up

import tigercanon
from tigercanon import commands, engines
from tigercanon.errors import Failure
from tigercanon.judge import Answer, County, Kind, Order
from tigercanon.progress import Console
from tigercanon.resources import Resources


class Client:
    """Answers the first counties, as many as are given here; then the scheduler is gone."""

    status = "running"

    def __init__(self, count: int) -> None:
        self.count = count

    def map(self, function: Callable[..., Any], *arguments: list[Any], key: str, pure: bool) -> list[Any]:
        return [self.answer(function, *each) for each in zip(*arguments)]

    def answer(self, function: Callable[..., Any], *arguments: Any) -> Any:
        future: Any = Future()
        future.status = "finished"
        self.count -= 1
        if self.count >= 0:
            future.set_result(function(*arguments))
        else:
            future.set_exception(CancelledError())
        return future

    def close(self, timeout: float) -> None:
        pass


@pytest.fixture
def run(monkeypatch: pytest.MonkeyPatch, capsysbinary: Any) -> Any:
    """Runs a command by a scheduler, which is gone after some counties: the status, and the output on both streams."""

    def run(command: str, count: int = 100) -> tuple[int, str, list[str]]:
        monkeypatch.setattr(engines, "client_of", lambda *_: Client(count))
        options = commands.parser().parse_args(command.split())
        status = commands.perform(options, Console(), Resources(prints=True))
        out, err = capsysbinary.readouterr()
        return status, out.decode(), [line.partition(": ")[2] for line in err.decode().splitlines()]

    return run


FLAGS = ("", "--no-sources", "--no-reserved", "--no-sources --no-reserved")


@pytest.mark.parametrize("flags", FLAGS)
def test_flags(four: Four, run: Any, flags: str) -> None:
    """A cluster makes the same manifest as this machine: the workers leave out the same fields."""
    for where in ("--scheduler there:1", "--jobs 2"):
        assert run(f"fingerprint {where} {flags} in")[:2] == (0, manifest(four, flags)), where
    assert run(f"fingerprint --scheduler there:1 {flags} -o m in")[0] == 0
    for more in ("", flags):
        assert run(f"verify --scheduler there:1 {more} m")[:2] == (0, "".join(f"{stem}: OK\n" for stem in four))


@pytest.mark.parametrize("where", ["--scheduler there:1", "--jobs 1"])
def test_limits(four: Four, run: Any, where: str) -> None:
    """Strict mode, and the limits of sizes and of memory."""
    complete("more/no-7", b"x\n")
    put("more/no-7.RT7").unlink()
    complete("more/limited", b"limited\n")
    complete("more/zip", b"x" * 100)
    zip_up("more/zip")
    status, out, reports = run(f"fingerprint {where} --strict --largest 115 --memory 3GB more")
    assert (status, out, sorted(reports[:3])) == (
        1,
        "# tigercanon form 1\n",
        [
            "more/limited: refused 1 Limit 2929687",
            "more/no-7: rejected by --strict: no .RT7",
            "more/zip: the zip unpacks to 116 bytes, more than --largest 115",
        ],
    )
    status, out, reports = run(f"fingerprint {where} --largest 116 more")
    assert (status, [line[66:] for line in out.splitlines()[1:]]) == (1, ["more/no-7", "more/zip"])
    assert sorted(reports[:2]) == ["more/limited: refused 1 Limit unlimited", "more/no-7: no .RT7"]


def test_faults(four: Four, run: Any, monkeypatch: pytest.MonkeyPatch) -> None:
    """What check shows of a refused county comes from a worker as from this machine, and so do notes, failures and time limits, of which
    the least is a second."""
    monkeypatch.setenv("REFUSAL", "refused 4 BadNumber 1 1 6")
    put("in/b.RT1", b"1         x\n")
    put("in/c.RT7").unlink()
    put("in/empty.ZIP")
    local, distant = (run(f"check {where} in") for where in ("--jobs 1", "--scheduler there:1"))
    assert local[1] == distant[1] and "in/b.RT1, line 1, columns 6 to 15, TLID" in local[1]
    assert (local[0], sorted(local[2][:-1])) == (1, sorted(distant[2][:-1]))
    put("waits")
    put("in/b.RT1", b"waits\n")
    limited = run("fingerprint --scheduler there:1 --seconds 1 in/b")
    assert limited[2][0] == "in/b: it takes longer than --seconds 1"


class Lost:
    """A future whose worker ends with an error of this name."""

    def __init__(self, name: str) -> None:
        self.error = type(name, (Exception,), {})("why")

    def result(self) -> Any:
        raise self.error


def test_workers_that_end(monkeypatch: pytest.MonkeyPatch) -> None:
    """A county isn't blamed for a worker that ended, and has failed if its judging did; without its scheduler the engine is gone."""
    monkeypatch.setattr(engines, "client_of", lambda *_: Client(0))
    engine = engines.DaskEngine("there:1")
    assert engine.answer(Lost("KilledWorker")) == Answer(Kind.MEMORY, "every worker that checked it ended")
    assert engine.answer(Lost("ValueError")) == Answer(Kind.FAILED, "its judging ended with ValueError: why")
    for name in engines.SCHEDULER_ENDED:
        with pytest.raises(engines.Gone, match="the scheduler at there:1 is gone"):
            engine.answer(Lost(name))


def test_counties_that_may_not_have_fitted(monkeypatch: pytest.MonkeyPatch) -> None:
    """They are judged again after all others, each alone. The first answer may take a while."""
    at_work: list[str] = []
    judged: list[list[str]] = []

    def judge(county: County, *_: object) -> Answer:
        at_work.append(county.stem)
        is_first = not any(county.stem in each for each in judged)
        time.sleep(0.1)
        judged.append([*at_work])
        at_work.remove(county.stem)
        return Answer(Kind.MEMORY if county.stem in ("b", "c") and is_first else Kind.ACCEPTED, county.stem)

    monkeypatch.setattr(engines, "judge", judge)
    monkeypatch.setattr(engines, "TICK", 0.01)
    with Resources() as resources:
        results = engines.Engine(1, resources).answers([County(stem) for stem in "abcd"], Order(""))
        assert [result[0] for result in results if result] == [0, 3, 1, 2]
        judged.clear()
        results = engines.Engine(4, resources).answers([County(stem) for stem in "bc"], Order(""))
        assert [result[0] for result in results if result] == [0, 1]
    assert judged[2:] == [["b"], ["c"]]


def test_a_call_whose_scheduler_is_gone(four: Four, monkeypatch: pytest.MonkeyPatch) -> None:
    """It raises that after what was answered."""
    monkeypatch.setattr(engines, "client_of", lambda *_: Client(2))
    put("m", manifest(four).encode())
    results = tigercanon.verify("m", scheduler="there:1")
    assert [next(results).verdict for _ in range(2)] == ["OK", "OK"]
    with pytest.raises(Failure, match="^the scheduler at there:1 is gone: 2 counties are left$"):
        next(results)


@pytest.mark.parametrize("count", range(5))
def test_a_scheduler_that_is_gone(four: Four, run: Any, count: int) -> None:
    """What was answered is printed, and the status isn't 0, since not all was done, even if all that was answered is right. A folder that
    couldn't be listed before keeps its line until all is done."""
    put("m", manifest(four).encode())
    put("new", f"{HEAD}# ? -  failed: can't be listed: Permission denied  in/\n".encode())
    left = f"the scheduler at there:1 is gone: {4 - count} counties are left; run the same command again to do them"
    status, out, reports = run("verify --scheduler there:1 m", count)
    assert (status, out) == (int(count < 4), "".join(f"{stem}: OK\n" for stem in [*four][:count]))
    assert (left in reports) == (count < 4)
    status, out, reports = run("fingerprint --scheduler there:1 in", count)
    assert (status, out, left in reports) == (int(count < 4), manifest(dict([*four.items()][:count])), count < 4)
    status, _, reports = run("fingerprint --scheduler there:1 -o new in", count)
    assert (status, left in reports) == (int(count < 4), count < 4)
    assert ("  in/\n" in Path("new").read_text(), run("changes m new")[1].count("unchecked")) == (count < 4, 4 - count)

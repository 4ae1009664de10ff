"""Whole runs over 91 counties by the real program, here and by a Dask scheduler whose workers are killed. Their archive has counties in
several spellings, and each refused example among them, as zips and as single files. A test on a cluster takes seconds: each process of
Dask needs one to start."""

import os
import re
import shutil
import signal
import subprocess
import sys
from collections import Counter
from importlib.util import find_spec
from pathlib import Path
from typing import Any, Iterator, NamedTuple

import pytest
from dev.maps import written
from dev.testing import ROOT, TYPES, await_that, by_type
from differences.changes import made_county
from support import FAKES, Process, begin, built_program, call, count_of_lines, die_with_the_test, end
from support import kill_group, left_behind, listed, processes, put, zip_up

from tigercanon import engines
from tigercanon.counties import Finder
from tigercanon.errors import Failure
from tigercanon.judge import Order, endings

COUNTIES = 91
CHANGED = 3  # zips to which each of five things happens

FINGERPRINT = ("fingerprint", "-o", "m", "in")
VARIABLES = ("TMPDIR", "TIGERCANON_SHM")  # of folders for temporary files
SCHEDULER = ("--scheduler", "dask/scheduler.json")
BY_DASK = (*FINGERPRINT, *SCHEDULER)
# Dask's processes watch themselves many times a second, which takes most of their time. A task may end two workers, and not four.
SETTINGS = {
    "WORKER__PROFILE__ENABLED": "False",
    "WORKER__MEMORY__MONITOR_INTERVAL": "2s",
    "ADMIN__TICK__INTERVAL": "1s",
    "SCHEDULER__ALLOWED_FAILURES": "1",
}


def made_counties() -> Iterator[tuple[str, dict[str, bytes]]]:
    """Yields stems, and files by their types: each map in two spellings, and some in one. Each seventh county is refused, some
    are in a folder of a folder, and some lack files."""
    refused = [*sorted((ROOT / "examples/refused").iterdir()), ROOT / "examples/broken.txt"]
    for number in range(COUNTIES):
        made = written(made_county(12, number // 2), number)
        text = refused[number // 7].read_bytes() if number % 7 == 6 else made
        parts = by_type(b"".join(line + b"\r\n" for line in text.splitlines()))
        for kind in TYPES[1:] if number % 25 == 4 else "78" if number % 25 == 14 else "1" if number % 100 == 44 else "":
            del parts[kind]
        yield f"{'in/more/of it' if number % 5 == 0 else 'in'}/TGR{number:05}", parts


class Archive(NamedTuple):
    """The folder, and what is expected: the lines of the manifest, and the reports."""

    folder: Path
    lines: list[str]
    reports: dict[str, str]


@pytest.fixture(scope="module")
def expected(tmp_path_factory: pytest.TempPathFactory) -> Archive:
    """Returns what the program prints for each county alone, as single files. Each third one then becomes a zip, in which other
    types lie too."""
    made = Archive(tmp_path_factory.mktemp("archive"), ["# tigercanon form 1"], {})
    for stem, parts in sorted(made_counties()):
        files, number = made.folder / stem, int(stem[-5:])
        for kind, text in parts.items():
            put(f"{files}.RT{kind}", text)
        run = subprocess.run([built_program(), "fingerprint", "--stem", "--", files], capture_output=True, text=True)
        if run.returncode == 0:
            made.lines.append(f"{run.stdout.strip()}  {stem}")
        missing = endings(kind for kind in TYPES if kind not in parts)
        empty = "empty .RT1" if parts.get("1") == b"" else ""
        notes = "; ".join(filter(None, [run.stderr.strip(), missing and f"no {missing}", empty]))
        made.reports.update({stem: notes} if notes else {})
        if number % 3 == 0:
            put(f"{files}.RTA", b"A2006\r\n")
            put(f"{files}.RTZ", b"Z2006\r\n")
            zip_up(files, is_lower=number % 2 == 1)
    assert COUNTIES * 8 // 10 < len(made.lines) - 1 < COUNTIES
    return made


@pytest.fixture
def archive(room: Path, program: str, expected: Archive) -> Archive:
    shutil.copytree(expected.folder / "in", "in")
    return expected


@pytest.fixture
def slow(room: Path, program: str, monkeypatch: pytest.MonkeyPatch) -> None:
    """Makes a program that waits a moment before it answers. For some files it ends its parent, which is the worker. Workers that start
    afterwards have it too."""
    monkeypatch.setenv("PROGRAM", program)
    monkeypatch.setenv("TIGERCANON", shutil.copy(FAKES / "slow", room))


def plain(reports: dict[str, str]) -> dict[str, str]:
    """Reports without hints, which the program itself doesn't print."""
    return {stem: re.sub(r"; (the file|there is) .*$", "", text) for stem, text in reports.items()}


def assert_all_done(archive: Archive, killed: int = 0) -> None:
    """Checks that the manifest is whole, and nothing is left behind; a killed worker's folder is removed by a later run."""
    assert listed("m").splitlines() == archive.lines
    if killed:
        assert len(left_behind()) <= killed
        for folder in left_behind():
            os.utime(folder, (0, 0))
        assert call("verify", "m", env={"TIGERCANON": "/bin/true"}).status == 1
    assert left_behind() == []
    assert not os.path.exists("m.lock") and not os.path.exists("m.new")


def test_on_this_machine(archive: Archive) -> None:
    """Zips and their unpacked files have the same fingerprints."""
    ended = call(*FINGERPRINT)
    assert (ended.status, plain(ended.reports)) == (1, archive.reports)
    assert_all_done(archive)
    count = len(archive.lines) - 1
    rules = Counter(" ".join(text.split(";")[0].split()[1:3]) for text in archive.reports.values() if text.startswith("refused"))
    refused, (summary, by_rule, _) = sum(rules.values()), ended.lines[-3:]
    assert summary.startswith(f"{COUNTIES} counties: {count} new, {refused} refused, 0 failed; ")
    assert sorted(by_rule.removeprefix("refused: ").split(", ")) == sorted(f"{rules[rule]} by {rule}" for rule in rules)
    tried = rules["8 Device"]  # the others are in the manifest as refused
    words = f"{count} in the manifest already, {refused - tried} refused before, 0 new, {tried} refused, "
    assert f"{COUNTIES} counties: {words}" in call(*FINGERPRINT).err
    verified = call("verify", "--quiet", "m").out.splitlines()
    assert len(verified) == refused and all(": REFUSED (refused " in line for line in verified)


def change(archive: Archive) -> dict[str, list[str]]:
    """Does to some zips what happens to files in a year: the names of counties by that."""
    zips = {
        line[66:]: path
        for line in archive.lines[1:]
        for path in map(Path, (f"{line[66:]}.ZIP", f"{line[66:]}.zip"))
        if path.exists()
    }
    ways = ("gone", "emptied", "cut", "moved", "unreadable")
    chosen = {way: [*zips][place::7][:CHANGED] for place, way in enumerate(ways)}
    assert {len(stems) for stems in chosen.values()} == {CHANGED}
    for way, stems in chosen.items():
        for path in (zips[stem] for stem in stems):
            text = path.read_bytes()
            path.unlink()
            if way == "moved":
                put(f"in/moved/{path.name}", text)
            elif way == "unreadable":
                path.symlink_to("nowhere")
            elif way != "gone":
                put(path, text[: len(text) // 2 if way == "cut" else 0])
    return chosen


def test_a_second_year(archive: Archive) -> None:
    """What has happened to zips is reported, the manifest follows the disk, and nothing is missing from the counts."""
    assert call(*FINGERPRINT).status == 1
    chosen = change(archive)
    ended = call(*FINGERPRINT, "--update")
    failed = {*chosen["emptied"], *chosen["cut"], *chosen["unreadable"]}
    moved = {stem: f"in/moved/{os.path.basename(stem)}" for stem in chosen["moved"]}
    kept = [line for line in archive.lines[1:] if line[66:] not in failed]
    expected = sorted((f"{line[:66]}{moved.get(line[66:], line[66:])}" for line in kept), key=lambda line: line[66:])
    assert (ended.status, listed("m").splitlines()[1:]) == (1, expected)
    assert {stem for stem in failed if stem not in ended.reports} == set()
    assert {f"{new}: moved from {old}" for old, new in moved.items()} <= {*ended.lines}
    assert {f"{stem}: gone; --prune removes its line" for stem in chosen["gone"]} <= {*ended.lines}
    numbers = {
        noun: int(count)
        for count, noun in re.findall(
            r"(\d+) ([a-z]+)", next(line for line in ended.lines if " gone; " in line and "failed" in line)
        )
    }
    assert (numbers["counties"], numbers["gone"], numbers["new"], numbers["failed"]) == (
        COUNTIES - CHANGED,
        CHANGED,
        CHANGED,
        3 * CHANGED,
    )
    assert numbers["in"] + numbers["new"] + numbers["refused"] + numbers["failed"] <= COUNTIES
    verdicts = Counter(line.split(": ")[1].split(" ")[0] for line in call("verify", "m", "in").out.splitlines())
    refused = COUNTIES - len(archive.lines) + 1
    assert verdicts == {"OK": len(archive.lines) - 1 - 4 * CHANGED, "FAILED": 3 * CHANGED, "MISSING": CHANGED, "REFUSED": refused}
    pruned = call(*FINGERPRINT, "--update", "--prune")
    assert {line[66:] for line in listed("m").splitlines()[1:]} == {line[66:] for line in expected} - {*chosen["gone"]}
    assert {f"{stem}: gone, and its line removed" for stem in chosen["gone"]} <= {*pruned.lines}


class Engine:
    """A Dask scheduler and workers on 127.0.0.1, each a process as a cluster starts it. The workers don't have the package. Those with a
    nanny, a process of its own, are started again when they end."""

    def __init__(self, room: Path, workers: int, has_nannies: bool = False) -> None:
        self.room = room / "dask"
        self.room.mkdir()
        self.file, self.has_nannies = self.room / "scheduler.json", has_nannies
        self.scheduler = self.begin("scheduler", "--port 0 --dashboard-address 127.0.0.1:0")
        assert await_that(self.file.exists), "the scheduler doesn't start"
        self.workers = [self.begin_worker() for _ in range(workers)]

    def begin_worker(self) -> Process:
        more = "" if self.has_nannies else " --no-nanny"
        return self.begin("worker", f"--nthreads 1 --memory-limit 2GB --no-dashboard --local-directory .{more}")

    def begin(self, kind: str, more: str) -> Process:
        words = f"-m distributed.cli.dask_{kind} --scheduler-file scheduler.json --host 127.0.0.1 {more}".split()
        how: dict[str, Any] = {"cwd": self.room, "start_new_session": True, "preexec_fn": die_with_the_test}
        kept = {key: text for key, text in os.environ.items() if key != "PYTHONPATH"}
        kept.update((f"DASK_DISTRIBUTED__{key}", text) for key, text in SETTINGS.items())
        with open(self.room / f"{kind}.log", "ab") as log:
            return subprocess.Popen([sys.executable, *words], stdin=subprocess.DEVNULL, stdout=log, stderr=log, env=kept, **how)

    def worker_processes(self) -> list[int]:
        """Returns the processes that run tasks: the children of the workers' nannies."""
        nannies = [worker.pid for worker in self.workers]
        return [number for number, parent, command in processes() if parent in nannies and b"spawn_main" in command]

    def close(self) -> None:
        for run in (*self.workers, self.scheduler):
            kill_group(run)


@pytest.mark.cluster
@pytest.mark.skipif(not find_spec("distributed"), reason="distributed isn't installed")
class TestDask:
    @pytest.fixture(scope="class")
    def shared(self, tmp_path_factory: pytest.TempPathFactory) -> Iterator[Engine]:
        """Starts a cluster for several tests, since that takes longer than they do."""
        room = tmp_path_factory.mktemp("cluster")
        with pytest.MonkeyPatch.context() as settings:
            settings.setenv("PROGRAM", built_program())
            for variable in VARIABLES:
                (room / variable).mkdir()
                settings.setenv(variable, str(room / variable))
            engine = Engine(room, 3, has_nannies=True)
        yield engine
        engine.close()

    @pytest.fixture
    def engine(self, room: Path, shared: Engine, monkeypatch: pytest.MonkeyPatch) -> Engine:
        """Puts the shared cluster into the test's folder. The test has the same folders for temporary files."""
        (room / "dask").symlink_to(shared.room)
        for variable in VARIABLES:
            monkeypatch.setenv(variable, str(shared.room.parent / variable))
        return shared

    def begun(self) -> Process:
        """Starts a run, and returns it when it has done twenty counties."""
        run = begin(*BY_DASK)
        assert await_that(lambda: count_of_lines("m") > 20)
        return run

    def test_by_a_scheduler(self, archive: Archive, engine: Engine) -> None:
        """The package isn't installed on the workers: what they do comes with the work, but not the program."""
        ended = call(*BY_DASK, "--program", "/no/program")
        why = "a worker has no program: there is no /no/program, and no tigercanon on its PATH"
        assert (ended.status, ended.lines[-1]) == (2, f"the scheduler at dask/scheduler.json: {why}")
        ended = call(*BY_DASK)
        assert ended.status == 1, ended.err
        assert_all_done(archive)
        checked = call("verify", *SCHEDULER, "m")
        assert (checked.status, checked.out.count(": OK\n")) == (1, len(archive.lines) - 1)
        assert checked.out.count("\n") == COUNTIES

    def test_a_signal(self, archive: Archive, slow: None, engine: Engine) -> None:
        run = self.begun()
        run.send_signal(signal.SIGTERM)
        assert run.wait(2) == -signal.SIGTERM
        assert re.fullmatch(rf"stopped by TERM: \d+ of {COUNTIES} counties done", end(run).lines[-1])
        assert call(*BY_DASK).status == 1
        assert_all_done(archive)

    def test_workers_are_killed(self, archive: Archive, slow: None, engine: Engine) -> None:
        """Two of three workers: nothing is missing, and no county is blamed."""
        run, victims = self.begun(), engine.worker_processes()
        assert len(victims) == 3
        for victim in victims[:2]:
            os.kill(victim, signal.SIGKILL)
        ended = end(run)
        assert (ended.status, plain(ended.reports)) == (1, archive.reports)
        assert_all_done(archive, killed=2)

    def test_a_county_that_ends_its_worker(self, archive: Archive, slow: None, engine: Engine) -> None:
        """It is reported; counties that only shared a worker with it aren't."""
        put("in/TGR90001.RT1", b"kill\r\n")
        ended = call(*BY_DASK)
        wanted = {**archive.reports, "in/TGR90001": "every worker that checked it ended"}
        assert (ended.status, plain(ended.reports)) == (1, wanted)
        assert_all_done(archive, killed=4)

    def test_the_scheduler_is_killed(self, archive: Archive, slow: None, room: Path) -> None:
        """The command reports how many counties are left, and the same command does the rest."""
        engine = Engine(room, workers=1)
        run = self.begun()
        os.killpg(engine.scheduler.pid, signal.SIGKILL)
        ended = end(run)
        engine.close()
        assert ended.status == 1, ended.err
        done = listed("m").splitlines()
        (left,) = re.findall(r"is gone: (\d+) counties are left; run the same command again to do them", ended.err)
        assert int(left) == COUNTIES - (len(done) - 1) - sum("refused" in text for text in ended.reports.values())
        assert set(done) <= set(archive.lines) and done[1:] == sorted(done[1:], key=lambda line: line[66:])
        assert call(*FINGERPRINT).status == 1
        assert_all_done(archive)

    @pytest.mark.parametrize("address", ["tcp://127.0.0.1:9", "nowhere.json"])
    def test_without_a_scheduler(self, room: Path, address: str, monkeypatch: pytest.MonkeyPatch) -> None:
        monkeypatch.setattr(engines, "PATIENCE_FOR_SCHEDULER", 1.0)
        with pytest.raises(Failure, match=f"no scheduler answers at {address}: "):
            engines.client_of(address)

    def test_all_workers_are_gone(self, archive: Archive, room: Path, monkeypatch: pytest.MonkeyPatch) -> None:
        """A run over a scheduler without workers ends after a while; one whose first worker comes late goes on."""
        monkeypatch.setattr(engines, "PATIENCE_FOR_WORKERS", 2.0)
        cluster, (counties, _), order = Engine(room, workers=0), Finder().counties(["in/TGR0001*"]), Order(os.environ["TIGERCANON"])
        engine = engines.DaskEngine(str(cluster.file))
        with pytest.raises(engines.Gone, match="has had no worker for"):
            list(engine.answers(counties, order))
        monkeypatch.setattr(engines, "PATIENCE_FOR_WORKERS", 300.0)
        cluster.workers = [cluster.begin_worker()]  # which takes some seconds to be there
        answers = [result for result in engine.answers(counties, order) if result]
        engine.close()
        cluster.close()
        assert sorted(number for number, _ in answers) == list(range(len(counties)))

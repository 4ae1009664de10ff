"""A signal, whenever it comes: the command ends by it within a second and leaves nothing behind, and the same command goes on."""

import fcntl
import os
import signal
import struct
import sys
import termios
import threading
import time
from contextlib import suppress
from pathlib import Path
from typing import Mapping

import pytest
from dev.testing import ROOT, await_that
from support import HEAD, NAME, Process, begin, call, complete, count_of_lines, end, left_behind, limit_files, listed, manifest
from support import processes, put, zip_up

from tigercanon.manifests import parsed

SIGNALS = [signal.SIGINT, signal.SIGTERM, signal.SIGHUP, signal.SIGQUIT, signal.SIGUSR1, signal.SIGXCPU]

COUNTIES = {"in/TGR0": b"waits\n", **{f"in/TGR{number}": b"county %d\n" % number for number in range(1, 10)}}
WANTED = manifest(COUNTIES)


@pytest.fixture
def archive(room: Path, fake: Path) -> Path:
    """Writes ten counties: a zip for which the fake program waits as long as there is a file `waits`, and nine others."""
    for stem, text in COUNTIES.items():
        complete(stem, text)
    zip_up("in/TGR0")
    return room


def assert_nothing_is_left(room: Path) -> None:
    assert left_behind() == []
    assert os.listdir(room / "tmp") == []
    assert not [name for name in os.listdir(room) if name.startswith("m.")]
    program = bytes(room / "program")
    assert await_that(lambda: not any(program in command for _, _, command in processes()), 1)


def assert_the_rest_is_done() -> None:
    assert call("fingerprint", "-o", "m", "in").status == 0
    assert listed("m") == WANTED


def waiting(*words: str, env: Mapping[str, str] = {}) -> Process:
    """Returns a run that waits for the zip, when all others are done."""
    put("waits")
    run = begin("fingerprint", *words, "-o", "m", "in", env=env)
    assert await_that(lambda: listed("m").count("\n") == 10)
    return run


@pytest.mark.parametrize("number", SIGNALS)
def test_a_signal(archive: Path, number: signal.Signals) -> None:
    run = waiting("--jobs", "3")
    assert left_behind() != []
    run.send_signal(number)
    assert run.wait(1) == -number
    assert end(run).lines == [f"stopped by {number.name[3:]}: 9 of 10 counties done"]
    assert_nothing_is_left(archive)
    os.unlink("waits")
    put("calls")
    assert_the_rest_is_done()
    assert count_of_lines("calls") == 1


@pytest.mark.parametrize("number", [signal.SIGINT, signal.SIGKILL])
def test_counties_that_a_stopped_run_has_left(archive: Path, number: signal.Signals) -> None:
    """They don't pass for removed: the manifest lists them as not checked yet. A fingerprint that it had before stays."""
    put("m", manifest({"in/TGR1": b"before\n"}).encode())
    put("whole", WANTED.encode())
    put("waits")
    put("in/TGR1.RT1", b"waits\n")
    run = begin("fingerprint", "--jobs", "3", "--update", "-o", "m", "in")
    assert await_that(lambda: listed("m").count("\n") == 10)
    run.send_signal(number)
    end(run)
    assert [line.stem for line in parsed("m")[1] if line.refusal == "failed: not checked yet"] == ["in/TGR0"]
    ended = call("changes", "--quiet", "whole", "m")
    assert (ended.status, ended.out) == (1, "unchecked  in/TGR0\nchanged  in/TGR1\n")
    assert ended.lines == ["8 same, 1 changed, 0 added, 0 removed, 1 unchecked"]
    ended = call("duplicates", "m")
    assert ended.lines == ["0 groups of one map with 0 counties, none of counties with different names; 1 county isn't checked yet"]
    os.unlink("waits")
    put("in/TGR1.RT1", COUNTIES["in/TGR1"])
    assert call("verify", "--quiet", "m").out == "in/TGR0: ACCEPTED\nin/TGR1: FAILED (another map)\n"
    assert call("fingerprint", "--update", "-o", "m", "in").status == 0
    assert listed("m") == WANTED and "failed" not in Path("m").read_text()


def test_at_any_moment(archive: Path) -> None:
    """Runs that are stopped again and again, while Python starts, while they look for counties, judge and write: in the end all is done.
    This takes seconds: each run starts Python by the launcher, and lasts a little longer than the one before."""
    for count in range(12):
        run = begin(
            "fingerprint", "--jobs", "2", "-o", "m", "in", program=[str(ROOT / "tigercanon-tools")], env={"PYTHON": sys.executable}
        )
        time.sleep(0.05 + 0.06 * count)
        number = SIGNALS[count % 3]
        run.send_signal(number)
        ended = end(run, 10)
        # Python ends with 1 if it is interrupted in the milliseconds before the first line of the script that it was given.
        assert ended.status in (0, -number) or "Fatal Python error: init_" in ended.err
        assert_nothing_is_left(archive)
        text = listed("m") or HEAD
        assert text.startswith(HEAD) and set(text.splitlines()) <= set(WANTED.splitlines()) and text.endswith("\n")
    assert_the_rest_is_done()
    assert count_of_lines("calls") <= len(COUNTIES) + 2 * 12


def test_a_signal_that_does_not_wake_the_main_thread(archive: Path) -> None:
    """Another thread gets it here, as if it came in the moment before the main thread begins to wait. It isn't lost."""
    kills = "while not os.path.exists('go'): time.sleep(0.05)\n    signal.pthread_kill(threading.get_ident(), signal.SIGTERM)"
    starts = "threading.Thread(target=kill, daemon=True).start()"
    put("early/sitecustomize.py", f"import os, signal, threading, time\ndef kill():\n    {kills}\n{starts}\n".encode())
    run = waiting(env={"PYTHONPATH": "early"})
    put("go")
    assert run.wait(5) == -signal.SIGTERM
    assert end(run).lines == ["stopped by TERM: 9 of 10 counties done"]
    assert_nothing_is_left(archive)


@pytest.mark.parametrize("number", SIGNALS[:3])
def test_a_signal_while_the_command_line_is_read(room: Path, number: signal.Signals) -> None:
    """No command has started, and none has failed: the process ends by the signal."""
    kills = f"import argparse, os\nargparse.ArgumentParser.add_subparsers = lambda *_, **__: os.kill(os.getpid(), {number.value})\n"
    put("early/sitecustomize.py", kills.encode())
    ended = call("fingerprint", "in", env={"PYTHONPATH": "early"})
    assert (ended.status, ended.err) == (-number, f"{NAME}stopped by {number.name[3:]}\n")


def test_a_signal_that_is_ignored(archive: Path) -> None:
    """A command that was started by nohup isn't ended by a hangup."""
    before = signal.signal(signal.SIGHUP, signal.SIG_IGN)
    run = waiting()
    signal.signal(signal.SIGHUP, before)
    run.send_signal(signal.SIGHUP)
    os.unlink("waits")
    assert end(run).status == 0
    assert listed("m") == WANTED


def test_a_run_that_is_killed(archive: Path) -> None:
    """What it leaves behind is removed by a later run, once it is a minute old; a folder in use stays."""
    run = waiting()
    (folder,) = left_behind()
    os.utime(folder, (0, 0))
    assert call("fingerprint", "in/TGR1").status == 0
    assert left_behind() == [folder]
    run.kill()
    run.wait()
    os.unlink("waits")
    assert call("fingerprint", "in/TGR1").status == 0
    assert left_behind() == []
    assert_the_rest_is_done()
    end(run)


def test_a_signal_while_a_verification_prints(archive: Path) -> None:
    """Nobody reads standard output, so the command waits to write: it ends all the same."""
    lines = [HEAD, *(f"{0:064}  {'x' * 200}/{number}\n" for number in range(2000))]
    put("m", "".join(lines).encode())
    run, size = begin("verify", "m"), bytearray(4)

    def waiting_to_be_read() -> int:
        assert run.stdout
        fcntl.ioctl(run.stdout, termios.FIONREAD, size)
        return int.from_bytes(size, sys.byteorder)

    assert await_that(lambda: waiting_to_be_read() > 32_000)  # of a pipe that takes 65,536
    time.sleep(0.3)
    run.send_signal(signal.SIGTERM)
    assert run.wait(2) == -signal.SIGTERM
    end(run)


@pytest.mark.parametrize("number", SIGNALS[:3])
def test_a_comparison(room: Path, fake: Path, number: signal.Signals) -> None:
    """If it takes long it reports its progress, after two seconds; and if a signal ends it nothing is left behind."""
    put("one", b"waits\n")
    put("waits")
    before = sorted(os.listdir("."))
    run = begin("diff", "--geojson", "stopped", "one", "one")
    if number == SIGNALS[0]:
        assert run.stderr and run.stderr.readline() == f"{NAME}normalising both sets\n".encode()
    assert await_that(lambda: sorted(os.listdir(".")) != before)
    run.send_signal(number)
    ended = end(run, 60)
    assert ended.status in (128 + number, -number)
    assert (ended.out, sorted(os.listdir("."))) == ("", before)


@pytest.mark.parametrize("option", ["--pages=pages", "--stat"])
def test_comparisons_of_changes(room: Path, fake: Path, option: str) -> None:
    """They end with the command, which leaves no part of a page, no folder and no program."""
    put("waits")
    for edition, text in (("2004", b"waits\n"), ("2006", b"waits too\n")):
        for stem in (f"{edition}/TGR1", f"{edition}/TGR3"):
            complete(stem, text)
            zip_up(stem)
        put(edition + ".manifest", manifest({f"{edition}/TGR1": text, f"{edition}/TGR3": text}).encode())
    run = begin("changes", "--jobs", "2", option, "2004.manifest", "2006.manifest")
    assert await_that(lambda: len(left_behind()) == 4 and count_of_lines("calls") == 4)
    run.send_signal(signal.SIGINT)
    assert run.wait(5) == -signal.SIGINT
    assert end(run).lines[-1] == f"stopped by INT: 0 of 2 {'pages' if 'pages' in option else 'counties'} done"
    assert_nothing_is_left(room)
    assert os.listdir("pages" if "pages" in option else "tmp") == []


def test_a_command_that_can_not_go_on(archive: Path) -> None:
    """It ends at once, and doesn't wait for the counties that are being judged: here the manifest takes only one result."""
    put("waits")
    put("m", "".join([HEAD, *(f"{number:064}  a/no-{number:02}\n" for number in range(7))]).encode())
    ended = end(begin("fingerprint", "--jobs", "3", "-o", "m", "in", preexec_fn=limit_files(1424)), 30)
    assert (ended.status, ended.lines[-1]) == (2, "m: can't be written: File too large")
    assert (count_of_lines("m"), listed("m").count("\n")) == (20, 9)
    assert_nothing_is_left(archive)


def rows_of(shown: bytes) -> list[str]:
    """Returns the rows of a terminal that was sent this: what comes after a CR stands over what was in the row."""
    rows = []
    for line in shown.decode().split("\n"):
        row = ""
        for text in line.split("\r"):
            row = text + row[len(text) :]
        rows.append(row.rstrip())
    return rows


@pytest.mark.parametrize("is_stopped", [False, True])
def test_a_terminal(archive: Path, is_stopped: bool) -> None:
    """A progress bar, if tqdm is installed. It goes away for each line, and at the end."""
    pytest.importorskip("tqdm")
    put("in/TGR5.RT1", b"broken\n")
    if is_stopped:
        put("waits")
    terminal, inner = os.openpty()
    fcntl.ioctl(inner, termios.TIOCSWINSZ, struct.pack("HHHH", 24, 150, 0, 0))
    run = begin("fingerprint", "--jobs", "2", "in", stdout=inner, stderr=inner)
    os.close(inner)
    shown, late = b"", threading.Timer(60.0, run.kill)
    late.start()
    with suppress(OSError), open(terminal, "rb", buffering=0) as screen:
        while text := screen.read(4096):
            shown += text
            if is_stopped and b"9/10" in shown:
                run.send_signal(signal.SIGINT)
    late.cancel()
    assert end(run).status == (-signal.SIGINT if is_stopped else 1)
    assert b"0/10" in shown and b" counties/s" in shown
    rows, wanted = rows_of(shown), {*WANTED.splitlines(), f"{NAME}in/TGR5: refused 1 UnknownType 1 1", ""}
    rest = [row for row in rows if row not in wanted]
    ends = (
        ["stopped by INT: 9 of 10 counties done"] if is_stopped else ["10 counties: 9 fingerprints", "refused: 1 by 1 UnknownType"]
    )
    assert len(rest) == len(ends) and all(row.startswith(NAME + text) for row, text in zip(rest, ends)), rest

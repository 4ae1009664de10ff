"""What the tests share: a folder for each, the real program, and a fake one with four counties."""

import shutil
import signal
import sys
from pathlib import Path

import pytest
from support import FAKES, Four, built_program, complete

sys.dont_write_bytecode = True

# In the background or under nohup some signals are ignored, and programs that the tests start would ignore them too.
for number in (signal.SIGHUP, signal.SIGINT, signal.SIGQUIT):
    if signal.getsignal(number) is signal.SIG_IGN:
        signal.signal(number, signal.SIG_DFL)


@pytest.fixture
def room(tmp_path: Path, monkeypatch: pytest.MonkeyPatch) -> Path:
    """Makes a folder where the test runs. Temporary files go to its folders tmp and shm."""
    monkeypatch.chdir(tmp_path)
    monkeypatch.delenv("TIGERCANON", raising=False)
    monkeypatch.setenv("TIGERCANON_PAGE", str(FAKES / "page.html"))
    for variable, name in (("TMPDIR", "tmp"), ("TIGERCANON_SHM", "shm")):
        (tmp_path / name).mkdir()
        monkeypatch.setenv(variable, str(tmp_path / name))
    return tmp_path


@pytest.fixture
def program(room: Path, monkeypatch: pytest.MonkeyPatch) -> str:
    """Returns the program that ./tigercanon would run, or that TIGERCANON names."""
    monkeypatch.setenv("TIGERCANON", built_program())
    return built_program()


@pytest.fixture
def fake(room: Path, monkeypatch: pytest.MonkeyPatch) -> Path:
    """Writes a fake program, which notes its calls in the file `calls`."""
    path = Path(shutil.copy(FAKES / "program", room))
    (room / "calls").touch()
    monkeypatch.setenv("TIGERCANON", str(path))
    monkeypatch.setenv("ROOM", str(room))
    return path


@pytest.fixture
def four(room: Path, fake: Path) -> Four:
    """Writes four counties for the fake program, with odd names, in the order of the manifest."""
    counties = {f"in/{name}": f"county {name}\n".encode() for name in ("-d", "a a", "b", "c")}
    for stem, text in counties.items():
        complete(stem, text)
    return counties

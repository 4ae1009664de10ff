"""Sessions with the tools, in sessions/. The commands of fakes/commands are there too, and fakes/program takes the place of the program."""

import shutil
from pathlib import Path

import pytest
from dev.sessions import Session, sessions_of
from support import PACKAGE, built_program, left_behind, shell

SESSIONS = [session for file in sorted((PACKAGE / "tests/sessions").glob("*.txt")) for session in sessions_of(file)]


def files(room: Path) -> dict[Path, object]:
    """Returns the files and folders of the test, without the notes of the fake program."""
    return {path: path.is_file() and path.read_bytes() for path in room.rglob("*") if path != room / "calls"}


@pytest.mark.parametrize("session", SESSIONS, ids=[session.name for session in SESSIONS])
def test_session(room: Path, fake: Path, session: Session) -> None:
    """Each line on standard error begins with the name of the tools, and no other one does. No command leaves a temporary folder behind,
    and one that ends with status 2 changes no file."""
    if not shutil.which("zip") and any("zip -" in step.command for step in session.steps):
        pytest.skip("zip isn't installed")
    if any("$REAL" in step.command for step in session.steps):
        built_program()
    for step in session.steps:
        before = files(room)
        ended = shell(step.command)
        fault = step.fault(ended.status, ended.out + ended.err, room)
        assert not fault, fault
        errors = [line for line in (ended.out + ended.err).splitlines() if line.startswith("tigercanon-tools")]
        assert errors == ended.err.splitlines(), step.command
        assert left_behind() == []
        assert ended.status != 2 or files(room) == before, step.command

"""Each file that a walk meets is judged, fails or is skipped, and is counted as that: a property over random folders."""

from __future__ import annotations

import gzip
import os
import random
import shutil
import subprocess
from collections import Counter
from pathlib import Path
from typing import Callable

import pytest
from support import PACKAGE, TOOLS, call, put
from dev.testing import ROOT

import tigercanon
from tigercanon.counties import Finder

COUNTY = (ROOT / "examples/autauga/canonical.txt").read_bytes()
CONTENTS: dict[str, Callable[[bytes], bytes]] = {
    "right": lambda text: text,
    "torn": lambda text: text[7:],
    "blank": lambda text: b"\n" + text,
    "marked": lambda text: b"\xef\xbb\xbf" + text,
    "UTF-16": lambda text: text.decode("latin-1").encode("utf-16"),
    "empty": lambda _: b"",
    "cut": lambda text: text[:-30],
    "read": lambda _: b"read me\n",
    "CR": lambda text: text.replace(b"\n", b"\r"),
}
BEGIN_WITH_A_RECORD = ("right", "cut", "CR")
NAMES = {
    "TGR{}.txt": True,
    "tgr{}": True,
    "TGR{}.txt.gz": True,
    "notes-{}": False,
    "x{}.gz": False,
    "TGR{}.MET": None,
    "y{}.RTA": None,
}
"""Names of files, and whether they are a county's: None for names of other files."""


class Folder:
    """Random files below a folder, with the answer expected for each: accepted, refused or failed, or skipped."""

    def __init__(self, seed: int) -> None:
        self.chance = random.Random(seed)
        self.expected: dict[str, str] = {}
        for number in range(12):
            folder = self.chance.choice(["in", "in/deep", "in/deep/er"])
            self.add(f"{folder}/{self.chance.choice([*NAMES]).format(f'{number:05}')}")

    def add(self, path: str) -> None:
        content = self.chance.choice([*CONTENTS])
        text = CONTENTS[content](COUNTY)
        is_broken = path.endswith(".gz") and self.chance.random() < 0.4
        if path.endswith(".gz"):
            text = gzip.compress(text)[:15] if is_broken else gzip.compress(text)
        put(path, text)
        self.expected[path] = self.verdict(path, content, is_broken)

    def verdict(self, path: str, content: str, is_broken: bool) -> str:
        (is_named,) = (value for name, value in NAMES.items() if path.endswith(name.rpartition("}")[2]) and is_like(name, path))
        if is_named is None:
            return "skipped"
        if is_broken:
            return "failed"
        if content == "right":
            return "accepted"
        return "failed" if is_named or content in BEGIN_WITH_A_RECORD else "skipped"


def is_like(name: str, path: str) -> bool:
    return os.path.basename(path).startswith(name.partition("{")[0])


@pytest.fixture
def folders(room: Path, program: str, request: pytest.FixtureRequest) -> Folder:
    return Folder(request.param)


@pytest.mark.parametrize("folders", range(8), indirect=True)
def test_random_folders(folders: Folder) -> None:
    """Python's calls and the commands count the same, and each file once."""
    results = tigercanon.manifest("in")
    verdicts = {each.county: "accepted" if each.fingerprint else "failed" for each in results}
    assert {**verdicts, **{path: "skipped" for path in results.skipped}} == folders.expected
    checks = tigercanon.checks("in")
    assert {each.county: "failed" if each.reason else "accepted" for each in checks} == verdicts
    assert checks.skipped == results.skipped
    counts = Counter(folders.expected.values())
    ended = call("fingerprint", "-o", "m", "in")
    assert ended.status == int(counts["failed"] > 0)
    assert (f"skipped: {counts['skipped']} file" in ended.err) == bool(counts["skipped"])
    news = [each for each in tigercanon.verify("m", "in") if each.verdict == "NEW"] if counts["accepted"] else []
    assert news == []


@pytest.mark.parametrize("name", ["TGR01001.txt", "notes"])
def test_a_file_without_permission(room: Path, program: str, name: str) -> None:
    """Root may read all, so this runs as another user."""
    if os.geteuid() == 0 and not shutil.which("setpriv"):
        pytest.skip("root may read each file, and there is no setpriv")
    for path in (room, *room.parents):
        if path.stat().st_mode & 5 != 5 and os.access(path, os.W_OK) and "pytest" in str(path):
            path.chmod(0o755)
    shutil.copytree(PACKAGE / "tigercanon", "packages/tigercanon")
    shutil.copy(program, "program")
    put(f"in/{name}", COUNTY).chmod(0)
    other = ["setpriv", "--reuid=65534", "--regid=65534", "--clear-groups"] if os.geteuid() == 0 else []
    if subprocess.run([*other, "test", "-x", room / "program"]).returncode:
        pytest.skip("another user can't reach the folder of the test")
    env = {"PYTHONPATH": f"{room}/packages", "TIGERCANON": f"{room}/program", "TIGERCANON_SHM": "", "PATH": os.environ["PATH"]}
    for command in ("fingerprint", "check"):
        ended = subprocess.run([*other, *TOOLS, command, "in"], env=env, capture_output=True, text=True)
        assert (ended.returncode, f"in/{name}: can't be read: Permission denied" in ended.stderr + ended.stdout) == (1, True)


def test_what_a_manifest_lists_is_a_county(room: Path) -> None:
    for content, changed in CONTENTS.items():
        put(f"in/{content}", changed(COUNTY))
    assert {county.stem for county in Finder().all(["in"])} == {f"in/{content}" for content in BEGIN_WITH_A_RECORD}
    listed = {f"in/{content.upper()}" for content in CONTENTS}
    assert {county.stem for county in Finder(listed=listed).all(["in"])} == {f"in/{content}" for content in CONTENTS}

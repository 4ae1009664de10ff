"""The module for Python over the library itself, as scripts/build-library makes it, compared with the program."""

from __future__ import annotations

import gc
import hashlib
import os
import re
import resource
import sys
from concurrent.futures import ThreadPoolExecutor
from pathlib import Path
from typing import Any, Iterator

import pytest
from dev.testing import ROOT, TYPES, Answer, make_county, run, script
from support import environment, packed, put

import tigercanon
from tigercanon import _library

AUTAUGA = ROOT / "examples/autauga/all.txt"
RENUMBERED = ROOT / "examples/autauga-renumbered/all.txt"
ONE_ADDRESS = ROOT / "examples/autauga-one-address.txt"
CANONICAL = ROOT / "examples/autauga/canonical.txt"
REFERENCE = script("vectors/reference")

pytestmark = pytest.mark.library


@pytest.fixture(scope="module", autouse=True, name="library")
def loaded() -> Iterator[Path]:
    """Yields the library that the variable names, or the last one built."""
    made = Path(os.environ.get(_library.VARIABLE, ROOT / "out/library/lib" / _library.NAME)).resolve()
    if not made.exists():
        pytest.skip(f"no {made}: scripts/build-library builds it")
    _library.library.cache_clear()
    yield made
    _library.library.cache_clear()


def answer(words: list[str], files: dict[str, bytes]) -> Answer:
    """Returns what the program would answer to these words, by the module and with files in memory."""
    command, names, left_out = REFERENCE.plan(words)
    sets = [files[stem[0]] if len(stem) == 1 else [files.get(name, b"") for name in stem] for stem in names]
    masks = {mask[2:].replace("-", "_"): True for mask, fields in REFERENCE.MASKS.items() if fields[0] in left_out}
    try:
        answered = getattr(tigercanon, command)(*sets, **masks)
    except tigercanon.Refusal as refusal:
        return Answer(5 if refusal.number == 9 else 3, b"", f"{refusal}\n".encode())
    if command == "compare":
        return Answer(0, b"same\n", b"") if answered else Answer(1, b"different\n", b"")
    if command == "check":
        return Answer(0, b"accepted\n", b"")
    return Answer(0, f"{answered}\n".encode() if command == "fingerprint" else answered, b"")


def test_vectors() -> None:
    """The cases of vectors/ with correct arguments and files that can be read."""
    vectors = script("vectors/run")

    def call(_: list[str], asked: Any) -> Any:
        files = {name: text for name, text in asked.files.items() if text is not None}
        if asked.pieces is not None:
            files["/dev/stdin"] = b"".join(asked.pieces)
        return vectors.Ended(*answer(asked.words, files))

    vectors.call = call
    cases = [case for case in vectors.cases_of("") if case.get("status") not in (2, 4)]
    cases = [case for case in cases if all(isinstance(file, str) for file in case["files"].values())]
    assert len(cases) > 100
    for case in cases:  # these calls read whole files
        case["also"] = [way for way in case.get("also", []) if way != "endless"]
    assert {case["name"]: told for case in cases for told in [vectors.judge([], case)] if told} == {}


def test_examples_of_refusals() -> None:
    """Every example of a refusal, with all that the exception has. The other calls get them as cases of vectors/."""
    table = (ROOT / "examples/README.md").read_text("utf-8").split("## Refused sets")[1]
    rows = re.findall(r"^\| `([a-z-]*\.txt)` \|.*`refused ([^`]*)` \|$", table, re.M)
    assert len(rows) == len(list((ROOT / "examples/refused").iterdir()))
    for name, told in rows:
        number, title, *places = told.split()
        with pytest.raises(tigercanon.Refusal) as raised:
            tigercanon.compare(AUTAUGA, ROOT / "examples/refused" / name)
        refusal = raised.value
        assert (refusal.number, refusal.name, refusal.set, [*map(str, refusal.places)]) == (int(number), title, 2, places)
        assert refusal.line == str(refusal) == f"refused {told} in set 2"


def test_lines_of_the_page_on_refusals() -> None:
    """The lines that the page on refusals shows with the refusals 1 to 6."""
    page = (ROOT / "docs/refusals.md").read_text("utf-8").replace("\n###", "\n###\n###")
    heading = r"^### `refused (\d) (\w+) PART LINE(?: COLUMN)?`$(.*?)^###"
    found = {}
    for number, name, text in re.findall(heading, page, re.M | re.S):
        shown = re.search(r"^    (.*)$", text, re.M)
        assert shown
        with pytest.raises(tigercanon.Refusal) as raised:
            tigercanon.respell([shown[1].encode()])
        assert (raised.value.number, raised.value.name) == (int(number), name)
        found[int(number)] = raised.value.places
    assert found == {1: (1, 1), 2: (1, 1), 3: (1, 1, 12), 4: (1, 1, 6), 5: (1, 1, 55), 6: (1, 1, 27)}


def test_counties(tmp_path: Path) -> None:
    """One county as bytes, as a file, as nine files and as a zip, in either case of their names."""
    members = {f"TGR01001.RT{kind}": (AUTAUGA.parent / f"TGR01001.RT{kind}").read_bytes() for kind in TYPES}
    for name, text in members.items():
        put(tmp_path / name.replace("TGR", "tgr").replace("RT", "rt"), text)
    zipped = put(tmp_path / "TGR01001.ZIP", packed(members))
    digits = hashlib.sha256(CANONICAL.read_bytes()).hexdigest()
    files: list[tigercanon.Set] = [AUTAUGA, AUTAUGA.parent / "TGR01001", tmp_path / "tgr01001", zipped, CANONICAL]
    for county in [*files, AUTAUGA.read_bytes(), list(members.values())]:
        assert tigercanon.fingerprint(county) == digits
        assert tigercanon.normalise(county) == CANONICAL.read_bytes()
        assert tigercanon.compare(county, RENUMBERED) is True
        assert tigercanon.compare(ONE_ADDRESS, county) is False
    assert tigercanon.fingerprint(b"") == tigercanon.fingerprint([b""]) == hashlib.sha256(b"").hexdigest()
    assert tigercanon.normalise([b"", AUTAUGA, b""]) == CANONICAL.read_bytes()


def test_rounds() -> None:
    """A thousand calls leave no memory behind, refused ones among them: at most 512 KiB more are in use than after a hundred."""
    text, other = AUTAUGA.read_bytes(), bytearray(RENUMBERED.read_bytes())
    bad = (ROOT / "examples/broken.txt").read_bytes()
    memory = []
    for rounds in (100, 900):
        for _ in range(rounds):
            tigercanon.normalise([text, b""])
            tigercanon.fingerprint(memoryview(other), no_sources=True)
            tigercanon.compare(text, other)
            with pytest.raises(tigercanon.Refusal):
                tigercanon.check(bad)
        gc.collect()
        memory.append(int(Path("/proc/self/statm").read_text().split()[1]) * resource.getpagesize())
    assert memory[1] - memory[0] <= 512 << 10


@pytest.fixture(scope="module", name="county")
def made_county(tmp_path_factory: pytest.TempPathFactory) -> Path:
    path = tmp_path_factory.mktemp("county") / "county.txt"
    make_county(2000, path)
    return path


def test_threads_at_once(county: Path) -> None:
    texts = [county.read_bytes(), AUTAUGA.read_bytes(), RENUMBERED.read_bytes(), b""]
    wanted = [(tigercanon.fingerprint(text), tigercanon.normalise(text)) for text in texts]
    with ThreadPoolExecutor(4) as threads:
        found = list(threads.map(lambda text: (tigercanon.fingerprint(text), tigercanon.normalise(text)), texts * 16))
    assert found == wanted * 16


IN_LITTLE_MEMORY = """
import sys, resource, threading, tigercanon
with open(sys.argv[1], 'rb') as file: text = file.read()
tigercanon.check(b'')

def ask():
    size = int(open('/proc/self/statm').read().split()[0]) * 4096 + int(sys.argv[2]) * 1024
    resource.setrlimit(resource.RLIMIT_AS, (size, size))
    try: print(tigercanon.fingerprint(text))
    except MemoryError as error: print(repr(error), error.number, error)

threading.stack_size(16 << 20)
thread = threading.Thread(target=ask)
thread.start()
thread.join()
"""
"""The call is made on a stack that has its memory already: under the limit a stack can't grow."""


def test_little_memory(county: Path, library: Path) -> None:
    """A county that memory doesn't suffice for is refused, and never answered wrongly."""
    env = environment(MALLOC_ARENA_MAX="1", TIGERCANON_LIBRARY=str(library))
    right = f"{tigercanon.fingerprint(county)}\n".encode()
    lacking = b"OutOfMemory(9, 'Memory', (), None) 9 refused 9 Memory\n"
    told = set()
    for kib in range(0, 6144, 512):
        ended = run([sys.executable, "-W", "ignore", "-c", IN_LITTLE_MEMORY, county, kib], env=env)
        assert ended.out in (right, lacking), (kib, ended.err[-300:])
        told.add(ended.out)
    assert told == {right, lacking}

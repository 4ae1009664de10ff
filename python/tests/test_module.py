"""The module for Python over a fake library: its calls of the library, and its results from the answers."""

import array
import gzip
import inspect
import io
import mmap
import os
import shutil
import sys
import threading
import time
import zipfile
from functools import partial
from itertools import product
from pathlib import Path
from typing import Any, Callable, Iterator

import pytest
from dev.testing import ROOT, TYPES, Answer, run
from support import FAKES, packed, put

import tigercanon
from tigercanon import _library
from tigercanon.explanations import SECTION, page

TEXT = b"1 first line\n2 second line: \xe9\n"

REFUSALS = [found for found in SECTION.findall(page()) if found[0] not in ("8", "10")]
"""Each refusal that a call can report: its number, its name and its places, as docs/refusals.md has them."""


@pytest.fixture(scope="module", name="library")
def compiled(tmp_path_factory: pytest.TempPathFactory) -> Path:
    if not shutil.which("gcc"):
        pytest.skip("no gcc")
    made = tmp_path_factory.mktemp("library") / _library.NAME
    words = ["gcc", "-shared", "-fPIC", "-O1", "-Wall", "-Werror", f"-I{ROOT / 'include'}", "-o", made, FAKES / "library.c"]
    assert run(words) == (0, b"", b"")
    return made


@pytest.fixture(autouse=True)
def loaded(library: Path, monkeypatch: pytest.MonkeyPatch) -> Iterator[None]:
    monkeypatch.setenv(_library.VARIABLE, str(library))
    _library.library.cache_clear()
    yield
    _library.library.cache_clear()


echoed: Callable[[Any], bytes] = tigercanon.respell
"""What the fake library was lent."""


def kinds(folder: Path) -> dict[str, Callable[[], Any]]:
    """Returns one part with the text, in each form that a part may have."""
    path = put(folder / "part", TEXT)
    put(folder / "part.gz", gzip.compress(TEXT))
    put(folder / "members.zip", packed({"part": TEXT}))
    return {
        "bytes": lambda: TEXT,
        "bytearray": lambda: bytearray(TEXT),
        "memoryview": lambda: memoryview(TEXT),
        "slice": lambda: memoryview(b"xx" + TEXT + b"x")[2:-1],
        "mmap": lambda: mmap.mmap(os.open(path, os.O_RDWR), 0),
        "read-only mmap": lambda: mmap.mmap(os.open(path, os.O_RDONLY), 0, prot=mmap.PROT_READ),
        "array": lambda: array.array("B", TEXT),
        "array of wider items": lambda: array.array("H", TEXT),
        "view of wider items": lambda: memoryview(TEXT).cast("H"),
        "view of two dimensions": lambda: memoryview(TEXT).cast("B", (2, len(TEXT) // 2)),
        "file": lambda: open(path, "rb"),
        "file without a buffer": lambda: open(path, "rb", buffering=0),
        "BytesIO": lambda: io.BytesIO(TEXT),
        "gzip": lambda: gzip.open(folder / "part.gz", "rb"),
        "member of a zip": lambda: zipfile.ZipFile(folder / "members.zip").open("part"),
        "str": lambda: str(path),
        "PathLike": lambda: path,
    }


def test_parts(tmp_path: Path) -> None:
    """One part and several, by each call."""
    assert len(TEXT) % 2 == 0
    for kind, make in kinds(tmp_path).items():
        assert tigercanon.check(make()) is None, kind  # type: ignore[func-returns-value]
        assert echoed(make()) == TEXT, kind
        assert tigercanon.normalise(make(), no_sources=True) == TEXT + b"+no_sources", kind
        assert tigercanon.compare(make(), TEXT) is True, kind
        assert tigercanon.compare(b"other", make()) is False, kind
        assert tigercanon.fingerprint(make())[:62] == TEXT[:31].hex().ljust(62, "0"), kind
        for several in ([make(), b"", make()], (part for part in (make(), b"", make()))):
            assert echoed(several) == TEXT + b"||" + TEXT, kind
    assert echoed(TEXT.splitlines(keepends=True)) == b"|".join(TEXT.splitlines(keepends=True))


def test_nothing() -> None:
    for nothing in (b"", bytearray(), memoryview(b""), memoryview(b"").cast("B"), [b""], array.array("H"), io.BytesIO()):
        assert echoed(nothing) == b""
    assert echoed([b""] * 3) == b"||"


def test_a_file_from_its_position(tmp_path: Path) -> None:
    with put(tmp_path / "part", TEXT).open("rb") as file:
        first = file.readline()
        assert echoed(file) == TEXT[len(first) :]
        assert echoed(file) == b""


def test_many_parts() -> None:
    """A set may have more parts than a county has files, and each counts."""
    for count in (8, 9, 10, 11, 300):
        parts = [b"%d" % number for number in range(count)]
        assert echoed(parts) == b"|".join(parts)
        assert tigercanon.compare(parts, iter(parts)) is True
        assert tigercanon.compare(parts, parts[:-1]) is False


def test_large_parts(tmp_path: Path) -> None:
    """Each byte of a file counts, and lengths have 64 bits. Parts of a file that aren't written take no space, but it takes seconds to read
    and to pack them."""
    for size in (70 << 20, (4 << 30) + 5):
        path = tmp_path / f"{size}"
        with path.open("wb") as made:
            made.seek(size - 1)
            made.write(b"z")
        told = b"%d to z" % size
        with path.open("rb") as file, mmap.mmap(file.fileno(), 0, prot=mmap.PROT_READ) as text:
            assert echoed(text) == told
            assert echoed([b"", memoryview(text), b"x"]) == b"|" + told + b"|x"
            if size < 1 << 30:
                assert echoed(file) == echoed(path) == echoed([path]) == told
                assert echoed(io.BytesIO(text)) == echoed(path.open("rb", buffering=0)) == told
        if size < 1 << 30:
            put(tmp_path / "part.gz", gzip.compress(path.read_bytes(), 1))
            put(tmp_path / "a.zip", packed({"a.RT1": path.read_bytes(), "part": path.read_bytes()}))
            assert echoed(gzip.open(tmp_path / "part.gz")) == echoed(zipfile.ZipFile(tmp_path / "a.zip").open("part")) == told
            assert echoed(tmp_path / "a.zip") == told + b"|" * 8


def assert_raises(error: type[Exception], *sets: Any, match: str = "") -> None:
    for parts in sets:
        with pytest.raises(error, match=match):
            tigercanon.check(parts)


def test_what_is_no_part(tmp_path: Path) -> None:
    with put(tmp_path / "text", b"x").open() as in_text_mode:
        assert_raises(TypeError, 1, None, [1, 2], [None], in_text_mode, [[b"x"]])
    assert_raises(TypeError, None, match="a set is a path, bytes, .*, not NoneType")
    assert_raises(ValueError, [], iter(()), match="a set has at least one part")
    assert_raises(BufferError, memoryview(TEXT)[::2], memoryview(TEXT)[::-1], memoryview(TEXT).cast("H")[::2])
    with pytest.raises(TypeError):
        tigercanon.check(TEXT, no_sources=True)  # type: ignore[call-arg]


def test_parts_are_given_back() -> None:
    lent = bytearray(TEXT)
    echoed(lent)
    kept: list[object] = []
    for parts in ([lent, memoryview(TEXT)[::2]], [lent, 1], [b"fault 4 0 6 0000000000 1 2 3", lent]):
        with pytest.raises((BufferError, TypeError, tigercanon.Refusal)) as raised:
            tigercanon.check(parts)  # type: ignore[arg-type]
        kept.append(raised)
    lent.extend(b"a bytearray that is lent can't be made longer")


def test_stems(tmp_path: Path) -> None:
    """The nine files in their order, in either case of their endings. An absent one is empty."""
    for name, text in (("TGR01001.RT1", b"one"), ("TGR01001.rti", b"I"), ("TGR01001.RTP", b"P"), ("TGR010011.RT2", b"another")):
        put(tmp_path / name, text)
    for stem in (tmp_path / "TGR01001", str(tmp_path / "TGR01001")):
        assert echoed(stem) == b"one|||||||I|P"
    assert_raises(FileNotFoundError, tmp_path / "TGR01003", match="no county's files begin with this name")
    assert_raises(FileNotFoundError, [tmp_path / "TGR01001"])
    put(tmp_path / "TGR01001.rt1", b"one again")
    assert_raises(ValueError, tmp_path / "TGR01001", match="TGR01001.rt1")
    assert_raises(IsADirectoryError, tmp_path)
    for name in ("tgr01005.rt1", "TGR01005.RT2", "TGR01007.RT1", "tgr01007.RT1"):
        put(tmp_path / name, name.encode())
    assert echoed(tmp_path / "TGR01005") == b"tgr01005.rt1|TGR01005.RT2|||||||"
    assert echoed(tmp_path / "TGR01005.RT2") == echoed(tmp_path / "TGR01005")
    assert_raises(ValueError, tmp_path / "TGR01007", match="TGR01007.RT1, tgr01007.RT1")


def test_zips(tmp_path: Path) -> None:
    path = tmp_path / "TGR01001.ZIP"
    files = {f"tgr01001.rt{kind.lower()}" if kind in "2468P" else f"TGR01001.RT{kind}": kind.encode() for kind in TYPES}
    put(path, packed({**files, "README.TXT": b"no records"}))
    assert echoed(path) == "|".join(TYPES).encode()
    assert tigercanon.compare(path, [kind.encode() for kind in TYPES]) is True
    with zipfile.ZipFile(path, "a") as county:
        county.writestr("TGR01003.RT1", "another county")
    assert_raises(ValueError, path, match="TGR01001.ZIP: .*2 counties")
    assert_raises(ValueError, put(path, path.read_bytes()[:99]), match="TGR01001.ZIP: the zip is cut off")
    assert_raises(ValueError, put(path), match="TGR01001.ZIP: it isn't a zip")


@pytest.mark.parametrize(
    "name", ["TGR01001.zip", "TGR01001.ZiP", "TGR01001", "TGR01001.RT1", "TGR01001.dat", "TGR01001.ZIP.part", "a b"]
)
def test_zips_by_other_names(tmp_path: Path, name: str) -> None:
    """A zip is one by its contents."""
    files = {f"TGR01001.RT{kind}": kind.encode() for kind in TYPES}
    assert echoed(put(tmp_path / name, packed(files))) == "|".join(TYPES).encode()


SETS: dict[str, Callable[[Path, bytes], Any]] = {
    "bytes": lambda _, text: text,
    "list": lambda _, text: [text, b""],
    "iterator": lambda _, text: iter([text]),
    "file": lambda folder, text: put(folder / "file", text).open("rb"),
    "path": lambda folder, text: put(folder / "path", text),
    "paths": lambda folder, text: [put(folder / "part", text), str(put(folder / "empty"))],
    "stem": lambda folder, text: put(folder / "stem.RT1", text).with_suffix(""),
    "zip": lambda folder, text: put(folder / "zip.ZIP", packed({"TGR01001.RT1": text})),
}
"""Sets with this text, which may be files in this folder."""


@pytest.mark.parametrize("one, other", product(SETS, SETS))
def test_which_set_is_refused(tmp_path: Path, one: str, other: str) -> None:
    """compare judges the first set before the second, in whichever form they are."""
    for first, second, which in ((b"fault", b"", 1), (b"", b"fault", 2), (b"fault", b"fault", 1)):
        fault = b" 4 3 1 0000000000 1 2 3\n"
        with pytest.raises(tigercanon.Refusal) as raised:
            tigercanon.compare(
                *(SETS[form](tmp_path / form / word.decode(), word + fault) for form, word in ((one, first), (other, second)))
            )
        assert raised.value.set == which


def test_packed_files_with_all_records(tmp_path: Path, monkeypatch: pytest.MonkeyPatch) -> None:
    """A file by gzip, and in a zip. One that unpacks to more than a county may have is rejected before it takes the memory."""
    county = (ROOT / "examples/autauga/canonical.txt").read_bytes()
    named = put(tmp_path / "TGR01001.txt.gz", gzip.compress(county))
    zipped = put(tmp_path / "TGR01003.ZIP", packed({"a/readme.txt": b"1. About", "a/all": county}))
    for path in (named, tmp_path / "TGR01001", zipped):
        assert echoed(path) == county
    monkeypatch.setattr("tigercanon.contents.LARGEST", len(county) - 1)
    assert_raises(ValueError, named, match="TGR01001.txt.gz: it unpacks to more than 4370 bytes")
    assert_raises(ValueError, zipped, match="TGR01003.ZIP: the zip unpacks to 4371 bytes, more than 4370")


@pytest.mark.parametrize("number, name, words", REFUSALS)
def test_refusals(number: str, name: str, words: str) -> None:
    """Each refusal with its places, by each call."""
    calls: list[Callable[[Any], object]]
    calls = [tigercanon.check, echoed, tigercanon.normalise, tigercanon.fingerprint, partial(tigercanon.compare, b"")]
    numbers = iter((12345678901, 22, 33))
    of_kind = {"TYPE": "6", "CENID": "3036303031"}
    places = tuple(of_kind[word] if word in of_kind else next(numbers) for word in words.split())
    line = "".join(f" {place}" for place in places)
    for which in (0, 1, 2):
        fault = f"fault {number} {which} 6 3036303031 12345678901 22 33".encode()
        told = f"refused {number} {name}{line}" + (f" in set {which}" if which else "")
        for call in calls:
            with pytest.raises(tigercanon.Refusal) as raised:
                call(fault)
            refusal = raised.value
            assert (refusal.number, refusal.name, refusal.places) == (int(number), name, places)
            assert (refusal.set, refusal.line, str(refusal)) == (which or None, told, told)
            assert {isinstance(refusal, kind) for kind in (tigercanon.OutOfMemory, MemoryError)} == {number == "9"}


def test_flags() -> None:
    """Each flag is passed as itself. Any true value counts as given."""
    rows = {"no_sources": "01", "no_reserved": "02", "no_sources no_reserved": "03"}
    for given, (names, digits) in product((True, 1, "yes"), rows.items()):
        flags: Any = dict.fromkeys(names.split(), given)
        assert tigercanon.normalise(TEXT, **flags) == TEXT + (b"+both" if len(flags) == 2 else f"+{names}".encode())
        assert tigercanon.fingerprint(TEXT, **flags)[62:] == digits
        assert tigercanon.compare(TEXT, b"other" if len(flags) == 2 else TEXT, **flags) is (len(flags) == 2)
    for absent in (False, 0, "", None):
        nothing: Any = {"no_sources": absent, "no_reserved": absent}
        assert tigercanon.normalise(TEXT, **nothing) == TEXT


def resident() -> int:
    """Returns how many bytes of memory this process has."""
    return int(Path("/proc/self/statm").read_text().split()[1]) * mmap.PAGESIZE


def test_a_large_text() -> None:
    """Its memory is given back."""
    before = resident()
    for _ in range(2):
        text = tigercanon.normalise(b"large")
        assert len(text) == 70 << 20 and text.count(b"x") == len(text) - 1 and text.endswith(b"y")
        del text
    assert resident() - before < 70 << 20


def test_other_threads_run() -> None:
    """During a call of half a second another thread goes on."""
    call = threading.Thread(target=tigercanon.check, args=(b"sleep",))
    call.start()
    rounds, end = 0, time.monotonic() + 0.3
    while time.monotonic() < end:
        rounds += 1
        time.sleep(0.01)
    assert call.is_alive() and rounds > 1
    call.join()


@pytest.fixture
def package(tmp_path: Path) -> Path:
    """Copies the package elsewhere, without a library."""
    shutil.copytree(ROOT / "python/tigercanon", tmp_path / "python/tigercanon")
    return tmp_path / "python"


def respelled(package: Path, **more: object) -> Answer:
    """Returns what Python prints that loads the package from this folder."""
    plain = {key: value for key, value in os.environ.items() if key not in ("LD_LIBRARY_PATH", _library.VARIABLE)}
    env = {**plain, "PYTHONPATH": package, "PYTHONDONTWRITEBYTECODE": "1", **more}
    words = "import tigercanon; print(tigercanon.FORM, flush=True); print(tigercanon.respell(b'x'))"
    return run([sys.executable, "-c", words], cwd="/", env=env)


PLACES = ("variable", "python/tigercanon", "lib", "out/library/lib", "system")
"""Where the library is looked for, in this order: in the package, in a release around it, in a clone, and where the system looks."""


@pytest.mark.parametrize("first", PLACES)
def test_where_the_library_is(library: Path, tmp_path: Path, package: Path, first: str) -> None:
    """The first place that has one counts, even if it can't be loaded. A variable that is empty names none."""
    system = {"LD_LIBRARY_PATH": tmp_path / "system"}
    for place in PLACES[PLACES.index(first) + 1 :]:
        put(tmp_path / place / _library.NAME, b"no library")
    (tmp_path / first).mkdir(parents=True, exist_ok=True)
    shutil.copy(library, tmp_path / first / _library.NAME)
    variable = str(tmp_path / first / _library.NAME) if first == "variable" else ""
    assert respelled(package, TIGERCANON_LIBRARY=variable, **system) == Answer(0, b"tigercanon form 1\nb'x'\n", b"")
    put(tmp_path / first / _library.NAME, b"no library")
    for place in PLACES[PLACES.index(first) + 1 :]:
        shutil.copy(library, tmp_path / place / _library.NAME)
    assert b"ImportError" in respelled(package, TIGERCANON_LIBRARY=variable, **system).err


def test_where_the_library_of_a_clone_is(library: Path, tmp_path: Path, package: Path) -> None:
    """In a clone scripts/find-made says where the library is that was made from the sources as they are, or why there is none. Then neither
    another one of the clone nor that of the system is loaded."""
    finder = tmp_path / "scripts/find-made"
    put(finder, b'#!/bin/sh\necho "$0 $*" >"${0%/*}/called"\necho "${0%/*}/found"\n')
    finder.chmod(0o755)
    shutil.copy(library, tmp_path / "scripts/found")
    assert respelled(package) == Answer(0, b"tigercanon form 1\nb'x'\n", b"")
    assert (tmp_path / "scripts/called").read_text() == f"{finder} libtigercanon.so.1\n"
    put(finder, b"#!/bin/sh\necho 'none of these sources is here' >&2\nexit 70\n")
    for place in ("out/library/lib", "system"):
        (tmp_path / place).mkdir(parents=True)
        shutil.copy(library, tmp_path / place / _library.NAME)
    err = respelled(package, LD_LIBRARY_PATH=tmp_path / "system").err
    assert err.decode().splitlines()[-1].startswith("ImportError: none of these sources is here: scripts/build-library builds it")


def test_without_a_library(package: Path) -> None:
    """The package can be imported, and a call says in one line how to get the library."""
    _, out, err = respelled(package)
    last = err.decode().splitlines()[-1]
    assert (out, last.startswith("ImportError: the library libtigercanon.so.1 can't be loaded")) == (b"tigercanon form 1\n", True)
    assert "scripts/build-library" in last and _library.VARIABLE in last


def test_documentation() -> None:
    """Each call has type hints and describes what it raises; check also describes what it returns, and which counties it accepts."""
    for name in ("check", "respell", "normalise", "fingerprint", "compare"):
        call = getattr(tigercanon, name)
        assert "Raises" in inspect.getdoc(call), name  # type: ignore[operator]
        assert {"return", *inspect.signature(call).parameters} == set(call.__annotations__), name
    assert "None" in str(tigercanon.check.__doc__) and "raises Refusal" in str(tigercanon.check.__doc__)
    profile = " ".join(str(tigercanon.check.__doc__).split())
    assert "each polygon with a record of type P lies on a side of a chain" in profile and "few enough choices open" in profile
    assert (ROOT / "python/tigercanon/py.typed").exists()
    header = (ROOT / "include/tigercanon.h").read_text()
    assert f'TIGERCANON_FORM "{tigercanon.FORM}"' in header and f'TIGERCANON_VERSION "{tigercanon.__version__}"' in header

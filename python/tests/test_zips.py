"""Zips as they shouldn't be, and servers that break off: each is reported in one line, and all other counties are done."""

import io
import re
import struct
import threading
import zipfile
from functools import partial
from http.server import SimpleHTTPRequestHandler, ThreadingHTTPServer
from pathlib import Path
from types import SimpleNamespace
from typing import Iterator

import pytest
from support import call, complete, left_behind, listed, manifest, members, packed, put

from tigercanon import storage
from tigercanon.errors import Unreadable

TEXT = b"county\n" * 40
RECORD = b"5                1\n"
COUNTY = members("TGR00001", TEXT)


def patched(text: bytes, *changes: tuple[int, bytes]) -> bytes:
    for at, new in changes:
        at %= len(text)
        text = text[:at] + new + text[at + len(new) :]
    return text


def with_large_end(text: bytes, count: int) -> bytes:
    """Puts an end with larger numbers, which counts so many files, before the end of a zip."""
    at = len(text) - 22
    large = struct.pack("<4sQHHLLQQQQ", b"PK\6\6", 44, 45, 45, 0, 0, count, count, *struct.unpack("<LL", text[at + 12 : at + 20]))
    return text[:at] + large + struct.pack("<4sLQL", b"PK\6\7", 0, at, 1) + text[at:]


Zips = dict[str, tuple[bytes, str]]
"""Zips by their faults, and the expected reports."""

GOOD, (NAME, *_, LAST) = packed(COUNTY), COUNTY
WHOLE = packed({"all.txt": RECORD})
BROKEN, UNKNOWN = f"the zip is broken at {NAME}", "compressed by an unknown method"


def zips_with_broken_ends() -> Zips:
    """Their files can't be listed, or the end counts others."""
    line, count = GOOD.rindex(NAME.encode()) - 46, len(GOOD) - 12  # where the directory begins, and the count in the end
    counts = "the zip is broken: its directory has 9 files, and its end counts"
    return {
        "no-zip": (b"no zip", "it isn't a zip"),
        "empty": (b"", "it isn't a zip"),
        "cut": (GOOD[:-60], "the zip is cut off"),
        "cut-in-half": (GOOD[: len(GOOD) // 2], "the zip is cut off"),
        "directory": (patched(GOOD, (line, b"XX")), "the zip is broken: its directory can't be read"),
        "few": (patched(GOOD, (count, b"\5\0")), f"{counts} 5"),
        "many": (patched(GOOD, (count, b"\x0a\0")), f"{counts} 10"),
        "uncounted": (patched(GOOD, (count, b"\xff\xff")), f"{counts} 65,535"),
        "large-count": (with_large_end(GOOD, 10), f"{counts} 10"),
    }


def zips_with_broken_files() -> Zips:
    """Their first file can't be unpacked as the directory says."""
    # Where the header before the file starts, and its line in the directory.
    before, line = zipfile.ZipFile(io.BytesIO(GOOD)).getinfo(NAME).header_offset, GOOD.rindex(NAME.encode()) - 46
    data, size = before + 30 + len(NAME), len(TEXT)
    return {
        "byte": (patched(GOOD, (data + 8, bytes([GOOD[data + 8] ^ 255]))), BROKEN),
        "header": (patched(GOOD, (before, b"XX")), BROKEN),
        "locked": (patched(GOOD, (before + 6, b"\1"), (line + 8, b"\1")), "the zip is locked with a password"),
        "method": (patched(GOOD, (before + 8, b"\x09"), (line + 10, b"\x09")), f"the zip can't be unpacked: {NAME} is {UNKNOWN}"),
        **{f"says-{told}": (patched(GOOD, (line + 24, struct.pack("<L", told))), BROKEN) for told in (0, size - 1, size + 1)},
    }


def zips_with_one_broken_file() -> Zips:
    """The same of zips with all records in one file."""
    line = WHOLE.rindex(b"all.txt") - 46
    method = patched(WHOLE, (8, b"\x09"), (line + 10, b"\x09"))
    return {
        "whole-locked": (patched(WHOLE, (6, b"\1"), (line + 8, b"\1")), "the zip is locked with a password"),
        "whole-method": (method, f"the zip can't be unpacked: all.txt is {UNKNOWN}"),
        "whole-sum": (patched(WHOLE, (line + 16, b"XXXX")), "the zip is broken at all.txt"),
    }


def zips_with_other_contents() -> Zips:
    """They don't have one county, or too large a one."""
    two, large = "the zip has 2 counties in it:", {**COUNTY, LAST: b" " * 300_000}
    too_large = f"the zip unpacks to {sum(map(len, large.values()))} bytes, more than --largest 200000"
    return {
        "two": (packed({**COUNTY, **members("tgr00003", TEXT)}), f"{two} TGR00001, TGR00003"),
        "folders": (packed({**members("a/TGR00001", TEXT), "b/TGR00001.RT2": b""}), f"{two} A/TGR00001, B/TGR00001"),
        "beside": (packed({**COUNTY, "TGR00001": RECORD}), f"{two} TGR00001, TGR00001"),
        "none": (packed({"TGR00001.RTA": b"A", "read.me": b""}), "the zip has no county in it"),
        "twice": (packed({**COUNTY, "tgr00001.rt2": b""}), "the zip has 2 files .RT2"),
        "large": (packed(large), too_large),
    }


def test_broken_zips(room: Path, fake: Path) -> None:
    zips = {**zips_with_broken_ends(), **zips_with_broken_files(), **zips_with_one_broken_file(), **zips_with_other_contents()}
    for name, (text, _) in zips.items():
        put(f"in/{name}.ZIP", text)
    put("in/lower.zip", packed({**{name.lower(): text for name, text in COUNTY.items()}, "tgr00001.rta": b"A", "x/y.txt": b""}))
    put("in/stored.zip", packed(COUNTY, zipfile.ZIP_STORED))
    put("in/large-end.zip", patched(with_large_end(packed(COUNTY), 9), (-12, b"\xff\xff")))
    put("in/whole.zip", packed({"all.txt": RECORD, "read.me": b""}))
    put("in/folder.ZiP", packed(members("of/TGR00001", TEXT), zipfile.ZIP_BZIP2))
    complete("in/single", TEXT)
    ended = call("fingerprint", "--largest", "200kB", "in")
    assert (ended.status, ended.reports) == (1, {f"in/{name}": report for name, (_, report) in zips.items()})
    read = dict.fromkeys(("folder", "large-end", "lower", "single", "stored"), TEXT) | {"whole": RECORD}
    assert ended.out == manifest({f"in/{name}": text for name, text in read.items()})
    assert left_behind() == []


class Server(SimpleHTTPRequestHandler):
    """Files over HTTP. One fails; of others half is sent, the first time or every time."""

    asked: list[str] = []

    def do_GET(self) -> None:
        self.asked.append(self.path)
        if "failing" in self.path:
            self.send_error(500)
        elif "always" in self.path or ("once" in self.path and self.asked.count(self.path) == 1):
            text = Path(self.translate_path(self.path)).read_bytes()
            self.send_response(200)
            self.send_header("Content-Length", str(len(text)))
            self.end_headers()
            self.wfile.write(text[: len(text) // 2])
            self.close_connection = True
        else:
            super().do_GET()

    def log_message(self, *_: object) -> None:
        pass


@pytest.fixture
def url(room: Path) -> Iterator[str]:
    Server.asked.clear()
    server = ThreadingHTTPServer(("127.0.0.1", 0), partial(Server, directory=str(room)))
    threading.Thread(target=server.serve_forever, daemon=True).start()
    yield f"http://127.0.0.1:{server.server_port}"
    server.shutdown()
    server.server_close()


@pytest.mark.cluster
def test_a_server(url: str, room: Path, fake: Path) -> None:
    """A transfer that breaks off once is made again; one that breaks off three times is reported. Here without pauses between attempts."""
    put("quick/sitecustomize.py", b"from tigercanon import storage\nstorage.PAUSES = (0.0, 0.0)\n")
    quick = {"PYTHONPATH": "quick"}
    for module in ("aiohttp", "requests"):  # without them fsspec reads no http
        pytest.importorskip(module)
    attempts = {"TGR00001": 1, "failing": 3, "once": 2, "always": 3}
    for name in attempts:
        put(f"in/{name}.ZIP", packed(COUNTY))
    complete("in/TGR00005", TEXT)
    ended = call("fingerprint", "-o", "m", f"{url}/in", env=quick)
    assert (ended.status, sorted(ended.reports)) == (1, [f"{url}/in/always", f"{url}/in/failing"]), ended.err
    for name, why in (("failing", ".*500.*"), ("always", ".*")):
        assert re.fullmatch(rf"can't be read: {why} \(three attempts\)", ended.reports[f"{url}/in/{name}"])
    assert {name: Server.asked.count(f"/in/{name}.ZIP") for name in attempts} == attempts
    names = ("TGR00001", "TGR00005", "once")
    assert listed("m") == manifest({f"{url}/in/{name}": TEXT for name in names})
    verdicts = call("verify", "m", env=quick).out.replace(f"{url}/in/", "")
    assert re.sub(r" \(.*\)", "", verdicts).splitlines() == [
        "TGR00001: OK",
        "TGR00005: OK",
        "always: FAILED",
        "failing: FAILED",
        "once: OK",
    ]
    assert left_behind() == []


@pytest.mark.cluster
def test_a_server_that_is_down(room: Path, fake: Path) -> None:
    """Its counties have failed, for the server's reason. Those that a server says it doesn't have are missing."""
    for module in ("aiohttp", "requests"):
        pytest.importorskip(module)
    server = ThreadingHTTPServer(("127.0.0.1", 0), partial(Server, directory=str(room)))
    name = f"http://127.0.0.1:{server.server_port}/in/TGR00001"
    put("m", manifest({name: TEXT, "in/TGR00001": TEXT}).encode())
    threading.Thread(target=server.serve_forever, daemon=True).start()
    assert call("verify", "m").out == f"{name}: MISSING\nin/TGR00001: MISSING\n"
    server.shutdown()
    server.server_close()
    ended = call("verify", "m")
    assert re.fullmatch(rf"{name}: FAILED \(can't be read: .*[Cc]onnect.*\)\nin/TGR00001: MISSING\n", ended.out), ended
    ended = call("fingerprint", "--update", "--prune", "-o", "m", f"{name}.ZIP")
    assert (ended.status, Path("m").read_text().count(name)) == (1, 1), ended


@pytest.mark.parametrize("short", [0, 1, 2, 3])
def test_a_store_that_sends_too_little(room: Path, monkeypatch: pytest.MonkeyPatch, short: int) -> None:
    """The bytes that come are counted, and three attempts are made."""
    sent = iter([TEXT[: len(TEXT) // 2]] * short + [TEXT] * (3 - short))
    store = SimpleNamespace(get_file=lambda _, target: put(target, next(sent)))
    monkeypatch.setattr(storage, "system_of", lambda url: (store, url))
    monkeypatch.setattr(storage, "PAUSES", (0.0, 0.0))
    if short < 3:
        storage.fetch("s3://a", len(TEXT), "target")
        assert Path("target").read_bytes() == TEXT
    else:
        with pytest.raises(Unreadable, match="can't be read: only 140 of its 280 bytes arrived .three attempts."):
            storage.fetch("s3://a", len(TEXT), "target")
    assert len(list(sent)) == max(0, 2 - short)

"""The library on a county of 70,000 chains, compared with the program's answers; and by C on counties of tests/test-large, most of them
smaller: that the proved code, which is the program's too, does the same on large ones is tried there."""

import importlib
import mmap
import os
import sys
from pathlib import Path

from dev import large_counties
from dev.measuring import TURNED
from dev.testing import make_county, run, script
from library_tests.support import SUFFIXES, Tests

# So no number of chains fits into two bytes.
CHAINS = 70_000


def try_c(tests: Tests, whole: Path, stem: Path) -> None:
    """The same bytes as the program's."""
    words: list[list[object]] = [[command, whole] for command in ("check", "respell", "normalise", "fingerprint")]
    words += [[command, "--stem", stem] for command in ("respell", "normalise", "fingerprint")]
    words += [["fingerprint", "--no-sources", "--no-reserved", whole], ["compare", whole, f"{stem}.RT1"], ["compare", whole, whole]]
    for call in words:
        wanted = run([tests.program, *call])
        for name in (it for it in ("gcc", "clang") if it in tests.callers):
            found = run([*tests.callers[name], *call])
            tests.count(found == wanted, f"{CHAINS} chains by {name}, {call[0]}: {found.status} {found.err!r}, {len(found.out)} bytes")
    wanted = run([tests.program, "fingerprint", whole])
    tests.equal("two threads on large counties", wanted, tests.by_c("--threads", 2, "fingerprint", whole))


def cut(whole: Path, count: int) -> list[bytes]:
    """A file as this many parts, each of about as many lines."""
    lines = whole.read_bytes().splitlines(keepends=True)
    bounds = [len(lines) * part // count for part in range(count + 1)]
    return [b"".join(lines[first:last]) for first, last in zip(bounds, bounds[1:])]


def try_python(tests: Tests, whole: Path, stem: Path) -> None:
    os.environ["TIGERCANON_LIBRARY"] = str(tests.library / "lib/libtigercanon.so.1")
    sys.path.insert(0, str(tests.library / "python"))
    module = importlib.import_module("tigercanon")
    parts = [Path(f"{stem}{suffix}").read_bytes() for suffix in SUFFIXES]
    digits, text, respelt = (run([tests.program, command, whole]).out for command in ("fingerprint", "normalise", "respell"))
    with open(whole, "rb") as file, mmap.mmap(file.fileno(), 0, prot=mmap.PROT_READ) as mapped:
        for what, answer, wanted in (
            ("fingerprint of an mmap", module.fingerprint(mapped), digits.decode().strip()),
            ("fingerprint of nine parts", module.fingerprint(parts), digits.decode().strip()),
            ("fingerprint of a file", module.fingerprint(file), digits.decode().strip()),
            ("fingerprint of ten parts", module.fingerprint(cut(whole, 10)), digits.decode().strip()),
            ("normalise of 300 parts", module.normalise(cut(whole, 300)), text),
            ("compare of 17 parts with nine", module.compare(cut(whole, 17), parts), True),
            ("normalise of an mmap", module.normalise(mapped), text),
            ("normalise of nine parts", module.normalise(parts), text),
            ("respell", module.respell(mapped), respelt),
            ("compare", module.compare(mapped, parts), True),
        ):
            tests.count(answer == wanted, f"{what} isn't what the program prints")


def try_counties(tests: Tests) -> None:
    """The calls for C on counties in which everything is large, on sets that are rejected, and on a text of 390 MB, which the library holds
    as a whole."""
    test_large = script("tests/test-large")
    large = test_large.Large("large, ", Path(tests.callers["gcc"][0]), tests.room)
    large.crowded = large_counties.Crowded(10_010)
    test_large.many_of_each(large)
    test_large.large_refusals(large)
    large_counties.write(tests.room / "street", large_counties.street(test_large.STREET).text())
    with open(tests.room / "street", "rb") as street:
        test_large.make_call(large, test_large.Call(["normalise", "street"], test_large.hashes_of(street)[test_large.NO_MASK]))
    tests.add(large.passed, large.failed)


def run_all(tests: Tests) -> None:
    # One file of a county, and the stem of nine files of it under other numbers.
    whole, stem = tests.room / "large.txt", tests.room / "large"
    make_county(CHAINS, whole)
    make_county("--stem", *TURNED, CHAINS, stem)
    if "gcc" in tests.callers:
        try_c(tests, whole, stem)
        tests.limit("fingerprint", whole, (mib << 20 for mib in (40, 60, 90, 400)))
        try_counties(tests)
    try_python(tests, whole, stem)

"""The library by a caller in C."""

import concurrent.futures
import itertools
import os
import re
from pathlib import Path

from dev.testing import ROOT, Answer, make_county, run, script
from library_tests.support import WARNINGS, Tests, tools

CALLS = ["check", "compare", "fingerprint", "normalise", "respell"]
AUTAUGA = ROOT / "examples/autauga/all.txt"
RENUMBERED = ROOT / "examples/autauga-renumbered/all.txt"
# How much more memory a process may have after 1,000 rounds than after 10, in KiB: what the C library keeps for itself.
GROWTH = 256


def try_exports(tests: Tests) -> None:
    """The shared library has the calls and nothing else, and needs only the C library."""
    shared = tests.library / "lib/libtigercanon.so.1"
    listed = run(["nm", "-D", "--defined-only", shared]).out.decode().split("\n")
    tests.equal("exports", [f"tigercanon_{call}" for call in CALLS], sorted(line.split()[-1] for line in listed if line))
    entries = re.findall(r"\((NEEDED|SONAME)\).*\[(.*)\]", run(["readelf", "-d", shared]).out.decode())
    tests.equal("its name, and what it needs", [("NEEDED", "libc.so.6"), ("SONAME", "libtigercanon.so.1")], sorted(entries))
    tests.equal("its link", "libtigercanon.so.1", os.readlink(tests.library / "lib/libtigercanon.so"))


def try_header(tests: Tests) -> None:
    """The header alone, by each compiler that is installed."""
    header = tests.library / "include/tigercanon.h"
    source = tests.room / "header.c"
    source.write_text('#include "tigercanon.h"\n#include "tigercanon.h"\nint main(void) { struct tigercanon_text text = '
                      "TIGERCANON_NO_TEXT; tigercanon_free(&text); return 0; }\n")
    ways = [(compiler, standard, []) for compiler in tools("gcc", "clang") for standard in ("c99", "c11")]
    for compiler, standard, more in [*ways, *((compiler, "c++11", ["-x", "c++"]) for compiler in tools("g++", "clang++"))]:
        words = [compiler, f"-std={standard}", *WARNINGS, "-Wno-unused-function", "-fsyntax-only", "-I", header.parent, *more, source]
        done = run(words)
        tests.count(done.status == 0, f"the header by {compiler} in {standard}: {done.err.decode()[:1000]}")


def try_vectors(tests: Tests) -> None:
    """The cases of vectors/ about the bytes of sets: each file can be read, and the arguments are right."""
    vectors = script("vectors/run")
    cases = [case for case in vectors.cases_of("") if case.get("status") not in (2, 4) and None not in case["files"].values()]
    for case in cases:
        # The caller reads whole files.
        case["also"] = [way for way in case.get("also", []) if way != "endless"]
    with concurrent.futures.ThreadPoolExecutor(2 * (os.cpu_count() or 1)) as pool:
        for case, told in zip(cases, pool.map(lambda case: vectors.judge(tests.callers["gcc"], case), cases)):
            tests.count(not told, f"C, {case['name']}: {case['shows']}" + "".join(f"\n  {line}" for line in told))


def small_pages() -> dict[str, str]:
    """The environment without the setting for large pages, with which memory grows by large steps."""
    return {key: text for key, text in os.environ.items() if key != "GLIBC_TUNABLES"}


def try_rounds(tests: Tests) -> None:
    """A thousand calls leave no memory behind."""
    words = [["check", AUTAUGA], ["respell", AUTAUGA], ["normalise", AUTAUGA], ["normalise", "--no-sources", AUTAUGA],
             ["fingerprint", AUTAUGA], ["compare", AUTAUGA, RENUMBERED], ["check", ROOT / "examples/broken.txt"],
             ["compare", AUTAUGA, ROOT / "examples/refused/too-symmetric.txt"], ["respell", os.devnull]]
    for call in words:
        done = tests.by_c("--rounds", "1000", *call, env=small_pages())
        found = [int(kib) for kib in re.findall(rb": (\d+) KiB", done.err)]
        is_so = len(found) == 2 and found[1] - found[0] <= GROWTH
        tests.count(is_so, f"1,000 rounds of {call[0]}: {done.err.decode()[:300]}")


def place_of_last(text: bytes, count: int) -> tuple[int, int]:
    """The part and the line of the last line of a text, cut into this many parts as the caller in C cuts it."""
    place, begin = (0, 0), 0
    for part in range(1, count + 1):
        end = begin + (len(text) - begin) // (count + 1 - part)
        end = text.find(b"\n", max(end, begin + 1) - 1) + 1 if end > begin else begin
        place = (part, text.count(b"\n", begin, end)) if end > begin else place
        begin = end
    return place


def try_parts(tests: Tests) -> None:
    """Sets of ten parts and more are the set of the file that they are cut from, and a fault in their last line has its place."""
    text = AUTAUGA.read_bytes() + b"1\n"
    faulty = tests.room / "faulty-at-its-end"
    faulty.write_bytes(text)
    for parts in (2, 9, 10, 11, 16, 17, 255, 256, 257, 1000):
        for call in [["check", AUTAUGA], ["respell", AUTAUGA], ["normalise", AUTAUGA], ["fingerprint", "--no-sources", AUTAUGA],
                     ["compare", AUTAUGA, RENUMBERED]]:
            tests.equal(f"{parts} parts, {call[0]}", tests.by_c(*call), tests.by_c("--parts", parts, *call))
        told = Answer(3, b"", b"refused 4 BadNumber %d %d 6\n" % place_of_last(text, parts))
        tests.equal(f"{parts} parts, a fault at the end", told, tests.by_c("--parts", parts, "check", faulty))


def try_cpp(tests: Tests) -> None:
    """A caller in C++, by each compiler that is installed, linked with the archive and with the shared library."""
    source = Path(__file__).resolve().parent / "caller.cpp"
    shared = ["-I", tests.library / "include", "-L", tests.library / "lib", "-ltigercanon", f"-Wl,-rpath,{tests.library}/lib"]
    sets = [[AUTAUGA, RENUMBERED], [AUTAUGA, ROOT / "examples/broken.txt"], [ROOT / "examples/refused/too-symmetric.txt", AUTAUGA]]
    compilers = tools("g++", "clang++")
    if not compilers:
        tests.skip("neither g++ nor clang++ is installed: nothing was tried by C++")
    for (compiler, standard), (how, linked) in itertools.product(
        itertools.product(compilers, ("c++11", "c++17")), (("the archive", tests.linked), ("the shared library", shared))
    ):
        made = tests.room / "by-cpp"
        done = run([compiler, f"-std={standard}", "-O2", *WARNINGS, "-o", made, source, *linked])
        if tests.count(done.status == 0, f"{compiler} in {standard} with {how}: {done.err.decode()[:1000]}"):
            for first, second in sets:
                calls = [["check", first], ["respell", first], ["normalise", "--no-sources", first], ["fingerprint", "--no-reserved", first],
                         ["compare", first, second]]
                answers = [tests.by_c(*call) for call in calls]
                wanted = Answer(0, b"".join(answer.out + answer.err for answer in answers), b"")
                tests.equal(f"{compiler} in {standard} with {how}, {first.name}", wanted, run([made, first, second]))


def try_county(tests: Tests) -> None:
    """Calls in several threads at once return what one returns, and calls in little memory report that."""
    county = tests.room / "county.txt"
    make_county(2000, county)
    for threads in ("2", "4"):
        for call in [["fingerprint", county], ["normalise", county], ["compare", county, county], ["check", AUTAUGA]]:
            tests.equal(f"{threads} threads, {call[0]}", tests.by_c(*call), tests.by_c("--threads", threads, *call))
    for command in ("check", "respell", "normalise", "fingerprint"):
        tests.limit(command, county, range(2 << 20, 32 << 20, 512 << 10), env=small_pages())


def try_checked(tests: Tests) -> None:
    """The caller under checkers of addresses: gcc's own, and valgrind."""
    calls = [["check", AUTAUGA], ["respell", ROOT / "examples/other-spelling.txt"], ["normalise", AUTAUGA],
             ["normalise", "--no-reserved", RENUMBERED], ["fingerprint", "--stem", ROOT / "examples/autauga/TGR01001"],
             ["compare", AUTAUGA, RENUMBERED], ["compare", AUTAUGA, ROOT / "examples/broken.txt"], ["respell", os.devnull],
             ["--threads", "2", "normalise", AUTAUGA], ["--parts", "12", "normalise", AUTAUGA], *(["check", path] for path in sorted((ROOT / "examples/refused").iterdir()))]
    checkers = {}
    trial = run(["gcc", "-fsanitize=address,undefined", "-x", "c", "-", "-o", tests.room / "trial"], input=b"int main(void) { return 0; }")
    if trial.status == 0:
        flags = ["-g", "-fsanitize=address,undefined", "-fno-sanitize-recover=all"]
        checkers["gcc's checkers"] = tests.compile("sanitized", "gcc", *flags, *tests.linked)
    else:
        tests.skip("gcc has no checker of addresses here")
    if tools("valgrind"):
        checkers["valgrind"] = ["valgrind", "-q", "--leak-check=full", "--error-exitcode=99", *tests.callers["gcc"]]
    else:
        tests.skip("valgrind isn't installed")
    for (name, caller), call in itertools.product(checkers.items(), calls):
        if caller:
            tests.equal(f"{name}, {' '.join(map(str, call))}", tests.by_c(*call), run([*caller, *call]))


def compile_callers(tests: Tests) -> None:
    """Compiles the caller by each compiler that is installed, as all other tests in C need it."""
    try_exports(tests)
    if not tools("gcc"):
        tests.skip("gcc isn't installed: nothing was tried by C")
        return
    try_header(tests)
    for compiler in tools("gcc", "clang"):
        tests.compile(compiler, compiler, *tests.linked)


TESTS = (try_checked, try_rounds, try_county, try_vectors, try_parts, try_cpp)

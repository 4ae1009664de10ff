"""The example on the page for C, word for word, in a folder where a reader of the page would call it, and the constants and lines of
the header."""

import itertools
import os
import re
from pathlib import Path
from typing import Iterator

from dev.testing import ROOT, Answer, run
from library_tests.support import WARNINGS, Tests, tools

REFUSED = ROOT / "examples/broken.txt"
REFUSALS_PAGE = (ROOT / "docs/refusals.md").read_text(encoding="utf-8")
PAGE = (ROOT / "docs/c.md").read_text(encoding="utf-8")
HEADER_CALLER = Path(__file__).resolve().parent / "header.c"
PROTOTYPES = Path(__file__).resolve().parent / "prototypes.h"
# What only the row of each status says in the table of exit statuses in docs/commands.md.
STATUSES = {
    "DONE": r"^done",
    "DIFFERENT": r"\bdifferent maps",
    "REFUSED": r"\bset is (?:refused|rejected)",
    "MEMORY": r"\bmemory\b",
}
# The refusals by number, name and places, without those that no call has: a device and standard output.
REFUSALS = [row for row in re.findall(r"^### `refused (\d+) (\w+)([^`]*)`", REFUSALS_PAGE, re.M) if row[0] not in ("8", "10")]
# A constant whose name differs from its refusal's.
NAMED_OTHERWISE = {"MEMORY": "OUT_OF_MEMORY"}
MOST = 2**64 - 1


def exit_statuses() -> str:
    """Returns the section of docs/commands.md about exit statuses."""
    return (ROOT / "docs/commands.md").read_text(encoding="utf-8").partition("\n## Exit statuses\n")[2].partition("\n## ")[0]


def blocks() -> list[str]:
    """The blocks of code of the page for C, without their indent."""
    found = re.findall(r"(?:^(?:    .*)?\n)*^    .*\n", PAGE, re.M)
    return [re.sub("^    ", "", block, flags=re.M).strip("\n") + "\n" for block in found]


def try_c(tests: Tests, place: Path, fingerprint: str) -> None:
    """The program of the page, by each of its lines that compile and run it."""
    source, lines = blocks()
    (place / "one.c").write_text(source)
    exported, *calls = lines.splitlines()
    for call in calls:
        if "libtigercanon.a" in call and not (tests.library / "lib/libtigercanon.a").exists():
            tests.skip(f"the page's {call}: a prebuilt library has no archive")
            continue
        lacking = {"gcc", *re.findall("pkg-config", call)}.difference(tools("gcc", "pkg-config"))
        if lacking:
            tests.skip(f"the page's {call}: {' and '.join(sorted(lacking))} isn't installed")
            continue
        found = run(["bash", "-ec", f"{exported}\n{call}"], cwd=place)
        tests.equal(f"the page's {call}", Answer(0, f"{fingerprint}\n".encode(), b""), found)
    if (place / "one").exists():
        try_input(tests, place)


def try_input(tests: Tests, place: Path) -> None:
    """Tries the page's program on a refused set, on a long one, which it reads whole, and on a folder, which can't be read."""
    env = {**os.environ, "LD_LIBRARY_PATH": str(tests.library / "lib")}
    refused = run([place / "one"], input=REFUSED.read_bytes(), env=env)
    tests.equal("the page's program with a refused set", Answer(1, b"", b"refused 4 BadNumber 1 4 6\n"), refused)
    record = (ROOT / "examples/autauga/canonical.txt").read_bytes().partition(b"\n")[0] + b"\n"
    lines = (65 << 20) // len(record) + 1
    found = run([place / "one"], input=record * lines + b"1\n", env=env)
    tests.equal("the page's program with 65 MiB", Answer(1, b"", b"refused 4 BadNumber 1 %d 6\n" % (lines + 1)), found)
    folder = os.open(place, os.O_RDONLY)
    found = run([place / "one"], stdin=folder, env=env)
    os.close(folder)
    tests.equal("the page's program with a folder", Answer(1, b"", b"standard input: Is a directory\n"), found)


def faults() -> Iterator[tuple[str, str]]:
    """Faults as number, set, record type, CENID and three numbers, and the line of each: each refusal of the page, with its places, of
    no set and of either one, with usual numbers and with the greatest."""
    yield "0 0 - - 0 0 0", ""
    types, cenids = itertools.cycle("PI4162578"), itertools.cycle(["3036303031", "2020202020", "41fffebcad"])
    for (number, name, kinds), which, numbers in itertools.product(REFUSALS, (0, 1, 2), ((9999999999, 17, 230), (MOST,) * 3)):
        of_kind = {kind: next(values) if kind in kinds else "-" for kind, values in (("TYPE", types), ("CENID", cenids))}
        left = map(str, numbers)
        places = [of_kind.get(kind) or next(left) for kind in kinds.split()]
        line = " ".join(["refused", number, name, *places, *([f"in set {which}"] if which else [])])
        yield " ".join(map(str, (number, which, *of_kind.values(), *numbers))), line


def try_constants(tests: Tests, header: Path, shown: Answer) -> None:
    """Each constant has the value that the pages have, and the header has no other."""
    rows = re.findall(r"^\| (\d+) \| (.*) \|$", exit_statuses(), re.M)
    wanted = {name: ", ".join(status for status, text in rows if re.search(said, text, re.I)) for name, said in STATUSES.items()}
    for number, name, _ in REFUSALS:
        constant = re.sub(r"(?<!^)(?=[A-Z])", "_", name).upper()
        wanted[NAMED_OTHERWISE.get(constant, constant)] = number
    form = (ROOT / "docs/canonical-form.md").read_text(encoding="utf-8")
    wanted["FORM"] = re.search(r"\*\*(tigercanon form \d+)\*\*", form)[1]
    wanted["EMPTY"] = "an address"
    wanted = {f"TIGERCANON_{name}": value for name, value in wanted.items()}
    found = dict(line.split(" ", 1) for line in shown.out.decode().splitlines())
    for name in sorted({*wanted, *found}):
        tests.equal(f"the header's {name}", wanted.get(name), found.get(name))
    enums = re.findall(r"\benum \w+ \{(.*?)\};", header.read_text(encoding="utf-8"), re.S)
    declared = {name for enum in enums for name in re.findall(r"\bTIGERCANON_\w+", enum)}
    tests.equal("constants of the header that aren't shown", set(), declared - set(found))


def try_prototypes(tests: Tests) -> None:
    """The header declares the calls in prototypes.h, word for word, and no others."""
    header = (tests.library / "include/tigercanon.h").read_text(encoding="utf-8")
    found = re.findall(r"^(?:static inline )?\w+ tigercanon_\w+\([^)]*\)", header, re.M)
    wanted = PROTOTYPES.read_text(encoding="utf-8").partition("*/")[2].split(";")[:-1]
    tests.equal("the header's prototypes", [" ".join(it.split()) for it in wanted], [" ".join(it.split()) for it in found])
    tests.equal("how many calls the header declares", len(wanted), len(set(re.findall(r"\btigercanon_\w+(?=\()", header))))


def try_header(tests: Tests) -> None:
    """The header for C alone: its constants against the pages, the lines that it makes, and how it frees a text."""
    header = tests.library / "include/tigercanon.h"
    for compiler in tools("gcc", "clang"):
        made = tests.room / f"header-by-{compiler}"
        done = run([compiler, "-std=c99", "-O2", *WARNINGS, "-I", header.parent, "-o", made, HEADER_CALLER])
        if tests.count(done.status == 0, f"header.c by {compiler}: {done.err.decode()[:1000]}"):
            try_constants(tests, header, run([made, "constants"]))
            rows = list(faults())
            found = run([made, "lines"], input="".join(f"{fault}\n" for fault, _ in rows).encode())
            tests.equal("the header's lines, the status", 0, found.status)
            for (fault, wanted), line in itertools.zip_longest(rows, found.out.decode().splitlines(), fillvalue=("", None)):
                tests.equal(f"the header's line of {fault}", wanted, line)
            tests.equal("tigercanon_free", Answer(0, b"without bytes: 0\nwith bytes: 1\nonce more: 1\n", b""), run([made, "free"]))


def run_all(tests: Tests) -> None:
    readme = (ROOT / "README.md").read_text(encoding="utf-8")
    fingerprint = re.search(r"fingerprint --stem examples/autauga/TGR01001\n +([0-9a-f]{64})\n", readme)[1]
    # A folder like the root of the repository, with the library in the place that the page names.
    place = tests.room / "page"
    (place / "out").mkdir(parents=True)
    (place / "out/library").symlink_to(tests.library)
    (place / "examples").symlink_to(ROOT / "examples")
    try_c(tests, place, fingerprint)
    try_prototypes(tests)
    try_header(tests)

"""tools/compare-with-reference finds nothing wrong with the program, and finds the faults of others. Its counties have the cases to be tried.
A comparison takes seconds, since it calls the program hundreds of times."""

from __future__ import annotations

import random
import re
import signal
import subprocess
from collections import Counter
from pathlib import Path
from typing import Callable, Iterable

import pytest
from dev.maps import Chain, County, turned
from dev.random_counties import FAULTS, Maker, file_of, lines_of
from dev.testing import LENGTHS, ROOT, Answer, await_that, run

SEED = 3
"""That of a county that is refused. In the next one each flag hides something."""

WRONG = {
    "digits of hashes": '"$REAL" "$@" | if [ "$1" = fingerprint ]; then tr 0 1; else cat; fi',
    "order of records": '"$REAL" "$@" | if [ "$1" = normalise ]; then sort -r; else cat; fi',
    "reserved fields that stay": 'for it; do shift; [ "$it" = --no-reserved ] || set -- "$@" "$it"; done; exec "$REAL" "$@"',
    "exit status of refusals": '"$REAL" "$@" || exit 1',
    "places of refusals": '"$REAL" "$@" 2>told; status=$?; sed "s/ [0-9]*$/ 1/" told >&2; exit $status',
}
"""Wrong programs, each a shell script around the real one."""


def compare(program: str | Path, *words: object) -> Answer:
    return run([ROOT / "tools/compare-with-reference", "--program", program, "--folder", "kept", "--jobs", 2, *words])


def test_right(program: str) -> None:
    done = compare(program, "--counties", 5)
    assert (done.status, done.err) == (0, b"")
    assert re.fullmatch(rb"5 counties, [^\n]*\n[0-9]{3} passed, 0 failed\n", done.out)
    assert not Path("kept").exists()


@pytest.mark.parametrize("name", WRONG)
def test_wrong(name: str, program: str, monkeypatch: pytest.MonkeyPatch) -> None:
    """The files of each county that shows it are kept, and the same seed makes them again."""
    monkeypatch.setenv("REAL", program)
    Path("wrong").write_text(f"#!/bin/bash\nset -o pipefail\n{WRONG[name]}\n")
    Path("wrong").chmod(0o755)
    done = compare("wrong", "--seed", SEED, "--counties", 2)
    *told, last = done.out.decode().splitlines()
    assert done.status == 1 and re.fullmatch("[0-9]+ passed, [1-9][0-9]* failed", last)
    kept = {path.name: path for path in Path("kept").iterdir()}
    assert {f"seed-{seed}" for seed in re.findall("(?m)^seed ([0-9]+), in kept/", "\n".join(told))} == {*kept}
    folder = kept[min(kept)]
    texts = {path.name: path.read_bytes() for path in folder.iterdir()}
    assert texts.keys() >= {"calls", "county", "twin", "other", "county.RT1"}
    compare("wrong", "--seed", folder.name[5:], "--counties", 1)
    assert {path.name: path.read_bytes() for path in folder.iterdir()} == texts


@pytest.mark.parametrize("number", [signal.SIGTERM, signal.SIGKILL])
def test_a_stop_leaves_no_worker(number: signal.Signals, room: Path) -> None:
    (room / "slow").write_text("#!/bin/sh\nexec sleep 100\n")
    (room / "slow").chmod(0o755)
    words = [str(ROOT / "tools/compare-with-reference"), "--program", str(room / "slow"), "--jobs", "2"]
    process = subprocess.Popen(words, stdout=subprocess.DEVNULL, stderr=subprocess.DEVNULL)

    def running() -> bool:
        """Returns whether a process has the program among its arguments."""
        return subprocess.run(["pgrep", "-c", "-f", str(room / "slow")], stdout=subprocess.PIPE, check=False).stdout != b"0\n"

    assert await_that(lambda: len(list(Path(f"/proc/{process.pid}/task/{process.pid}/children").read_text().split())) == 2)
    process.send_signal(number)
    process.wait()
    assert await_that(lambda: not running(), 10)


def repeats(things: Iterable[object]) -> int:
    """Returns how many of the things are equal to one of them."""
    return max(Counter(map(repr, things)).values(), default=0)


def is_own_reverse(chain: Chain) -> bool:
    return chain.points == chain.points[::-1]


def ties(county: County) -> list[list[Chain]]:
    """The chains of each shape that several have, in one direction. Shapes that are their own reverse are left out."""
    chains = [each if each.points < each.points[::-1] else turned(each) for each in county.chains if not is_own_reverse(each)]
    shapes = [[each for each in chains if each.points == chain.points] for chain in chains]
    return [shape for shape in shapes if len(shape) > 1]


def contents(shape: Iterable[Chain]) -> int:
    """How many contents the records of type 1 of chains have."""
    return len({repr(sorted((name, value) for name, value in each.fields.items() if value)) for each in shape})


def is_decided(shape: list[Chain]) -> bool:
    """Whether records of type 1 decide the order of chains of one shape."""
    return contents(shape) == len(shape)


def has_one_side(shape: list[Chain], county: County) -> bool:
    """Whether chains of one shape have one polygon on their left, with a landmark on it."""
    sides = {each.left for each in shape}
    return len(sides) == 1 and any(sides & {*each.polygons} for each in county.landmarks)


HELD: dict[str, Callable[[County], object]] = {
    "two chains": lambda it: len(it.chains) == 2,
    "eighteen chains": lambda it: len(it.chains) == 18,
    "three equal chains": lambda it: repeats(it.chains) > 2,
    "three of one shape": lambda it: repeats(min(chain.points, chain.points[::-1]) for chain in it.chains) > 2,
    "equal chains that are their own reverse": lambda it: repeats(each for each in it.chains if is_own_reverse(each)) > 1,
    "ties that type 1 decides at one shape and not at another": lambda it: {is_decided(each) for each in ties(it)} == {False, True},
    "ties of which type 1 decides some": lambda it: any(1 < contents(each) < len(each) for each in ties(it)),
    "ties between the same polygons, with a landmark": lambda it: any(has_one_side(each, it) for each in ties(it)),
    "ties between other polygons": lambda it: any(len({(chain.left, chain.right) for chain in each}) > 1 for each in ties(it)),
    "a loop": lambda it: any(each.points[0] == each.points[-1] and not is_own_reverse(each) for each in it.chains),
    "one node at both ends": lambda it: any(each.start == each.end is not None for each in it.chains),
    "no node at an end": lambda it: any(each.start is None is not each.end for each in it.chains),
    "one polygon on both sides": lambda it: any(each.left == each.right is not None for each in it.chains),
    "a CENID without a polygon": lambda it: any(each.left is None and each.outside[0] for each in it.chains),
    "seven names, not all different": lambda it: any(len(each.names) == 7 > len({*each.names}) for each in it.chains),
    "three address ranges": lambda it: any(len(each.ranges) == 3 for each in it.chains),
    "three records of type 2": lambda it: any(len(each.points) > 22 for each in it.chains),
    "several FILEs": lambda it: len({each.topology.get("FILE") for each in it.chains}) > 1,
    "equal names": lambda it: repeats(it.names) > 1,
    "a name that isn't used": lambda it: {*range(len(it.names))} - {name for each in it.chains for name in each.names},
    "polygons with and without a record": lambda it: len({each.has_record for each in it.polygons}) > 1,
    "several CENIDs, one of them twice": lambda it: 1 < len({each.cenid for each in it.polygons}) < len(it.polygons),
    "equal landmarks": lambda it: repeats(it.landmarks) > 1,
    "landmarks of equal content": lambda it: repeats((each.fields, each.more) for each in it.landmarks) > repeats(it.landmarks),
    "a landmark of several contents": lambda it: any(each.more for each in it.landmarks),
    "repeated links": lambda it: any(repeats(zip(each.polygons, each.files)) > 1 for each in it.landmarks),
    "a landmark without a link": lambda it: any(not each.polygons for each in it.landmarks),
}
"""What some of the counties must have."""


def test_counties() -> None:
    made = [Maker(random.Random(seed)).county() for seed in range(200)]
    assert [name for name, holds in HELD.items() if not any(map(holds, made))] == []
    assert all(2 <= len(county.chains) <= 18 for county in made)
    for seed, county in enumerate(made[:20]):
        chance, again = random.Random(seed), random.Random(seed)
        assert Maker(chance).county() == Maker(again).county() == county
        lines = lines_of(county, chance)
        assert lines == lines_of(county, again)
        assert all(len(line) == LENGTHS[line[0]] for line in lines)


def test_faults_and_files() -> None:
    """Each fault changes the lines of some county, and files have CR LF after all of their lines, after some, or after none."""
    changing, shares = set(), set()
    for seed in range(40):
        chance = random.Random(seed)
        lines = lines_of(Maker(chance).county(), chance)
        for fault in FAULTS:
            spoilt = list(lines)
            fault(spoilt, chance)
            changing |= {fault} if spoilt != lines else set()
        ends = Counter(line.endswith(b"\r\n") for line in file_of(lines, chance).splitlines(keepends=True)[:-1])
        shares.add((ends[True] > 0, ends[False] > 0))
    assert changing == {*FAULTS}
    assert shares == {(True, False), (True, True), (False, True)}

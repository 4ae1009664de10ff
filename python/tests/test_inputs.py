"""No command writes over a file that it reads, whichever names and links lead to it. The commands run in this process where they can, with
a fake program."""

import os
import shutil
from itertools import product
from pathlib import Path

import pytest
from dev.testing import ROOT, TYPES
from support import FAKES, NAME, Ended, call, complete, packed, put, shell

from tigercanon import commands
from tigercanon.errors import Failure
from tigercanon.explanations import refusals_page
from tigercanon.inputs import Inputs
from tigercanon.layout import file_name
from tigercanon.manifests import Line, written
from tigercanon.progress import Console
from tigercanon.resources import Resources, new_files

NINE = [file_name("in/TGR01001", kind) for kind in TYPES]
MIXED = [f"small/tgr01001.{'rRrRrRrRr'[place]}{'tTTt'[place % 4]}{kind.lower()}" for place, kind in enumerate(TYPES)]

READ = {
    "all.txt": ["all.txt"],
    "./in/../all.txt": ["all.txt"],
    "link.txt": ["all.txt"],
    "in/TGR01001": NINE,
    "linked/TGR01001": NINE[:1],
    "small/tgr01001": MIXED,
    "zips/TGR01001": ["zips/TGR01001.ZIP"],
    "zips/TGR01001.ZIP": ["zips/TGR01001.ZIP"],
    "small/tgr01003": ["small/tgr01003.Zip"],
}
"""Names of a set, and the files to which each leads."""

IN_FOLDERS = {
    "in": NINE,
    "in/TGR01001.RT4": NINE,
    "linked": NINE[1:2],
    "in/*.RT1": NINE[2::6],
    "small": [*MIXED, "small/tgr01003.Zip"],
    ".": [NINE[0], MIXED[0], "zips/TGR01001.ZIP"],
}
"""Names of counties for a manifest, and files that are read with them."""

COMMANDS = {
    "-o": "fingerprint -o {output} {input}",
    "lock": "fingerprint -o {lock} {input}",
    "page of the first": "diff --page {output} {input} other",
    "page of the second": "diff --page {output} other {input}",
    "GeoJSON of the first": "diff --geojson {output} {input} other",
    "GeoJSON of the second": "diff --geojson {output} other {input}",
    "both": "diff --page page --geojson {output} {input} {input}",
    "table": "table -o {output} {input}",
}
"""The outputs of commands. A lock is at the manifest's name with .lock."""

LINKS = ("its name", "another path", "a symbolic link", "a link to a link", "a hard link")


@pytest.fixture(autouse=True)
def archive(room: Path, fake: Path, monkeypatch: pytest.MonkeyPatch) -> Path:
    """Returns the counties, which are empty files and zips, since an empty file could be taken for a manifest or a lock."""
    county = (ROOT / "examples/autauga/canonical.txt").read_bytes()
    for name in ("all.txt", *NINE, *MIXED):
        put(name)
    put("other", county)
    for name in ("zips/TGR01001.ZIP", "small/tgr01003.Zip"):
        put(name, packed({"TGR01001.RT1": county}))
    monkeypatch.setenv("TIGERCANON_PAGE", shutil.copy(FAKES / "page.html", room))
    os.symlink("all.txt", "link.txt")
    os.symlink("in", "linked")
    return room


def files(room: Path) -> dict[str, object]:
    """Returns all files and folders, without the notes of the fake program."""
    return {str(path): path.is_file() and path.read_bytes() for path in room.rglob("*") if path.name != "calls"}


def output_by(link: str, file: str) -> str:
    """Returns a name of this kind that leads to a file."""
    if link == "its name":
        return file
    if link == "another path":
        return os.path.join("in", "..", file)
    if link == "a hard link":
        os.link(file, "out-hard.lock")
        return "out-hard.lock"
    os.symlink(file, "out.lock")
    if link == "a symbolic link":
        return "out.lock"
    os.symlink("out.lock", "out-again.lock")
    return "out-again.lock"


def remove_outputs(folder: Path) -> None:
    for path in folder.glob("out*.lock"):
        path.unlink()


def run_in_process(words: list[str]) -> int:
    return commands.perform(commands.parser().parse_args(words), Console(), Resources(prints=True))


@pytest.mark.parametrize("output, name", [*product(COMMANDS, READ), *product(("-o", "lock"), IN_FOLDERS)])
def test_outputs(archive: Path, output: str, name: str) -> None:
    """Each file that a name leads to, under each kind of name: the command ends with a failure before it judges anything, and nothing is
    changed."""
    for file, link in product({**READ, **IN_FOLDERS}[name], LINKS):
        if output == "lock" and (link in ("its name", "another path") or file.lower().endswith("p")):
            continue  # a file with a lock's name and text is one already
        found = output_by(link, file)
        before = files(archive)
        words = COMMANDS[output].format(output=found, lock=found[: -len(".lock")], input="{input}").split()
        with pytest.raises(Failure) as failed:
            run_in_process([word.format(input=name) for word in words])
        assert str(failed.value).startswith(f"{found}: can't be written: this command reads it"), (file, link)
        assert (files(archive), Path("calls").read_text()) == (before, ""), (file, link)
        remove_outputs(archive)


def test_pages_of_changes(archive: Path) -> None:
    """Neither the index nor a county's page takes the place of a manifest or of any county's file."""
    for name, number in (("m", 1), ("n", 2)):
        put(name, "".join(["# tigercanon form 1\n", *(f"{number:064}  {stem}\n" for stem in ("in/TGR01001", "all.txt"))]).encode())
    os.mkdir("pages")
    for page in ("index", "ALL", "TGR01001"):
        for file, is_hard in product(("m", "n", "all.txt", NINE[8], "program", "page.html"), (True, False)):
            target = os.path.abspath(file), f"pages/{page}.html"
            os.link(*target) if is_hard else os.symlink(*target)
            before = files(archive)
            with pytest.raises(Failure, match=f"pages/{page}.html: can't be written: this command reads it"):
                run_in_process("changes --pages pages m n".split())
            assert (files(archive), Path("calls").read_text()) == (before, "")
            os.unlink(f"pages/{page}.html")


@pytest.mark.parametrize("file", ["all.txt", "small/tgr01003.Zip"])
@pytest.mark.parametrize("option", ["--geojson", "--page"])
def test_a_file_on_standard_input(archive: Path, option: str, file: str) -> None:
    before = files(archive)
    for link in LINKS[::2]:
        output = output_by(link, file)
        made = shell(f"tigercanon-tools diff {option} {output} /dev/stdin other <{file}")
        assert (made.status, f"{output}: can't be written: this command reads it" in made.err) == (2, True)
        remove_outputs(archive)
        assert files(archive) == before


@pytest.mark.parametrize("command", ["diff --page {} other other", "diff --geojson {} --page x other other"])
def test_what_else_is_read(archive: Path, command: str) -> None:
    """The program, and the page without counties."""
    for file in ("program", "page.html"):
        before = Path(file).read_bytes()
        with pytest.raises(Failure, match="this command reads it"):
            run_in_process(command.format(output_by("a symbolic link", os.path.abspath(file))).split())
        assert Path(file).read_bytes() == before
        remove_outputs(archive)


STREAMS = {
    "fingerprint all.txt": "all.txt",
    "fingerprint --json in": "in/TGR01001.RTP",
    "fingerprint -o m --json zips": "m",
    "verify m": "m",
    "verify m in": "in/TGR01001.RT7",
    "check all.txt": "all.txt",
    "check in/TGR01001": "in/TGR01001.RT1",
    "duplicates m": "m",
    "duplicates - <m": "m",
    "table all.txt": "all.txt",
    "explain all.txt": "all.txt",
    "changes m n": "n",
    "changes --json n m": "n",
    "diff other all.txt": "all.txt",
    "diff --geojson made zips/TGR01001 other": "zips/TGR01001.ZIP",
}
"""Commands that print, and a file that each reads."""


@pytest.mark.parametrize("stream", ["", "2"])
@pytest.mark.parametrize("command", [*STREAMS, "explain 9"])
def test_standard_output(archive: Path, stream: str, command: str) -> None:
    """Standard output and standard error aren't appended to a file that is read. Nothing is reported if they are one."""
    for name in "mn":
        put(name, f"# tigercanon form 1\n{1:064}  in/TGR01001\n".encode())
    file = str(refusals_page()) if command == "explain 9" else STREAMS[command]
    os.symlink(os.path.abspath(file), "link")
    before, ended = files(archive), shell(f"tigercanon-tools {command} {stream}>>link")
    assert (ended.status, ended.out) == (2, "")
    assert ended.err.partition(" as ")[0] == ("" if stream else f"{NAME}standard output: can't be written: this command reads it")
    assert ended.err.rstrip().endswith("" if stream else "-" if " - " in command else os.path.basename(file))
    assert files(archive) == before


def test_a_name_of_a_county(archive: Path) -> None:
    """No output replaces a county's file that isn't read, as when the output's own name was forgotten."""
    before = files(archive)
    for name in ("in/TGR01001.RT1", "in/TGR01003.RT1", "zips/TGR01001.ZIP", "x.zip", "x.rtz"):
        for words in ("fingerprint -o", "diff --geojson", "diff --page"):
            with pytest.raises(Failure, match=f"{name}: can't be written: it has the name of a county's file"):
                run_in_process([*words.split(), name, "other", "other"][: None if "diff" in words else -1])
    assert files(archive) == before


def test_a_file_that_becomes_an_input(archive: Path) -> None:
    """The output's name may lead to a file that is read when the output is whole, or before a further line."""
    inputs, resources = Inputs(["all.txt"]), Resources()
    with pytest.raises(Failure, match="new: can't be written: this command reads it as all.txt"):
        with new_files(["new"], inputs, resources) as made:
            made["new"].write(b"text")
            os.link("all.txt", "new")
    assert [name for name in os.listdir(".") if name.endswith(".part")] == []
    with pytest.raises(Failure, match="m: can't be written: this command reads it as all.txt"):
        with written("m", (), inputs, resources) as manifest:
            os.link("all.txt", "m")
            manifest.add(Line("0" * 64, "in/TGR01001"))
    assert Path("all.txt").read_bytes() == b""


def test_files_that_are_not_read(archive: Path) -> None:
    """They are written as before, even through links, and the inputs stay as they are."""
    inputs = {name: Path(name).read_bytes() for name in ("other", "zips/TGR01001.ZIP")}
    for name in ("a", "b"):
        put(name, b"older")
        os.symlink(name, f"to-{name}")
    assert run_in_process("diff --force --page to-a --geojson to-b zips/TGR01001 other".split()) == 0
    assert (b"<html" in Path("a").read_bytes(), Path("b").read_bytes()[:7]) == (True, b'{"type"')
    assert run_in_process("fingerprint -o m zips".split()) == run_in_process("verify --quiet m".split()) == 0
    assert {name: Path(name).read_bytes() for name in inputs} == inputs


@pytest.mark.parametrize("name", ["tigercanon-0.1.0", "tigercanon-counties", "tigercanon-abcdefgh.tmp"])
def test_folders_beside_those_of_a_run(archive: Path, name: str) -> None:
    """A run that removes what killed runs have left behind leaves the user's folders alone, in whatever folder temporary files are."""
    complete(f"tmp/{name}/TGR01001", b"x\n")
    shutil.copytree(f"tmp/{name}", f"shm/{name}")
    for place in ("tmp", "shm"):
        os.utime(f"{place}/{name}", (0, 0))
    before = files(archive)
    assert run_in_process(["fingerprint", "in"]) == 1  # the files of that county are empty
    assert files(archive) == before


def test_a_manifest_behind_a_url(archive: Path) -> None:
    """A URL can lead to a file of this machine."""
    pytest.importorskip("fsspec")
    os.link("in/TGR01001.RT7", "out")
    with pytest.raises(Failure, match="out: can't be written: this command reads it as file://"):
        run_in_process(["fingerprint", "-o", "out", f"file://{archive}/in"])


def test_standard_input(archive: Path) -> None:
    """A file on standard input is read as it is under its own name."""
    for name, text in (("one", b"text of one\n"), ("in/one.RT1", b"text of one\n")):
        put(name, text)

    def told(command: str) -> Ended:
        ended = shell(f"tigercanon-tools {command}")
        return ended._replace(out=ended.out.replace("/dev/stdin", "one").replace("/dev/fd/3", "one"))

    for name in ("/dev/stdin <one", "/dev/fd/3 3<one"):
        assert told(f"fingerprint {name}").out == call("fingerprint", "one").out
    assert told("diff --summary other /dev/stdin <other").status == 0
    assert told("diff --summary other /dev/fd/3 3<other").status == 0

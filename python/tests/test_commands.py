"""The command line: help, its pages, versions, and how the program is found; the command explain, and the hints beside refusals; and how
the runner of the cases in vectors/ does without a program."""

from __future__ import annotations

import errno
import os
import shlex
import shutil
import sys
from pathlib import Path

import pytest
from dev.testing import ROOT, run, script
from support import HEAD, NAME, PACKAGE, TOOLS, call, complete, manifest, put

from tigercanon.explanations import explained, page, sections
from tigercanon.faults import faults_of
from tigercanon.hints import hint
from tigercanon.progress import Console, Progress, amount, counted, duration
from tigercanon.storage import line_at
from tigercanon.version import VERSION

COMMANDS = ["fingerprint", "verify", "check", "duplicates", "changes", "diff", "table", "explain"]
PAGES = script("tools/tool-pages")
RUN = ROOT / "vectors/run"
OLDER = "lines of type {} have {} bytes: an edition before 2002, which this program doesn't read"
CONTROL_Z = "the file ends with a Control-Z, the end mark of an old system: remove it"


@pytest.mark.parametrize("command", ["", *COMMANDS])
def test_help_and_version(room: Path, command: str) -> None:
    """They go to standard output, with status 0. A line of help has at most 120 letters, and the general help names all commands."""
    ended = call(*command.split(), "--help", env={"COLUMNS": "100"})
    assert (ended.status, ended.err) == (0, "")
    assert ended.out.startswith(f"usage: {f'tigercanon-tools {command}'.strip()} ")
    assert max(map(len, ended.out.splitlines())) <= 120
    assert command or [name for name in COMMANDS if f"\n    {name}" not in ended.out] == []
    assert call(*command.split(), "--version") == (0, f"tigercanon-tools {VERSION}\n", "")


def test_pages() -> None:
    """The files in the repository are those that tools/tool-pages writes."""
    for place, text in PAGES.pages().items():
        assert (ROOT / place).read_text("utf-8") == text, f"{place}: run tools/tool-pages"


def test_text_of_a_man_page() -> None:
    """Hyphens, backslashes and what would be a request at the beginning of a line are spelled as roff has them."""
    assert PAGES.roff(".a-b\n'c\n\nd\\e") == "\\&.a\\-b\n\\&'c\n.PP\nd\\\\e"


def test_pages_have_all_commands() -> None:
    """Each page has each command with its flags, and the man page its arguments."""
    for name, command in PAGES.commands().items():
        for place, text in PAGES.pages().items():
            plain = text.replace("\\-", "-")
            assert name in plain, (place, name)
            for flag in command.flags:
                spelled = f"-l {flag[2:]} " if place.endswith(".fish") and flag.startswith("--") else flag
                assert spelled in plain or len(flag) == 2, (place, name, flag)
    for wanted in (
        '.SS "fingerprint SOURCE.."',
        '.SS "verify MANIFEST [SOURCE ..]"',
        "\\fICOUNTY\\fR\na county, or a SOURCE of several",
    ):
        assert f"{wanted}\n" in PAGES.pages()["man/tigercanon-tools.1"]


@pytest.mark.parametrize(
    "reader, ending", [("man -l --warnings", ".1"), ("bash -n", ".bash"), ("zsh -n", "-tools"), ("fish -n", ".fish")]
)
def test_pages_can_be_read(reader: str, ending: str) -> None:
    if not shutil.which(reader.split()[0]):
        pytest.skip(f"no {reader.split()[0]}")
    (place,) = [place for place in PAGES.pages() if place.endswith(ending)]
    ended = run([*reader.split(), ROOT / place])
    assert (ended.status, ended.err) == (0, b"")


def test_bash_completes() -> None:
    completion = (
        "compopt() { :; }; . completions/tigercanon-tools.bash; COMP_WORDS=(tigercanon-tools ASKED); "
        'COMP_CWORD=$((${#COMP_WORDS[@]} - 1)); _tigercanon_tools; echo "${COMPREPLY[*]}"'
    )
    for asked, offered in (("du", "duplicates"), ("diff --ge", "--geojson"), ("diff --page x.html --no-s", "--no-sources")):
        assert run(["bash", "-c", completion.replace("ASKED", asked)], cwd=ROOT).out.decode().strip() == offered


def test_the_program_has_the_same_version() -> None:
    assert VERSION in (ROOT / "crates/command_line/src/command.rt").read_text()


class TestProgram:
    """The program is the named one, else the one built here, else tigercanon on the PATH."""

    @pytest.mark.parametrize("place", ["bin", "packages/tigercanon/bin", "commands", None])
    def test_an_installed_package(self, room: Path, fake: Path, place: str | None) -> None:
        """Without a clone around it: the program is on the PATH, inside the package, as a wheel has it, or beside the command; or there is
        none."""
        shutil.copytree(PACKAGE / "tigercanon", "packages/tigercanon")
        command = put("commands/tigercanon-tools", b"import sys\n\nfrom tigercanon.__main__ import main\n\nsys.exit(main())\n")
        complete("in/a", b"x\n")
        if place:
            os.renames(fake, f"{place}/tigercanon")
        env = {"PYTHONPATH": f"{room}/packages", "PATH": f"{room}/bin:/bin:/usr/bin", "ROOM": str(room), "TMPDIR": f"{room}/tmp"}
        status, out, err = run([sys.executable, command, "fingerprint", "in"], env=env)
        why = "there is no program tigercanon here: ./tigercanon --prove builds it, and --program names another one"
        wanted = (0, manifest({"in/a": b"x\n"})) if place else (2, f"{NAME}{why}\n")
        assert (status, (out if place else err).decode()) == wanted

    def test_a_clone(self, room: Path, fake: Path, monkeypatch: pytest.MonkeyPatch) -> None:
        """In a clone scripts/find-made says which program it is. An executable of the current folder isn't taken for it, and neither is
        one of a relative folder on the PATH."""
        monkeypatch.delenv("TIGERCANON")
        complete("in/a", b"x\n")
        shutil.copytree(PACKAGE / "tigercanon", room / "clone/python/tigercanon")
        shutil.copy(ROOT / "tigercanon-tools", room / "clone")
        finder = put("clone/scripts/find-made", b'#!/bin/sh\necho "$@" >>$ROOM/calls\necho "${0%/*}/../there/program"\n')
        finder.chmod(0o755)
        os.renames(fake, "clone/there/program")
        for wrong in ("tigercanon", "bin/tigercanon"):
            put(wrong, b"#!/bin/sh\necho wrong >>$ROOM/calls\n").chmod(0o755)
        os.symlink("clone/tigercanon-tools", "tools")
        env = {**os.environ, "PYTHON": sys.executable, "PATH": f".:bin:{os.environ['PATH']}"}
        ended = run(["./tools", "fingerprint", "in"], env=env)
        assert (ended.status, ended.out.count(b"\n")) == (0, 2), ended.err
        assert Path("calls").read_text() == f"tigercanon\n{room}/in/a\n"
        finder.write_text('#!/bin/sh\necho "find-made: the reason" >&2\nexit 70\n')
        ended = run(["./tools", "fingerprint", "in"], env=env)
        assert (ended.status, ended.err.decode()) == (2, f"{NAME}the reason; --program names another one\n")
        os.unlink(finder)
        ended = run(["./tools", "fingerprint", "in"], env=env)
        assert (ended.status, b"there is no program tigercanon here" in ended.err) == (2, True)
        assert "wrong" not in Path("calls").read_text()

    @pytest.mark.parametrize("name", ["tigercanon/__init__.py", "tigercanon.py", "argparse.py"])
    def test_a_module_in_the_current_folder(self, room: Path, name: str) -> None:
        """It doesn't take the place of the package's modules, nor of Python's."""
        put(name, b"raise SystemExit('of the current folder')\n")
        assert run([ROOT / "tigercanon-tools", "--version"]) == (0, f"tigercanon-tools {VERSION}\n".encode(), b"")

    def test_the_examples(self, program: str, monkeypatch: pytest.MonkeyPatch, room: Path) -> None:
        monkeypatch.chdir(ROOT)
        digits = "1d52be5838ff73bc2575fb45a3df3475437eff9b6347ef11d750d52787afbf1a"
        wanted = HEAD + "".join(f"{digits}  examples/{name}/TGR01001\n" for name in ("autauga-renumbered", "autauga"))
        assert run(["./tigercanon-tools", "fingerprint", "examples/autauga*/*.RT1"])[:2] == (0, wanted.encode())


def test_installing(room: Path) -> None:
    """The package installs with Debian's hatchling, without a network. It has all of its files, the page on refusals, the page for
    browsers, its command, and the program and the library of prebuilt/, which need nothing around them. To install it takes seconds.
    """
    pytest.importorskip("hatchling", reason="python3-hatchling isn't installed")
    shutil.copytree(PACKAGE, "python", ignore=shutil.ignore_patterns("tests", "__pycache__"))
    shutil.copytree(ROOT / "prebuilt", "prebuilt")
    put("docs/refusals.md", (ROOT / "docs/refusals.md").read_bytes())
    install = "-m pip install --no-build-isolation --no-index --no-deps --target site ./python"
    assert run([sys.executable, *install.split()]).status == 0
    source, installed = (
        {path.relative_to(root) for path in root.rglob("*") if path.is_file() and path.suffix != ".pyc"}
        for root in (PACKAGE / "tigercanon", room / "site/tigercanon")
    )
    beside = {"refusals.md", "tigercanon.html", "bin/tigercanon", "libtigercanon.so.1"}
    assert installed == source | set(map(Path, beside))
    shutil.rmtree("prebuilt")
    shutil.copytree(ROOT / "examples/autauga", "in")
    env = {"PYTHONPATH": str(room / "site"), "PATH": "/usr/bin:/bin", "TMPDIR": f"{room}/tmp"}
    digits = "1d52be5838ff73bc2575fb45a3df3475437eff9b6347ef11d750d52787afbf1a"
    ended = run([sys.executable, "site/bin/tigercanon-tools", "fingerprint", "in/TGR01001"], env=env)
    assert (ended.status, ended.out.decode()) == (0, f"{HEAD}{digits}  in/TGR01001\n"), ended.err
    ended = run([sys.executable, "-c", "import tigercanon; print(tigercanon.fingerprint('in/TGR01001'))"], env=env)
    assert (ended.out.decode(), ended.err) == (f"{digits}\n", b"")
    assert run([*TOOLS, "explain", "9"], env=env).out.startswith(b"refused 9 Memory\n")


def test_how_numbers_are_written() -> None:
    amounts = [amount(count) for count in (0, 999, 1000, 1_250_000, 3_400_000_000, 5_000_000_000_000)]
    assert amounts == ["0 bytes", "999 bytes", "1.0 kB", "1.2 MB", "3.4 GB", "5,000.0 GB"]
    durations = [duration(seconds) for seconds in (0.2, 59.6, 61, 3600, 90_061)]
    assert durations == ["0 s", "1 min 0 s", "1 min 1 s", "1 h 0 min", "25 h 1 min"]
    tally = Progress(Console())
    tally.counties, tally.bytes_in_all = 3200, 40_000_000_000
    tally.bytes, tally.ended, tally.failed = 10_000_000_000, 1200, 2
    tally.refused["4 BadNumber"] += 3
    assert [counted(count, noun) for count, noun in ((1, "county"), (1200, "county"), (1, "page"), (0, "page"))] == [
        "1 county",
        "1,200 counties",
        "1 page",
        "0 pages",
    ]
    progress = "1,200 of 3,200 counties, 10.0 GB of 40.0 GB, 100.0 MB a second, 5 min 0 s left, 3 refused, 2 failed"
    assert tally.line(100.0) == progress


class Bar:
    """A progress bar that notes what is on standard output when it goes and when it comes back."""

    def __init__(self) -> None:
        self.printed: list[bytes] = []

    def clear(self) -> None:
        self.printed.append(Path("out").read_bytes())

    refresh = clear


def test_lines_and_the_progress_bar(room: Path, monkeypatch: pytest.MonkeyPatch) -> None:
    """A line on standard output, or on standard error, is printed while the bar is away."""
    console = Console()
    progress = Progress(console)
    progress.bar = bar = Bar()
    with open("out", "w") as file:
        monkeypatch.setattr(sys, "stdout", file)
        monkeypatch.setattr(sys, "stderr", file)
        console.print_lines(["a: OK"])
        console.report("b")
    assert bar.printed == [b"", b"a: OK\n", b"a: OK\n", b"a: OK\ntigercanon-tools: b\n"]


def test_every_refusal_has_a_section() -> None:
    """The numbers that the program reports, each with its name and a text. Numbers out of use are in no section."""
    known = sections(page())
    assert sorted(known) == [*range(1, 21), 23, 24]
    assert all(len([line for line in text.splitlines() if line.strip()]) > 1 for text in known.values())
    assert "no longer used" in page() and "no longer used" not in "".join(known.values())


def test_marks_of_markdown_are_left_out() -> None:
    text = "### `refused 7 Seven TYPE`\n\nSee **this** [page](format.md#a).\n\n## Next\n\nno\n"
    assert explained("7", text) == ["refused 7 Seven TYPE", "", "See this page."]


@pytest.mark.parametrize(
    "text, line, wanted",
    [
        (b"PK\3\4rest\n", "refused 2 LineTooLong 1 1", "the file is a zip: name it with its ending .ZIP"),
        (b"PK\3\4rest\n", "refused 2 LineTooLong 1 1 in set 2", "the file is a zip: name it with its ending .ZIP"),
        (b"\x1f\x8b\x08\n", "refused 1 UnknownType 1 1", "the file is compressed by gzip: unpack it first"),
        (b"\xff\xfe1\0\n", "refused 1 UnknownType 1 1", "the file is UTF-16: convert it to LATIN1 first"),
        (b"\xfe\xff\0001\n", "refused 1 UnknownType 1 1", "the file is UTF-16: convert it to LATIN1 first"),
        (b"\xef\xbb\xbf1\n", "refused 1 UnknownType 1 1", "the file begins with a byte order mark: remove its first three bytes"),
        (b"1\n1\n\x1a", "refused 1 UnknownType 1 3", CONTROL_Z),
        (b"\x1a", "refused 1 UnknownType 1 1", CONTROL_Z),
        (b"1\n1\n\x1a\r\n", "refused 1 UnknownType 1 3", CONTROL_Z),
        (b"1\n1\x1a", "refused 3 BadByte 1 2 2", CONTROL_Z),
        (b"1\nx\n\x1a", "refused 1 UnknownType 1 2", ""),
        (b"1\nx\n", "refused 1 UnknownType 1 2", ""),
        (b"1 a\r1 b\r", "refused 2 LineTooLong 1 1", "lines end in CR alone, as on an old Mac: convert them to LF or CR LF"),
        (b"1 a\r1 b\r\n", "refused 2 LineTooLong 1 1", ""),
        (b"1\r\nI" + b" " * 51 + b"\r\n", "refused 4 BadNumber 1 2 11", OLDER.format("I", 52)),
        (b"5" + b"1" * 51, "refused 4 BadNumber 1 1 11", OLDER.format("5", 52)),
        (b"P" + b" " * 43 + b"\n", "refused 4 BadNumber 1 1 16", OLDER.format("P", 44)),
        (b"P" + b" " * 44 + b"\n", "refused 4 BadNumber 1 1 16", ""),
        (b"PK\3\4", "refused 14 LinkMissing 1", ""),
        (b"PK\3\4", "refused 1 UnknownType 3 1", ""),
    ],
)
def test_hints(room: Path, text: bytes, line: str, wanted: str) -> None:
    """What the bytes at the faulty place suggest."""
    assert hint(line, [str(put("x.RT1", text)), None]) == wanted


@pytest.mark.parametrize("ending", [b"", b"\n", b"\r\n", b"\r", b"\nnext\n"])
def test_a_long_line(room: Path, ending: bytes) -> None:
    """Of a faulty line some hundred bytes are kept, whichever lines are before it, and the message has its whole length."""
    put("x", b"x" * 3_000_000 + b"\n1\r\n1" + b" " * 2_999_999 + ending)
    (fault,) = faults_of("refused 2 LineTooLong 1 3", ["x"], ["shown"])
    assert (fault.file, fault.line, fault.wrong) == (
        "shown",
        3,
        "the line has 3,000,000 bytes, and may have 228",
    ) or ending == b"\r"
    assert len(fault.text) == 400 and fault.last == 3_000_000 + (ending == b"\r")
    assert [line_at("x", number)[1] for number in (1, 2, 4)] == [3_000_000, 1, 4 if b"next" in ending else 0]


@pytest.mark.parametrize("present", ["tgr01013.rt1", "TGR01013.rt1"])
def test_a_hint_for_names(room: Path, present: str) -> None:
    put(present)
    found = hint("refused 8 Device", [f"{room}/TGR01013.RT1", f"{room}/TGR01013.RT2"])
    assert found == f"there is {present}: the program reads names in capitals only"
    assert hint("refused 8 Device", [f"{room}/other.RT1"]) == ""


def test_a_hint_for_a_file_that_can_not_be_opened(room: Path, monkeypatch: pytest.MonkeyPatch) -> None:
    """It has the file and the reason. A pipe is opened without a wait."""
    put("x.RT1")
    os.mkfifo("x.RT2")
    os.mkdir("x.RT4")
    real = os.open

    def opened(path: str, *rest: int) -> int:
        if str(path).endswith(".RT5"):
            raise PermissionError(errno.EACCES, "Permission denied")
        return real(path, *rest)

    monkeypatch.setattr(os, "open", opened)
    files = [f"{room}/x.RT{kind}" for kind in "1234"]
    assert hint("refused 8 Device", files[:2]) == ""
    assert hint("refused 8 Device", files) == ".RT4 is a folder"
    assert hint("refused 8 Device", [*files[:2], str(put("x.RT5"))]) == ".RT5 can't be read: Permission denied"
    assert hint("refused 8 Device", [str(put("all.RT5"))]) == "it can't be read: Permission denied"


def test_hints_in_a_run(room: Path, program: str) -> None:
    """They follow the program's line."""
    county = (ROOT / "examples/autauga/TGR01001.RT1").read_bytes()
    put("in/a.RT1", b"\x1f\x8b" + county)
    put("in/b.RT1", county.rstrip(b"\r\n") + b"\r\n\x1a")
    put("in/all.txt", b"\xff\xfe1\0")
    reports = call("fingerprint", "in", "in/all.txt").reports
    count = county.rstrip(b"\r\n").count(b"\n") + 2
    missing = "no .RT2 .RT4 .RT5 .RT6 .RT7 .RT8 .RTI .RTP"
    assert reports == {
        "in/a": f"refused 1 UnknownType 1 1; {missing}; the file is compressed by gzip: unpack it first",
        "in/b": f"refused 1 UnknownType 1 {count}; {missing}; {CONTROL_Z}",
        "in/all.txt": "refused 1 UnknownType 1 1; the file is UTF-16: convert it to LATIN1 first",
    }


def test_a_list_that_is_read_in_part() -> None:
    """It ends silently, as any filter does."""
    ended = run(["bash", "-c", f"set -o pipefail; {shlex.quote(str(RUN))} --list | head -n 1"])
    assert (ended.out.count(b"\n"), ended.err, ended.status in (0, 128 + 13)) == (1, b"", True)


@pytest.mark.parametrize(
    "words, why",
    [
        ([], "which PROGRAM? Give a command on the PATH, or a path with a slash"),
        (["nosuch"], "there is no program nosuch on the PATH; a path needs a slash"),
        (["./nosuch"], "there is no program ./nosuch"),
    ],
)
def test_no_program(words: list[str], why: str) -> None:
    assert run([RUN, *words]) == (2, b"", f"run: {why}\n".encode())

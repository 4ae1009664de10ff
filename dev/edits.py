"""The must-fail edits of crates: each is a wrong body, which the prover has to refuse. Many edits of a crate are tried in one run."""

import contextlib
import hashlib
import json
import os
import re
import shutil
import signal
import subprocess
import tempfile
import threading
from pathlib import Path
from typing import Iterable, Iterator, NamedTuple, Optional

from dev.crates import PARTS, Crates, Notes, words_for_rattle
from dev.functions import Function, function_at, indent, item_at, users_of

# To be raised if results that earlier rules kept no longer count.
RULES = "1"
NAME = re.compile(r"[A-Za-z0-9_-][A-Za-z0-9_.-]*\.edit")
# What rattle prints about a text that it can't read. An edit that only makes a statement false can be read.
UNREADABLE = re.compile(r"is not in scope|has no field|is no name|operand is missing|expected the end|cannot continue")
# Its line about a proof file with a name that an edit took away, and about the files that cite that proof.
NAMES_LOST = re.compile(r"(note: )?(\./)?proofs/.*(has no field|is not in scope|has no `|was not admitted)")
# Its line at a limit that it meets wherever it checks the same.
LIMITS = re.compile(
    r"antt ran out of (stack|the (steps|memory) that the check of one declaration may (take|use))"
    r"|(outgrew the memory limit|stopped at the step limit) \("
)


class Edit:
    """An edit of a crate: the texts that it replaces, the new ones, and the functions that must be refused for it."""

    def __init__(self, crate: str, path: Path) -> None:
        self.crate, self.path, self.name = crate, path, path.name.removesuffix(".edit")
        self.text = path.read_text(encoding="utf-8", errors="replace")

    @property
    def label(self) -> str:
        return f"must-fail {self.crate}/{self.name}"

    def pairs(self) -> Iterator[tuple[str, str, str]]:
        """The file, the old text and the new text of each pair. Raises ValueError if the edit has another form."""
        file = old = ""
        for line in self.text.split("\n"):
            if line.startswith("file: "):
                file = line.removeprefix("file: ").strip()
                if os.path.normpath(file) != file or not file.startswith(tuple(f"{it}/" for it in PARTS)):
                    raise ValueError("a 'file:' line names no file below src/, specs/ or proofs/")
            elif line.startswith("old: "):
                old = line.removeprefix("old: ")
            elif line.startswith("new:"):
                if not file or not old:
                    raise ValueError("a 'new:' line stands before any 'file:' or 'old:' line")
                yield file, old, line.removeprefix("new:").removeprefix(" ")
                old = ""

    def applied(self, folder: Path, texts: dict[str, str]) -> tuple[dict[str, str], set[Function], set[str]]:
        """The texts of the crate's files with the edit in them, over these texts in place of those in the folder; the functions whose
        bodies it changes; and the names of what it changes outside of any body. Raises ValueError if it can't be applied."""
        texts, functions, names, has_changed = dict(texts), set(), set(), False
        pairs = list(self.pairs())
        if not pairs:
            raise ValueError("it has no 'old:' and 'new:' pair")
        for file, old, new in pairs:
            if file not in texts:
                if not (folder / file).is_file():
                    raise ValueError(f"there is no file {file}")
                texts[file] = (folder / file).read_text(encoding="utf-8")
            if texts[file].count(old) != 1:
                raise ValueError(f"an 'old:' text is in {file} {texts[file].count(old)} times, and not once")
            at = texts[file].index(old) + indent(old)
            function = function_at(file, texts[file], at)
            functions |= {function} if function else set()
            names |= set() if function else {item_at(texts[file], at)}
            has_changed = has_changed or old != new
            texts[file] = texts[file].replace(old, new)
        if not has_changed:
            raise ValueError("it changes nothing (an 'old:' and a 'new:' text are one line each, and no other line is read)")
        return texts, functions, names


def edits_of(crate: str, folder: Path) -> tuple[list[Edit], list[str]]:
    """The edits in a folder by their names, and the files there that aren't edits."""
    files = sorted(it for it in folder.rglob("*") if not it.is_dir()) if folder.is_dir() else []
    good = [it for it in files if it.parent == folder and NAME.fullmatch(it.name) and it.is_file()]
    return [Edit(crate, it) for it in good], [str(it.relative_to(folder)) for it in files if it not in good and it.suffix != ".md"]


class Result(NamedTuple):
    """The result of an edit: it is refused or not, it can't be tried, or nothing is known; and the line about it."""

    kind: str
    text: str


REFUSED, MISSED, BAD, UNSURE = "refused", "missed", "bad", "unsure"


class Ran(NamedTuple):
    """The exit status of rattle, and the lines that it printed."""

    status: int
    lines: list[str]

    def states(self) -> dict[str, str]:
        """rattle's words about each function, by its name."""
        return dict(found.groups() for line in self.lines for found in [re.match(r"fn (\S+): (.*)", line)] if found)

    @property
    def has_ended(self) -> bool:
        """Whether antt's run over some functions came to its end."""
        return self.status in (0, 1) and bool(re.match(r"only=\d+ proved=\d+$", self.lines[-1]))

    def unread(self, files: Iterable[str]) -> str:
        """The first line about a text of src/, specs/ or a named file that could not be read."""
        for line in self.lines:
            at = re.match(r"(?:\./)?(\S+?):\d+:\d+: error: (?:(`[^`]*`): )?(.*)", line)
            if at and (at[1] in files or at[1].startswith(("src/", "specs/"))):
                if not at[2] or UNREADABLE.search(re.sub(r"`[^`]*`", "", at[3])):
                    return line
        return ""


def is_refused_itself(state: str) -> bool:
    """Whether a function's own proof fails, and not only the proof of a function that it calls."""
    return state.startswith(("not proved", "no proof")) and not state.startswith("no proof: it calls")


def first_reason(lines: list[str]) -> str:
    """Returns the first line that isn't only about a name that the edit took away, which a proof file still has. Empty if there
    is none: then no contract has refused the edit."""
    return next((line for line in lines if not NAMES_LOST.match(line)), "")


def refused_at(functions: Iterable[Function], ran: Ran) -> str:
    """Where the own proof of a function fails, and the first line about it. Empty if none does, or none for a reason of its
    own."""
    for name, state in ran.states().items():
        function = next((each for each in functions if each.is_named(name)), None)
        if function and is_refused_itself(state):
            told = [line for line in ran.lines if function.has(line) and (": error" in line or line.startswith("note: "))]
            if first_reason(told or [state]):
                return f"{name}: {first_reason(told or [state])}"[:300]
    return ""


class Place(NamedTuple):
    """Where the crates are whose edits are tried, with their built libraries, and where the edits are."""

    root: Path
    edits: Path
    kit: Path
    crates: Crates

    def library(self, crate: str) -> Path:
        return self.root / "crates" / crate / "out" / "rlib" / f"{crate}.rlib"


class Prover:
    """Calls rattle on edited copies of crates. Everything that it started ends when this process ends."""

    def __init__(self, place: Place, niceness: int = 0) -> None:
        self.place, self.niceness = place, niceness
        self.running: set["subprocess.Popen[str]"] = set()
        self.alone = threading.Lock()
        self.is_stopped = False

    def run(self, crate: str, texts: dict[str, str], only: Iterable[str], jobs: int = 1) -> Ran:
        """Checks a copy of a crate with these texts in its files: all of it, or only some functions and those that they call."""
        folder = self.place.root / "crates" / crate
        with tempfile.TemporaryDirectory(prefix=f"tigercanon-edit-{os.getpid()}-") as room:
            for part in filter(lambda it: (folder / it).is_dir(), PARTS):
                shutil.copytree(folder / part, Path(room, part))
            for file, text in texts.items():
                Path(room, file).write_text(text, encoding="utf-8")
            words = [self.place.kit / "bin/rattle", "check"]
            words += words_for_rattle(self.place.crates, self.place.kit, crate, self.place.library, jobs)
            words += [word for it in only for word in ("--only", it)]
            for _ in range(2):
                ran = self.call([str(it) for it in words], room)
                # A process that is killed was most likely killed for memory: it is tried again.
                if ran.status != -signal.SIGKILL:
                    break
            return ran

    def call(self, words: list[str], folder: str) -> Ran:
        words = ["nice", "-n", str(self.niceness), "setpriv", "--pdeathsig", "KILL", *words]
        how = {"stdin": subprocess.DEVNULL, "stdout": subprocess.PIPE, "stderr": subprocess.STDOUT, "text": True, "errors": "replace"}
        with self.alone:
            if self.is_stopped:
                return Ran(-signal.SIGTERM, [""])
            process = subprocess.Popen(words, cwd=folder, **how)  # type: ignore[call-overload]
            self.running.add(process)
        told = process.communicate()[0]
        self.running.discard(process)
        return Ran(process.returncode, told.rstrip("\n").split("\n"))

    def stop(self) -> None:
        """Ends all runs, and begins no others."""
        with self.alone:
            self.is_stopped = True
            for process in self.running:
                process.kill()


class Kept:
    """The edits that were refused earlier on this machine, by the sums of all that was read: the kit, the crate and those below it, and
    the edit. A fresh run takes none of them, and keeps none."""

    def __init__(self, notes: Notes, is_fresh: bool) -> None:
        self.notes, self.is_fresh = notes, is_fresh
        cache = Path(os.environ.get("XDG_CACHE_HOME") or Path.home() / ".cache")
        self.folder = cache / "tigercanon-edits"

    def file(self, edit: Edit, proved_from: str) -> Path:
        whole = repr((RULES, proved_from, edit.crate, edit.name, edit.text))
        return self.folder / hashlib.sha256(whole.encode()).hexdigest()

    def find(self, edit: Edit, proved_from: str) -> Optional[Result]:
        with contextlib.suppress(OSError, ValueError, KeyError, TypeError):
            found = json.loads(self.file(edit, proved_from).read_text(encoding="utf-8"))
            if not self.is_fresh and isinstance(found["text"], str):
                return Result(REFUSED, found["text"])
        return None

    def keep(self, edit: Edit, proved_from: str, result: Result) -> None:
        """Keeps a refusal. The file gets its name when it is whole."""
        if result.kind != REFUSED or self.is_fresh:
            return
        with contextlib.suppress(OSError):
            self.folder.mkdir(mode=0o700, parents=True, exist_ok=True)
            file = self.file(edit, proved_from)
            with tempfile.NamedTemporaryFile("w", dir=self.folder, delete=False, encoding="utf-8") as new:
                json.dump({"edit": edit.label, "text": result.text}, new)
            os.replace(new.name, file)


class Try(NamedTuple):
    """An edit that can be applied, with the functions that must be refused for it, and whether only bodies are changed."""

    edit: Edit
    functions: set[Function]
    is_in_bodies: bool


class Trial:
    """Tries the edits of one crate: many in one run, and those that it doesn't show to be refused alone."""

    def __init__(self, prover: Prover, crate: str, edits: list[Edit]) -> None:
        self.prover, self.crate, self.edits = prover, crate, edits
        self.folder = prover.place.root / "crates" / crate
        self.results: dict[Edit, Result] = {}
        self.runs = 0

    def run(self) -> dict[Edit, Result]:
        tries = [it for it in map(self.prepared, self.edits) if it]
        left = [it for it in tries if it.is_in_bodies]
        alone = [it for it in tries if not it.is_in_bodies]
        while left:
            batch, texts, later = self.batch_of(left)
            alone += self.try_batch(batch, texts)
            left = later
        for it in alone:
            self.results[it.edit] = self.try_alone(it)
        return self.results

    def prepared(self, edit: Edit) -> Optional[Try]:
        try:
            _, functions, names = edit.applied(self.folder, {})
        except (OSError, ValueError) as error:
            self.results[edit] = Result(BAD, f"BAD EDIT: {error}")
            return None
        return Try(edit, functions | users_of(names, self.folder) if names else functions, not names)

    def batch_of(self, tries: list[Try]) -> tuple[list[Try], dict[str, str], list[Try]]:
        """The edits that go into one run, since no two of them change one function; the texts with all of them; and the others."""
        batch: list[Try] = []
        texts: dict[str, str] = {}
        later: list[Try] = []
        taken: set[str] = set()
        for it in tries:
            paths = {function.path for function in it.functions}
            try:
                if paths & taken:
                    raise ValueError
                texts, functions, _ = it.edit.applied(self.folder, texts)
                batch.append(it._replace(functions=functions))
                taken |= paths
            except ValueError:
                later.append(it)
        return batch, texts, later

    def check(self, texts: dict[str, str], functions: set[Function]) -> Ran:
        """Checks these functions, or, if rattle has another name for one, all of its module."""
        self.runs += 1
        paths = {it.path: it.path for it in functions}
        for _ in range(len(functions) + 1):
            ran = self.prover.run(self.crate, texts, sorted({*paths.values()}))
            unknown = [it for it in functions if ran.status == 2 and f"`{paths[it.path]}`" in " ".join(ran.lines[-1:])]
            if not unknown:
                break
            paths.update((it.path, it.module) for it in unknown)
        return ran

    def try_batch(self, batch: list[Try], texts: dict[str, str]) -> list[Try]:
        """Tries edits in one run, and returns those that it doesn't show to be refused."""
        if len(batch) == 1:
            return batch
        ran = self.check(texts, {function for it in batch for function in it.functions})
        if not ran.has_ended or ran.unread(texts):
            return self.without_bad(batch)
        left = []
        for it in batch:
            where = refused_at(it.functions, ran)
            if where:
                self.results[it.edit] = Result(REFUSED, f"refused at {where}")
            else:
                left.append(it)
        return left

    def without_bad(self, batch: list[Try]) -> list[Try]:
        """Tries again without the edits that don't compile, if there are any."""
        good = []
        for it in batch:
            ran = self.prover.run(self.crate, it.edit.applied(self.folder, {})[0], [""])
            if ran.has_ended:
                good.append(it)
            else:
                self.results[it.edit] = self.judge(it.edit, ran, {})
        if len(good) == len(batch):
            return batch
        batch, texts, later = self.batch_of(good)
        return self.try_batch(batch, texts) + later

    def try_alone(self, it: Try) -> Result:
        """Tries one edit: at the functions that it changes, and if these are proved over all of the crate."""
        texts = it.edit.applied(self.folder, {})[0]
        if it.functions:
            ran = self.check(texts, it.functions)
            where = refused_at(it.functions, ran)
            if ran.has_ended and where and not ran.unread(texts):
                return Result(REFUSED, f"refused at {where}")
        self.runs += 1
        return self.judge(it.edit, self.prover.run(self.crate, texts, [], jobs=2), texts)

    def judge(self, edit: Edit, ran: Ran, texts: dict[str, str]) -> Result:
        """The result of an edit, by a check of the whole crate."""
        unread = ran.unread(texts)
        if unread and ran.status == 1:
            return Result(BAD, f"BAD EDIT: the prover can't read the edited text, so no contract was tried: {unread[:200]}")
        if ran.status == 1 and ran.lines[-1].startswith("logic=not-proved"):
            told = [line for line in ran.lines if re.match(r"(note: )?\S+:\d+:\d+:", line)]
            told = [line for line in told if ": error" in line or line.startswith("note: ")]
            if told and not first_reason(told):
                return Result(MISSED, f"NOT SHOWN: only because a proof file names what the edit took away: {told[0][:200]}")
            return Result(REFUSED, f"refused, with the crate: {first_reason(told)[:200]}")
        if ran.status == 0:
            return Result(MISSED, "NOT REFUSED: the crate is still proved with this edit. If that means the same as before, remove it")
        limit = next((line for line in ran.lines if LIMITS.search(line)), "")
        if ran.status == 3 and limit:
            return Result(REFUSED, f"refused only by a limit of the prover: choose a change that it refuses sooner: {limit[:160]}")
        if ran.status in (1, 2) and any(re.search(r"\berror\[[\w-]+\]", line) for line in ran.lines):
            return Result(BAD, "\n  ".join(["BAD EDIT: it doesn't compile:", *ran.lines[:6]]))
        return Result(UNSURE, "\n  ".join([f"NOT TRIED: its check ended with status {ran.status}, so run this again", *ran.lines[-6:]]))


class Outcome(NamedTuple):
    """The results of the edits of a crate, the files among them that aren't edits, and how many runs there were."""

    crate: str
    results: dict[Edit, Result]
    others: list[str]
    runs: int

    @property
    def passed(self) -> int:
        return sum(it.kind == REFUSED for it in self.results.values())

    @property
    def failed(self) -> int:
        return len(self.results) + len(self.others) - self.passed

    def lines(self) -> list[str]:
        name = "BAD EDIT: the name of an edit is of letters, digits, _, -, . and ends in .edit"
        return [
            *(f"{edit.label}: {result.text}" for edit, result in self.results.items()),
            *(f"must-fail {self.crate}/{file}: {name}" for file in self.others),
            f"edits of {self.crate}: {self.passed} refused of {len(self.results)}, {self.runs} {'run' if self.runs == 1 else 'runs'}",
        ]


def try_edits(prover: Prover, crate: str, kept: Kept) -> Outcome:
    """Tries the edits of a crate that weren't refused earlier."""
    edits, others = edits_of(crate, prover.place.edits / "crates" / crate / "must-fail")
    proved_from = kept.notes.proved_from(crate)
    known = {edit: found for edit in edits for found in [kept.find(edit, proved_from)] if found}
    trial = Trial(prover, crate, [edit for edit in edits if edit not in known])
    results = trial.run()
    if kept.notes.proved_from(crate) == proved_from:
        for edit, result in results.items():
            kept.keep(edit, proved_from, result)
    return Outcome(crate, {edit: (known | results)[edit] for edit in edits}, others, trial.runs)

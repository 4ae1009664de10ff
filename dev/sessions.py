"""Sessions: files that show commands of bash, and below each one its whole answer.

A command follows "    $ ". Its answer ends at the next command or the next line of explanation. An answer is the standard output, then
the standard error, and then a status that isn't 0, in brackets. The folder of the test is ROOM in it. Three dots match any text in a
line, such as a time. "== NAME" begins another session of the same file. One with lines that begin with "each" is tried once for each of
them, with its values, separated by " :: ", in place of {0}, {1} and so on."""

import re
from pathlib import Path
from typing import Iterator, NamedTuple

STEP = re.compile(r"(?m)^    \$ (.*)\n((?:(?:    (?!\$ ).*)?\n)*)")


class Step(NamedTuple):
    """A command, and its answer."""

    command: str
    answer: str

    def fault(self, status: int, printed: str, room: Path) -> str:
        """Returns nothing if this is the answer, with the folder's name in place of ROOM, and otherwise the output."""
        found = (printed + f"[{status}]" * (status != 0)).replace(str(room), "ROOM").rstrip("\n")
        is_so = re.fullmatch(re.escape(self.answer).replace(re.escape("..."), ".*"), found)
        return "" if is_so else f"$ {self.command}\n{found}"


class Session(NamedTuple):
    name: str
    steps: list[Step]


def steps_of(text: str) -> list[Step]:
    """Returns the commands of a text with their answers."""
    return [Step(command, re.sub("(?m)^    ", "", answer).rstrip("\n")) for command, answer in STEP.findall(text)]


def sessions_of(file: Path) -> Iterator[Session]:
    """The sessions of a file: the lines before the first "==" are one by the name of the file."""
    for block in re.split(r"(?m)^== ", f"{file.stem}\n{file.read_text('utf-8')}"):
        rows, whole = re.findall(r"(?m)^each (.*)", block), re.sub(r"(?m)^each .*\n", "", block)
        for row in rows or [""]:
            values: list[str] = row.split(" :: ")
            name, _, text = re.sub(r"\{(\d)\}", lambda found: (values + [""] * 9)[int(found[1])], whole).partition("\n")
            if steps := steps_of(text):
                yield Session(name, steps)

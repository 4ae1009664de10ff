"""The meaning of a refusal, an example line and the remedy, from the page on refusals; and the command explain."""

from __future__ import annotations

import argparse
import os
import re
from dataclasses import dataclass
from pathlib import Path
from typing import Optional, Sequence, Union

from .diff.sets import found, opened
from .errors import Failure, printable
from .faults import Fault, faults_of
from .hints import hint
from .judge import County
from .layout import Name, kind_of
from .program import find_program
from .progress import Console, print_lines
from .resources import Resources

SECTION = re.compile(r"(?m)^### `refused (\d+) (\w+)([^`]*)`$")
PLACE = "[0-9]+|[0-9A-Z]|[0-9A-Fa-f]{10}"  # a number, a record type or a CENID
REFUSAL = re.compile(rf"(?:refused )?(\d+)?\s*([A-Z]\w+)?((?: (?:{PLACE}))*?)(?: in set ([12]))?")
FIELDS = ("TLID", "FEAT", "LAND", "CENID", "POLYID")
HERE = Path(__file__).resolve().parent


def refusals_page() -> Path:
    """Returns the path of the page on refusals: an installed package has a copy of it, and a clone and a release have the page itself."""
    copy = HERE / "refusals.md"
    return copy if copy.exists() else HERE.parent.parent / "docs/refusals.md"


def page() -> str:
    return refusals_page().read_text(encoding="utf-8")


def sections(text: str) -> dict[int, str]:
    """Returns the sections of the refusals by their numbers, each with its heading."""
    return {int(section[1]): section[0] for section in re.finditer(r"(?ms)^### `refused (\d+) .*?(?=^#|\Z)", text)}


def explained(line: str, text: str) -> list[str]:
    """Returns what the page has about a refusal, which may come after names and before notes. Raises Failure if the line has none."""
    number = number_in(line, text)
    if number is None:
        raise Failure(f"{line!r} isn't a refusal: give the program's line, its number or its name")
    heading, *body = sections(text)[number].rstrip("\n").splitlines()
    # Plain text instead of Markdown: links and emphasis lose their marks.
    plain = re.sub(r"\[([^\]]+)\]\([^)]*\)", r"\1", "\n".join(body)).replace("**", "")
    refusal, given = heading[len("### `") : -1], REFUSAL.fullmatch(bare(line))
    return [refusal, *places(refusal.split()[3:], given[3].split() if given else []), *plain.splitlines()]


def number_in(line: str, text: str) -> int | None:
    """Returns the number of the refusal in a line, if the page has a refusal of the line's number and name."""
    words = REFUSAL.fullmatch(bare(line))
    names = {int(number): name for number, name, _ in SECTION.findall(text)}
    fitting = [number for number in names if words and words[1] in (None, str(number)) and words[2] in (None, names[number])]
    return fitting[0] if len(fitting) == 1 else None


def places(meanings: list[str], given: list[str]) -> list[str]:
    """Returns the places of a refusal with their meanings: `part 1, line 201`, or `CENID 06001, POLYID 1`, with the CENID as in
    the file."""
    shown = []
    for meaning, place in zip(meanings, given) if len(given) == len(meanings) else []:
        if meaning == "CENID" and re.fullmatch("[0-9A-Fa-f]{10}", place):
            place = bytes.fromhex(place).decode("latin-1")
        shown.append(f"{meaning if meaning in FIELDS else meaning.lower()} {place}")
    return ["", ", ".join(shown)] if shown else []


@dataclass(frozen=True)
class Explanation:
    """What a refusal means. faults are its places in the files of a county, if one was named. lines are the text: the refusal, its places
    in words, an example and what to do."""

    refusal: str
    faults: tuple[Fault, ...]
    lines: tuple[str, ...]


def explain(
    refusal: Union[str, int, Exception] = "", county: Optional[Name] = None, *, program: Optional[Name] = None
) -> Optional[Explanation]:
    """Explains a refusal: the program's line, the refusal's number or name, or the exception Refusal. If a county is named and gets this
    refusal, its places there are looked up; without a refusal it is the county's, and None if it is accepted. Raises Failure."""
    with Resources() as resources:
        return explanation(str(refusal), None if county is None else os.fspath(county), program, resources)


def explanation(refusal: str, name: str | None, program: Optional[Name], resources: Resources) -> Explanation | None:
    """Explains a refusal. If there is a name, it also has the places in the county of this name, provided that the county gets this
    refusal."""
    text = page()
    if name is None:
        return Explanation(bare(refusal), (), tuple(explained(refusal, text)))
    with resources.part() as part:
        source, _ = opened(name, found(name, False), part)
        ended = source.run(find_program(program), "check", (), part)
        own = source.complaint(ended)[0] if ended.returncode else ""
        if not refusal and not own:
            return None
        if not is_of(refusal, own, text):
            heading, *lines = explained(refusal, text)
            why = f"{printable(name)} isn't refused for this: check prints {own or 'accepted'}"
            return Explanation(bare(refusal), (), (heading, "", why, *lines))
        heading, *lines = explained(own, text)
        faults, advice = faults_of(own, source.files, source.names), hint(own, source.files)
        return Explanation(own, tuple(faults), (heading, *(["", advice] if advice else []), *lines))


def is_of(refusal: str, own: str, text: str) -> bool:
    """Returns whether a refusal is the one that a county gets: the same line, or its number or name, without places."""
    given = re.sub(" in set [12]$", "", bare(refusal))
    words = REFUSAL.fullmatch(given)
    is_number = words is not None and not words[3] and number_in(given, text) == number_in(own, text)
    return given in ("", own) or is_number


def run(options: argparse.Namespace, console: Console, resources: Resources) -> int:
    """Explains a refusal, and shows its place if the last word is the name of a county; or the refusal that a county gets."""
    resources.inputs([str(refusals_page())])
    *line, name = options.line
    county = county_named(options.line)
    resources.inputs(file.place for file in (county.places if county else ()))
    refusal = line if county else options.line
    answer = explanation(" ".join(refusal), name if county else None, options.program, resources)
    if answer is None:
        print_lines([f"{printable(name)}: accepted"])
        return 0
    shown = [line for fault in answer.faults for line in fault.shown()]
    print_lines([*([*shown, ""] if shown else []), *answer.lines])
    return 0


def county_named(words: Sequence[str]) -> County | None:
    """Returns the county that the last word names, unless it belongs to a refusal. Raises Failure for another file, and if there is no
    county of this name after a refusal."""
    *line, name = words
    is_path, text = "/" in name or os.path.lexists(name) or bool(kind_of(name)), page()
    if not is_path and number_in(" ".join(words), text):
        return None
    try:
        return found(name, False)
    except Failure:
        if number_in(name, text) or not (is_path or number_in(" ".join(line), text)):
            return None
        raise


def bare(line: str) -> str:
    """Returns a refusal without names before it and notes after it."""
    return re.sub(r"(?s).*\b(?=refused \d)|;.*", "", line).strip().removesuffix(")")

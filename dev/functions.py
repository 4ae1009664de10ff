"""The functions of a crate, found in its sources as rt fmt lays them out, and the names that rattle prints for them."""

import re
from pathlib import Path
from typing import Iterator, NamedTuple, Optional

ITEM = re.compile(
    r"( *)(?:pub(?:\([^)]*\))? )?(?:(?:const|unsafe|final|ghost|default|extern \"C\") )*"
    r"(fn|impl|mod|trait|struct|enum|const|static|type|macro_rules!)\b ?(.*)"
)


class Function(NamedTuple):
    """A function of a crate: the path of its module, its name with its type, and its rows in the file."""

    file: str
    module: str
    name: str
    rows: range

    @property
    def path(self) -> str:
        return "::".join(filter(None, (self.module, self.name)))

    def is_named(self, printed: str) -> bool:
        """Returns whether rattle means this function, or a closure in it, by a name."""
        module, parent, last = re.escape(f"{self.module}::" if self.module else ""), *map(re.escape, ("::" + self.name).rsplit("::", 1))
        parent = parent.lstrip(":")
        parent = f"{parent}::" if parent else ""
        return bool(re.fullmatch(rf"\w+::{module}({parent}{last}|(.*::)?fn::({parent})?{last}::.*|{parent}fn::{last}::.*)", printed))

    def has(self, line: str) -> bool:
        """Returns whether a line that rattle printed is about this function's text or its proof."""
        place = re.match(r"(?:note: )?(?:\./)?(\S+?):(\d+):\d+:", line)
        if place and place[1] == self.file:
            return int(place[2]) - 1 in self.rows
        folder = "/".join(("proofs", *filter(None, self.module.split("::"))))
        return bool(place and re.fullmatch(rf"{re.escape(folder)}/(.*/)?{re.escape(self.name.split('::')[-1])}/[^/]*", place[1]))


def indent(row: str) -> int:
    return len(row) - len(row.lstrip())


def parts_of(text: str, separator: str) -> list[str]:
    """Splits a type's text at separators that aren't in brackets."""
    parts, depth = [""], 0
    for word in re.findall(rf"->|{re.escape(separator)}|.", text):
        depth += (word in "<([") - (word in ">)]")
        if word == separator and not depth:
            parts.append("")
        else:
            parts[-1] += word
    return [it.strip() for it in parts if it.strip()]


def name_of(text: str, parameters: set[str], is_argument: bool) -> str:
    """Returns rattle's name for a type, with its arguments, without type parameters and lifetimes."""
    text = re.sub(r"^(&|'\w+\s*|mut |dyn )+", lambda found: "Ref" if "&" in found[0] else "", text.strip())
    prefix, text = ("Ref", text[3:]) if text.startswith("Ref") and text[3:4] in ("[", "(") else ("", text)
    if text[:1] in ("[", "("):
        within = parts_of(text[1:-1].partition(";")[0], ",")
        word = f"Tuple{len(within)}" if text[0] == "(" else "Array" if ";" in text else "Slice"
        return prefix + word + "".join(name_of(it, parameters, True) for it in within)
    head, _, rest = text.partition("<")
    last = re.findall(r"\w+", head)[-1:] or [""]
    if last[0] in parameters:
        return "" if is_argument else "Any"
    arguments = [it for it in parts_of(rest.rpartition(">")[0], ",") if not it.startswith("'")]
    return prefix + last[0][:1].upper() + last[0][1:] + "".join(name_of(it, parameters, True) for it in arguments)


def owner_of(header: str) -> str:
    """Returns rattle's name for an impl, from its header without the word impl: the names of the type and of a trait."""
    parameters: set[str] = set()
    header = re.split(r"\{| where\b", header)[0].strip()
    if header.startswith("<"):
        depth = ends = 0
        for ends, word in enumerate(header.replace("->", "  ")):
            depth += (word == "<") - (word == ">")
            if not depth:
                break
        parameters = {name for it in parts_of(header[1:ends], ",") for name in re.findall(r"^(?:const )?(\w+)", it)}
        header = header[ends + 1 :]
    names = parts_of(header.replace(" for ", "\0"), "\0")
    if len(names) == 2:
        return name_of(names[1], parameters, False) + name_of(names[0], parameters, False)
    whole, bare = name_of(header, parameters, False), name_of(header.partition("<")[0], parameters, False)
    return bare + (f"+{whole.removeprefix(bare)}" if whole != bare else "")


def items_around(rows: list[str], row: int) -> Iterator[tuple[int, str, str]]:
    """Yields the items around a row of a file, from the innermost outward: the item's row, its kind, and its header."""
    width = indent(rows[row]) + 1
    for number in range(row, -1, -1):
        item = ITEM.match(rows[number])
        if item and indent(rows[number]) < width:
            width = indent(rows[number])
            header = [item[3]]
            for more in rows[number + 1 : row]:
                if "{" in header[-1] or item[2] == "fn":
                    break
                header.append(more)
            yield number, item[2], " ".join(header)


def function_at(file: str, text: str, at: int) -> Optional[Function]:
    """Returns the function whose body has this place of the file's text, or None if the place is in no body."""
    rows, row = text.split("\n"), text.count("\n", 0, at)
    around = list(items_around(rows, row))
    functions = [number for number, (_, kind, _) in enumerate(around) if kind == "fn"]
    if not functions:
        return None
    first, _, header = around[functions[-1]]
    margin = " " * indent(rows[first])
    opens = next((it for it in range(first, len(rows)) if rows[it] == f"{margin}{{" or rows[it].endswith(" {")), row)
    if opens > row or (opens == row and rows[row].endswith(" {")):
        return None
    ends = (it for it in range(opens, len(rows)) if rows[it] == f"{margin}}}")
    outside = [(kind, header) for _, kind, header in around[functions[-1] + 1 :]]
    owner = [owner_of(header) if kind == "impl" else re.findall(r"\w+", header)[0] for kind, header in outside if kind in ("impl", "trait")]
    modules = [re.findall(r"\w+", header)[0] for kind, header in reversed(outside) if kind == "mod"]
    path = [it for it in Path(file).with_suffix("").parts[1:] if it not in ("lib", "main", "mod")]
    name = "::".join([*owner[:1], re.findall(r"\w+", header)[0]])
    return Function(file, "::".join([*path, *modules]), name, range(first, next(ends, len(rows)) + 1))


def item_at(text: str, at: int) -> str:
    """Returns the name of the outermost item other than a module or an impl that has this place, which is in no body."""
    around = items_around(text.split("\n"), text.count("\n", 0, at))
    found = [re.findall(r"\w+", header) for _, kind, header in around if kind not in ("mod", "impl")]
    return found[-1][0] if found and found[-1] else ""


def users_of(names: set[str], folder: Path) -> set[Function]:
    """Finds the functions of a crate whose bodies have any of the names."""
    found = set()
    for path in sorted((folder / "src").rglob("*.rt")):
        file, text = str(path.relative_to(folder)), path.read_text(encoding="utf-8")
        for place in re.finditer(rf"\b({'|'.join(map(re.escape, sorted(names)))})\b", text):
            function = function_at(file, text, place.start())
            found |= {function} if function else set()
    return found

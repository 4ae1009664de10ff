"""The items of the crates with the clauses of their contracts, and the definitions in specs/ that clauses cite.

This is read by tools/check-claims, tools/check-reading-order and tools/check-memory. It knows as much of the two languages as
they need: where an item begins and ends, which clauses it has, and which names a clause or a definition uses.
"""

import re
from collections import namedtuple

from dev.testing import ROOT

IMPORT = re.compile(r"\buse\s+Rattle\.([\w.]+?)(?:\.\{([^}]*)\}|\s+as\s+(\w+)|;|$)", re.M)
# A name that is used, with the module before it. A name after a dot is a field.
USED = re.compile(r"(?<![\w.◌])(?:([a-z_]+)\.)?([^\W\d]\w*(?:-[^\W\d]\w*)*)")
SIGN = re.compile(r"[^\w\s(){}\[\].,;:λ◌]+")
# What a type makes of a ghost member of a trait, as a clause quotes it.
QUOTED = re.compile(r"⟦<(\w+)[^⟧]*? as (\w+)>⟧\.(\w+)")
TEXT_IN_QUOTES = re.compile(r"\"(?:\\.|[^\"\\])*\"")
BRACKET = re.compile(r"[(){}\[\]]")
# Comments and quoted texts.
COMMENT_OR_TEXT = re.compile(r"//[^\n]*|b?\"(?:\\[\s\S]|[^\"\\])*\"|'(?:\\[^']+|[^'\\\n])'")
DEFINITION = re.compile(
    r"^(?:(?:  )?(?:abbrev|unfoldable)\s+(?:pub\s+)?|pub\s+(?:record\s+|data\s+)?|(?:record|data)\s+)"
    r"(?!mod\s)(◌[^\s:]+◌|[^\W\d][\w-]*)(?=\s)"
)
# An item: it isn't indented, or it is a member of one that isn't.
ITEM = re.compile(
    r"^( *)(pub(?:\(\w+\))?\s+)?(?:final\s+)?(?:extern\s+)?(fn|trait|impl|struct|enum|ghost)\b\s*(?!use\b)(\w*)", re.M
)
# The type that an impl is for.
OWNER = re.compile(r"\s*&?\s*(?:'\w+\s+)?(?:\w+::)*(\w+)")
CLAUSE = re.compile(r"\b(ensures|requires)\b\s*(\w*)\s*(?=\{)")
EXPORT = re.compile(r"pub use [\w:]+::(?:\{([^}]*)\}|(\w+));")
ALIAS = re.compile(r"^pub type (\w+)[^=;]*=\s*(\w+)", re.M)
TEST = re.compile(r"#\[test\]\s*(?:#\[[^\]]*\]\s*)*fn (\w+)")


class Scope:
    """What a file takes from elsewhere: names, each with its module and its name there, and modules under names of their own."""

    def __init__(self, text):
        imports = IMPORT.findall(text)
        self.modules = {alias: module for module, _, alias in imports if alias}
        self.names = {}
        for module, part in [(module, part.split()) for module, listed, _ in imports for part in listed.split(",") if part.strip()]:
            below, _, name = part[0].rpartition(".")  # `use Rattle.M.{N.d}` takes d of the module M.N.
            self.names[part[-1].rpartition(".")[2]] = (f"{module}.{below}" if below else module, name)


class Definition:
    """A definition in specs/: where it stands, what the comment above it says, its text, and what that cites."""

    def __init__(self, key, line, comment, scope):
        self.crate, self.module, self.name = self.key = key
        self.line, self.comment, self.scope = line, comment, scope
        self.text = ""
        self.cites = None

    def count_lines(self):
        """How many lines a reader of it reads."""
        return sum(bool(line.strip()) for line in self.text.split("\n"))


class Item:
    """An item of the code: a function, a method, a trait, a type, or a fact that a trait or a type states of itself."""

    is_public = False
    of_trait = False  # Whether it is a trait's call, or what a type has for one.

    def __init__(self, file, name, kind):
        self.key = (file.crate, name)
        self.name, self.kind, self.path, self.scope = name, kind, file.path, file.scope
        self.clauses = []  # (name or None, 'ensures', 'requires' or 'states', text, line)

    def clause_names(self):
        return {name for name, *_ in self.clauses if name}


def blocks_of(text):
    """The end of each block of a text, by the place of the bracket that it begins with."""
    ends, begun = {}, []
    for bracket in BRACKET.finditer(text):
        if bracket[0] in "({[":
            begun.append(bracket.start())
        elif begun:
            ends[begun.pop()] = bracket.end()
    return {**ends, **dict.fromkeys(begun, len(text))}


def blank(text):
    """Blanks in place of a text, each line as long as it is."""
    return re.sub(r"[^\n]", " ", text)


def blanked(text):
    """The text with blanks in place of comments and quoted texts."""
    return COMMENT_OR_TEXT.sub(lambda found: blank(found[0]), text)


Block = namedtuple("Block", "owner kind trait")
"""The block of a trait, a type or an impl: its owner and its trait."""


class CodeFile:
    """A file of a crate's code, with its items."""

    def __init__(self, sources, crate, path, raw, exported):
        self.sources, self.crate, self.exported = sources, crate, exported
        self.path = path.relative_to(ROOT)
        self.text = blanked(raw)
        self.ends = blocks_of(self.text)
        self.scope = Scope(self.text)
        sources.tests.update(TEST.findall(raw))

    def add(self, name, kind):
        """The item of this name. Of several under one name the first that has clauses counts."""
        known = self.sources.items.get((self.crate, name))
        if known is None or not known.clauses:
            known = self.sources.items[(self.crate, name)] = Item(self, name, kind)
        return known

    def scan(self):
        """Takes all items. Those of a trait, a struct or an impl are indented by four."""
        block = None
        for found in ITEM.finditer(self.text):
            depth, is_open, kind, name = len(found[1]), (found[2] or "").strip() == "pub", found[3], found[4]
            if depth == 0:
                block = self.impl(found.end(3)) if kind == "impl" else Block(name, kind, None)
                if kind in ("trait", "struct", "enum"):
                    self.add(name, kind).is_public = name in self.exported
            is_member = depth == 4 and block and block.kind in ("trait", "struct", "impl")
            if kind == "fn" and (depth == 0 or is_member):
                self.take_function(name, is_open, self.clauses(found.end(), depth), block if is_member else None)
            elif name and kind == "ghost" and is_member:
                self.take_ghost(name, found.end(), block)

    def impl(self, at):
        """The block of an impl, unless it is for tuples or slices."""
        heading = re.sub(r"^\s*<(?:[^<>]|<[^<>]*>)*>", "", self.text[at : self.text.index("{", at)])
        trait, _, target = heading.rpartition(" for ")
        owner, of_trait = OWNER.match(target), re.match(r"\s*(?:\w+::)*(\w+)", trait)
        return owner and Block(owner[1], "impl", of_trait and of_trait[1])

    def clauses(self, at, depth):
        """The clauses of a function. They end before the next line that isn't indented further and doesn't begin with a bracket."""
        end = re.compile(rf"^ {{0,{depth}}}(?!where\b)[^\s)>]", re.M).search(self.text, at).start()
        clauses = []
        for clause in CLAUSE.finditer(self.text, at, end):
            told = self.text[clause.end() + 1 : self.ends[clause.end()] - 1]
            clauses.append((clause[2] or None, clause[1], told, self.text.count("\n", 0, clause.start()) + 1))
        return clauses

    def take_function(self, name, is_open, clauses, block):
        name = f"{block.owner}::{name}" if block else name
        item = self.add(name, "fn")
        item.clauses = item.clauses or clauses
        if block is not None:
            item.of_trait = block.kind == "trait" or block.trait is not None
            is_open |= block.kind == "trait" or (block.trait is not None and bool(clauses))
        item.is_public |= is_open and (block.owner if block else name) in self.exported

    def take_ghost(self, name, at, block):
        """A ghost member: what a trait leaves open or requires, what a type states about itself, or what it defines for a trait."""
        opening = re.compile("[{;]").search(self.text, at).start()
        told = self.text[opening + 1 : self.ends.get(opening, opening + 1) - 1]
        if block.kind == "impl":
            self.sources.members[(block.owner, block.trait, name)] = (told, self.scope)
        else:
            item = self.add(f"{block.owner}::{name}", "fact")
            if self.text[at:].lstrip().startswith(":"):
                item.clauses = [(None, "states", told, 0)]


class Sources:
    """All crates of the repository."""

    def __init__(self):
        self.crates = sorted(path.parent.name for path in (ROOT / "crates").glob("*/src"))
        self.definitions, self.items = {}, {}
        self.members = {}  # by type, trait and name: the text of a ghost member, and the scope of its file
        self.aliases = {}  # by crate and name: the type that is meant
        self.exported, self.tests = set(), set()
        for crate in self.crates:
            for path in sorted((ROOT / "crates" / crate / "specs").rglob("*.antt")):
                self.read_definitions(crate, path)
            self.read_code(crate)
        for definition in self.definitions.values():
            definition.cites = self.cited(definition.text, definition.scope, definition)

    def read_definitions(self, crate, path):
        module = ".".join(path.relative_to(ROOT / "crates" / crate / "specs").with_suffix("").parts)
        text = path.read_text(encoding="utf-8")
        lines, scope = text.split("\n"), Scope(text)
        definition, above, said = None, [], lines[0].lstrip("- ")
        for number, line in enumerate(lines, 1):
            if line.lstrip().startswith("--"):
                above.append(line.lstrip("- "))
                continue
            found = DEFINITION.match(line)
            if found:
                # Definitions that follow one another without a comment share the one above them.
                said = " ".join(above) or said
                definition = Definition((crate, module, found.group(1)), number, said, scope)
                self.definitions[definition.key] = definition
            above = []
            if definition is not None and not line.startswith("infix"):
                definition.text += line + "\n"

    def read_code(self, crate):
        folder = ROOT / "crates" / crate / "src"
        texts = {path: path.read_text(encoding="utf-8") for path in sorted(folder.rglob("*.rt"))}
        listed = EXPORT.findall(texts.get(folder / "lib.rt", ""))
        exported = {name for several, one in listed for name in re.findall(r"[^,\s]+", several or one)}
        aliases = {alias: named for text in texts.values() for alias, named in ALIAS.findall(text) if alias in exported}
        self.aliases |= {(crate, alias): named for alias, named in aliases.items()}
        exported |= set(aliases.values())
        self.exported |= {(crate, name) for name in exported}
        for path, text in texts.items():
            CodeFile(self, crate, path, text, exported).scan()

    def cited(self, text, scope, definition=None):
        """What a text cites in this scope: definitions of specs/ and of the kit, and types of the code, each as (crate, module, name). The
        text of a definition can also cite definitions of its own file."""
        cited, text = set(), TEXT_IN_QUOTES.sub(" ", text)
        for module, name in USED.findall(text) + [("", f"◌{sign}◌") for sign in SIGN.findall(text)]:
            if module in scope.modules:
                cited.add(self.key_of(scope.modules[module], name))
            elif (module or name) in scope.names:
                cited.add(self.key_of(*scope.names[module or name]))
            elif definition is not None:
                cited |= {(definition.crate, definition.module, module or name)} & self.definitions.keys()
        return cited - {None, definition and definition.key}

    def key_of(self, module, name):
        """What a module of specs/ or of the kit has under a name, if that counts. A type has the file of its code as its module."""
        crate, *parts = module.split(".")
        key = (crate, ".".join(parts[1:]), name)
        if parts[:2] == ["specs", "declared"]:
            file = "/".join(part for part in parts[2:] if part[0].islower())
            return (crate, f"{file}.rt", parts[-2] if parts[-1] == "TheVariants" else name) if crate in self.crates else None
        return key if parts[:1] == ["specs"] and (key in self.definitions or crate not in self.crates) else None

    def cited_by_items(self, items):
        """What the clauses of items cite."""
        cited = set()
        aliases = {alias: named for (_, alias), named in self.aliases.items()}
        for item, text in [(item, text) for item in items for _, _, text, _ in item.clauses]:
            cited |= self.cited(text, item.scope)
            for name, *member in QUOTED.findall(text):
                told = self.members.get((name, *member)) or self.members.get((aliases.get(name), *member))
                cited |= self.cited(*told) if told else set()
        return cited

    def closure(self, keys, passed_over=()):
        """All definitions among these, and all that they rest on, except those that only passed-over definitions cite."""
        found, left = set(), keys & self.definitions.keys()
        while left:
            key = left.pop()
            found.add(key)
            if key not in passed_over:
                left |= (self.definitions[key].cites & self.definitions.keys()) - found
        return found

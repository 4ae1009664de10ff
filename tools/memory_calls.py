"""The calls in the sources that ask an allocator for memory, each with its arguments.

A call is listed if it is one of the kit that makes or grows a collection, is passed an allocator, or fails with `?`; and also if it passes
a number that a function of the repository passes on to such a call. Local variables among the arguments are shown with their values, as
are constants. A function of the repository that returns a number is listed with its body if the number is among the arguments, unless a
clause says what it returns.

tools/check-memory compares them with tools/memory-calls.txt."""

import re
from typing import Any, Iterator, NamedTuple

from dev import contracts

# The kit's calls that make or grow a collection.
GROWING = set(
    "append collect entry extend extend_from_slice extend_from_within format from_array from_elem from_fn from_iter from_str insert"
    " partition push push_back push_front push_str repeat reserve reserve_exact resize resize_with sort sort_by sort_by_cached_key"
    " sort_by_key split_off to_owned to_string to_vec try_reserve unzip vec with_capacity with_capacity_in".split()
)
IN_ARENA = re.compile(r"(?:try_)?alloc_\w+$")
# Those of them that take as much memory as a number says, which an argument of the function can be.
SIZED = set("collect from_elem repeat reserve reserve_exact resize resize_with try_reserve vec with_capacity with_capacity_in".split())
# A call: whether it is a method's, its path, its name, whether it is a macro's, and its bracket.
CALL = re.compile(r"(\.\s*)?\b((?:\w+(?:::<[^();]*?>)?::)*)(\w+)(?:::<[^();]*?>)?(!?)\s*([(\[])")
ALLOCATOR = re.compile(r"\balloc(?:ator)?\b")
# These calls are passed an allocator, or a value that was, and take no memory.
EMPTY = re.compile(r"(?:\w+(?:::<[^()]*>)?::)+(?:new|new_in|empty)\((?:self\.)?alloc\)$|(?:Ok|Err|Some)\(")
FUNCTION = re.compile(r"\bfn\s+(\w+)\s*(?:<[^()]*>)?\s*\(")
RESULT = re.compile(r"\s*->\s*(?:usize|u64|u32|u16|u8)\b")
NUMBER = re.compile(r"\b(\w+)\s*:\s*(?:usize|u64|u32|u16|u8)\b")
LOCAL = re.compile(r"\blet\s+(?:mut\s+)?(\w+)\s*(?::[^=;]*)?=\s*([^;{}]*);")
# A call by its name, and the dot before it if it is a method's.
CALLED = re.compile(r"(\.\s*)?\b([a-z_]\w*)(?:::<[^();]*?>)?\(")
WORD = re.compile(r"(?<!\.)\b[a-z_]\w*\b(?!\s*[(!:])")


class Function(NamedTuple):
    """A function of the sources: its name, whether it is called on a value, the numbers among its parameters, whether it returns a number
    of which no clause says anything, and where its body is."""

    name: str
    is_method: bool
    numbers: set[str]
    is_unknown: bool
    first: int
    last: int


class Call(NamedTuple):
    """A call: its name, whether it is made on a value, its arguments, and where it stands with its path or value."""

    name: str
    is_method: bool
    arguments: str
    first: int
    last: int


def functions(source: Any, ends: dict[int, int]) -> Iterator[Function]:
    """The functions that have a body."""
    code = source.code
    for found in FUNCTION.finditer(code):
        closed = ends[found.end() - 1]
        given, body = code[found.end() : closed - 1], re.compile(r"[{;]").search(code, closed)
        if body and body[0] == "{":
            is_method = re.match(r"\s*&?\s*(?:'\w+\s+)?(?:mut\s+)?self\b", given) is not None
            told = source.contracts[closed : body.start()]
            is_unknown = RESULT.match(told) is not None and "ensures" not in told
            yield Function(found[1], is_method, set(NUMBER.findall(given)), is_unknown, body.start(), ends[body.start()])


def begin_of(code: str, at: int, begins: dict[int, int]) -> int:
    """Where the expression begins that a method is called on, whose dot stands here."""
    while True:
        at = len(code[:at].rstrip())
        while at and code[at - 1] in "?)]":
            at = begins[at] if code[at - 1] != "?" else len(code[: at - 1].rstrip())
        at -= len(re.search(r"(?:(?:\w+(?:::<[^();]*>)?::)*\w+(?:::<[^();]*>)?!?)?$", code[:at])[0])
        before = code[:at].rstrip()
        if not before.endswith(".") or before.endswith(".."):
            return at
        at = len(before) - 1


def calls(code: str, ends: dict[int, int], begins: dict[int, int], function: Function) -> Iterator[Call]:
    """The calls in a function's body."""
    for found in CALL.finditer(code, function.first, function.last):
        if (found[5] == "(" or found[4]) and found[3] not in ("fn", "if", "match", "while", "for", "in", "return"):
            last = ends[found.end() - 1]
            first = begin_of(code, found.start(), begins) if found[1] else found.start()
            yield Call(found[3], bool(found[1]), code[found.end() : last - 1], first, last)


def asks_for_memory(code: str, call: Call, own: set[tuple[str, bool]]) -> bool:
    """Whether a call, which is none of a function of the sources, asks an allocator for memory."""
    if call.name in GROWING or IN_ARENA.match(call.name):
        return (call.name, call.is_method) not in own or call.is_method
    if (call.name, call.is_method) in own:
        return False
    return ALLOCATOR.search(call.arguments) is not None or re.match(r"\s*\?", code[call.last :]) is not None


def values_of(code: str, call: Call, function: Function) -> dict[str, str]:
    """The variables among the arguments of a call, each with its value."""
    before = dict(LOCAL.findall(code, function.first, call.first))
    return {name: " ".join(before[name].split()) for name in sorted(set(WORD.findall(call.arguments)) & set(before))}


def with_values(source: Any, call: Call, values: dict[str, str]) -> str:
    """A call with the values of the variables and constants among its arguments."""
    text = " ".join(source.code[call.first : call.last].split())
    return " ".join([text, *(f"[{name} = {value}]" for name, value in values.items()), *source.constants(call.arguments)])


def unknown_numbers(found: list[Any], named: set[tuple[str, bool]]) -> Iterator[tuple[str, str, str]]:
    """The file, the name and the body of each of these functions that returns a number of which no clause says anything. The clauses of
    a trait count for its types."""
    for source, function, _ in found:
        if function.is_unknown and not function.is_method and (function.name, function.is_method) in named:
            body = " ".join(source.code[function.first : function.last].split())
            yield source.name, function.name, " ".join([body, *source.constants(body)])


def memory_calls(sources: list[Any]) -> Iterator[tuple[str, str, str]]:
    """The file, the function and the call, with its values, of each call that asks for memory."""
    found = []
    for source in sources:
        ends = contracts.blocks_of(source.code)
        begins = {end: begin for begin, end in ends.items()}
        for function in functions(source, ends):
            found.append((source, function, list(calls(source.code, ends, begins, function))))
    own = {(function.name, function.is_method) for _, function, _ in found}
    sized: set[tuple[str, bool]] = set()
    listed: list[tuple[str, str, str]] = []
    named: set[tuple[str, bool]] = set()
    while True:
        before, listed = set(sized), []
        for source, function, made in found:
            for call in made:
                text = source.code[call.first : call.last]
                is_sized = (call.name, call.is_method) in sized and ALLOCATOR.search(call.arguments)
                if EMPTY.match(text) or not is_sized and not asks_for_memory(source.code, call, own):
                    continue
                values = values_of(source.code, call, function)
                listed.append((source.name, function.name, with_values(source, call, values)))
                named |= {(name, bool(dot)) for dot, name in CALLED.findall(" ".join([call.arguments, *values.values()]))} & own
                if (is_sized or call.name in SIZED) and function.numbers & set(WORD.findall(text)):
                    sized.add((function.name, function.is_method))
        if sized == before:
            return iter([*listed, *unknown_numbers(found, named)])

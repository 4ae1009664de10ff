"""The shared library with the calls of tigercanon: how it is found, what it is lent, and refusals as exceptions."""

from __future__ import annotations

import ctypes
import functools
import mmap
import os
import stat
import subprocess
from array import array
from contextlib import ExitStack, contextmanager
from ctypes import c_bool, c_size_t, c_ssize_t, c_uint8, c_uint64, c_void_p
from pathlib import Path
from typing import TYPE_CHECKING, Any, BinaryIO, Iterable, Iterator, Optional, Union

from .errors import Unreadable

if TYPE_CHECKING:
    Array = array[Any]
else:
    Array = array
NAME = "libtigercanon.so.1"
FINDER = "scripts/find-made"
VARIABLE = "TIGERCANON_LIBRARY"
ADVICE = f"scripts/build-library builds it, a release has it, and {VARIABLE} names it elsewhere"

Part = Union[bytes, bytearray, memoryview, mmap.mmap, Array, BinaryIO, str, os.PathLike[str]]
"""A part of a set: an object that lends its bytes in one piece, a file opened in binary mode, or the path of a file."""

Set = Union[Part, Iterable[Part]]
"""A set: one part, several parts, or the path of a county: one file, a zip, or the stem of its files."""

DIFFERENT = 1  # the status of compare for two maps. Higher ones are refusals.


class Refusal(Exception):
    """The set is rejected. docs/refusals.md describes each refusal and its remedy.

    number  1 to 7 for a faulty line, 9 if memory ran out (OutOfMemory), 11 to 24 if the records don't fit together
    name    the refusal's name, for example "BadNumber"
    places  in the order of the line: a record type as a string ("6"), a CENID as ten hexadecimal digits
            ("3036303031"), everything else as numbers: parts, lines and columns, counted from 1, or TLIDs, FEATs,
            LANDs and POLYIDs
    set     from compare: which set is at fault, 1 or 2; otherwise None
    line    the line that the program prints, without its line ending: "refused 4 BadNumber 1 4 6"
    """

    def __init__(self, number: int, name: str, places: tuple[Union[int, str], ...] = (), set: Optional[int] = None) -> None:
        super().__init__(number, name, places, set)
        self.number, self.name, self.places, self.set = number, name, places, set
        line = " ".join(["refused", str(number), name, *map(str, places)])
        self.line = line if set is None else f"{line} in set {set}"

    def __str__(self) -> str:
        return self.line


class OutOfMemory(Refusal, MemoryError):
    """Memory ran out: refusal 9."""


REFUSALS = {
    "number": {11: "ChainTwice", 14: "LinkMissing", 15: "LinkTwice", 16: "NameTwice", 19: "LandUnknown"},
    "number number": {1: "UnknownType", 2: "LineTooLong", 17: "NameUnknown"},
    "number number number": {3: "BadByte", 4: "BadNumber", 5: "BadPoint", 6: "GapInRecord"},
    "type": {7: "TooManyRecords"},
    "type number": {12: "NoChain", 13: "SequenceBroken"},
    "cenid number": {18: "PolygonTwice", 20: "PolygonUnknown", 23: "PolygonWithoutChain"},
    "": {9: "Memory", 24: "TooSymmetric"},
}
"""The refusals that a call can report, by the kinds of their places."""


class Text(ctypes.Structure):
    """The address and the length of a part that is lent, or of a text that is returned in a block that malloc allocated."""

    _fields_ = [("bytes", c_void_p), ("length", c_size_t)]


class Buffer(ctypes.Structure):
    """CPython's Py_buffer, of 80 bytes."""

    _fields_ = [("address", c_void_p), ("object", c_void_p), ("length", c_ssize_t), ("rest", c_void_p * 7)]


class Hash(ctypes.Structure):
    _fields_ = [("bytes", c_uint8 * 32)]


class Fault(ctypes.Structure):
    """Why there is no answer."""

    _fields_ = [("number", c_uint8), ("set", c_uint8), ("record_type", c_uint8), ("cenid", c_uint8 * 5), ("numbers", c_uint64 * 3)]

    def refusal(self) -> Refusal:
        (kinds,) = (kinds for kinds, names in REFUSALS.items() if self.number in names)
        places = {"type": iter([chr(self.record_type)]), "cenid": iter([bytes(self.cenid).hex()]), "number": iter(self.numbers)}
        raised, name = OutOfMemory if self.number == 9 else Refusal, REFUSALS[kinds][self.number]
        return raised(self.number, name, tuple(next(places[kind]) for kind in kinds.split()), self.set or None)


bytes_at = ctypes.pythonapi.PyBytes_FromStringAndSize
bytes_at.argtypes = [c_void_p, c_ssize_t]
bytes_at.restype = ctypes.py_object
free = ctypes.CDLL(None).free
free.argtypes = [c_void_p]
free.restype = None
get_buffer = ctypes.pythonapi.PyObject_GetBuffer
get_buffer.argtypes = [ctypes.py_object, ctypes.POINTER(Buffer), ctypes.c_int]
release_buffer = ctypes.pythonapi.PyBuffer_Release
release_buffer.argtypes = [ctypes.POINTER(Buffer)]
release_buffer.restype = None

EMPTY = ctypes.create_string_buffer(1)
ADDRESS_OF_EMPTY = ctypes.addressof(EMPTY)  # the address of a part without bytes: the library wants one that isn't null


def place_of_library() -> tuple[str, str]:
    """Returns the file that the variable names, else the one beside this package, else the library of the release or clone
    around it, else a name that the system searches for. If a clone has no library that was made from its sources, there is no
    file, and the reason."""
    package = Path(__file__).resolve().parent
    root = package.parent.parent
    places = [package, root / "lib"]
    if not (root / FINDER).is_file():
        places.append(root / "out/library/lib")
    path = os.environ.get(VARIABLE, "") or next((str(place / NAME) for place in places if (place / NAME).exists()), "")
    if not path and (root / FINDER).is_file():
        # In a clone it is the library that was built from the sources as they are, or is prebuilt from them.
        asks = [str(root / FINDER), NAME]
        ended = subprocess.run(asks, stdin=subprocess.DEVNULL, stdout=subprocess.PIPE, stderr=subprocess.PIPE)
        path, why = (os.fsdecode(text).rstrip("\n") for text in (ended.stdout, ended.stderr))
        return path, why
    return path or NAME, ""


@functools.lru_cache(maxsize=None)
def library() -> ctypes.CDLL:
    """Returns the library, which is loaded at the first call. Raises ImportError if it can't be loaded."""
    place, why = place_of_library()
    if not place:
        raise ImportError(f"{why}: {ADVICE}")
    text, fault = ctypes.POINTER(Text), ctypes.POINTER(Fault)
    parts: list[Any] = [text, c_size_t]
    flags: list[Any] = [c_bool, c_bool]
    calls = {
        "check": [*parts, fault],
        "respell": [*parts, text, fault],
        "normalise": [*parts, *flags, text, fault],
        "fingerprint": [*parts, *flags, ctypes.POINTER(Hash), fault],
        "compare": [*parts, *parts, *flags, fault],
    }
    try:
        loaded = ctypes.CDLL(place)
        for name, arguments in calls.items():
            function = getattr(loaded, f"tigercanon_{name}")
            function.argtypes, function.restype = arguments, c_uint8
    except (OSError, AttributeError) as error:
        raise ImportError(f"the library {NAME} can't be loaded ({error}): {ADVICE}") from None
    return loaded


def call(name: str, sets: list[Set], *arguments: Any) -> int:
    """Makes a call on these sets, and returns its status if it isn't a refusal. Other threads run meanwhile."""
    function = getattr(library(), f"tigercanon_{name}")
    fault = Fault()
    with ExitStack() as stack:
        lent_sets = [argument for parts in sets for argument in stack.enter_context(lent(parts))]
        status = function(*lent_sets, *arguments, fault)
    if status > DIFFERENT:
        raise fault.refusal()
    return int(status)


def text_of(name: str, parts: Set, *flags: bool) -> bytes:
    text = Text(ADDRESS_OF_EMPTY, 0)
    call(name, [parts], *flags, text)
    if text.length == 0:
        return b""
    try:
        return bytes(bytes_at(text.bytes, text.length))
    finally:
        free(text.bytes)


@contextmanager
def lent(parts: Set) -> Iterator[tuple[Any, int]]:
    """Lends the parts of a set to the library: an array of pieces and how many they are. Afterwards the owners can change them."""
    with ExitStack() as stack:
        views = [stack.enter_context(view_of(part)) for part in parts_of(parts)]
        if not views:
            raise ValueError('a set has at least one part: that without records is b""')
        pieces = (Text * max(len(views), 1))()
        for piece, view in zip(pieces, views):
            buffer = Buffer()
            get_buffer(view, ctypes.byref(buffer), 0)
            stack.callback(release_buffer, ctypes.byref(buffer))
            piece.bytes = buffer.address if buffer.length else ADDRESS_OF_EMPTY
            piece.length = buffer.length
        yield pieces, len(views)


def parts_of(parts: Set) -> Iterable[Any]:
    """Returns the parts of a set. A path leads to a file or a zip, or is the stem of a county's nine files. An absent file is empty."""
    if not isinstance(parts, (str, os.PathLike)):
        if lends_bytes(parts) or hasattr(parts, "read"):
            return [parts]
        if not isinstance(parts, Iterable):
            raise TypeError(
                f"a set is a path, bytes, a file opened in binary mode or an iterable of these, not {type(parts).__name__}"
            )
        return parts
    path = os.fspath(parts)
    if os.path.exists(path) and not stat.S_ISREG(os.stat(path).st_mode):
        return [Path(path).read_bytes()]  # what can be read only once, such as a pipe; and not a folder
    from .contents import contents  # which a program that has its counties in memory doesn't need

    try:
        return contents(path)
    except Unreadable as fault:
        raise ValueError(f"{path}: {fault}") from None


def view_of(part: Any) -> memoryview:
    """Returns all bytes of a part. A file is read from its current position to its end. Raises BufferError if they aren't in one piece."""
    if isinstance(part, (str, os.PathLike)):
        part = Path(part).read_bytes()
    elif hasattr(part, "read") and not lends_bytes(part):
        part = part.read()
    if not lends_bytes(part):
        raise TypeError(f"a part is bytes, a file opened in binary mode or a path, not {type(part).__name__}")
    with memoryview(part) as view:
        if not view.c_contiguous:
            raise BufferError("a part has to lend its bytes in one piece")
        return view.cast("B") if view.nbytes else memoryview(b"")


def lends_bytes(part: object) -> bool:
    try:
        with memoryview(part):  # type: ignore[arg-type]
            return True
    except TypeError:
        return False

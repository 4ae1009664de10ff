"""The calls of tigercanon for Python: checks, canonical texts and fingerprints of TIGER/Line 2006 counties.

    import tigercanon

    print(tigercanon.fingerprint("TGR01001.ZIP"))

A *set* holds the records of one county. Each call takes one of these:

- the path of a county as a str or os.PathLike: one file with all of its records, a zip with its files, or the stem of
  its files ("in/TGR01001" for in/TGR01001.RT1 and so on, in either case of the endings; an absent file is empty).
- one part: an object that lends its bytes in one piece, such as bytes, a bytearray, a memoryview, an mmap or an array;
  or a file opened in binary mode, which is read from its current position to its end.
- several parts in any iterable, each as above or the path of one file.

A line can't continue in the next part. Otherwise the division of records among parts makes no difference, except for the part and
line numbers in a refusal. No call notices if a county's file is missing: without it the set is another map.

If a set is rejected or memory runs out, a call raises Refusal. A missing file raises the OSError of opening it, a zip without
exactly one county ValueError, an object that isn't a part TypeError, and one whose bytes aren't in one piece BufferError.

Any number of threads can make calls at once, and other threads run during a call. Nothing may write to the parts during
a call. No reference to a part is kept.

The module needs CPython on x86-64 Linux and the library libtigercanon.so.1. It loads the one that TIGERCANON_LIBRARY
names, else the one beside this package, else the one that the system finds. In a clone, scripts/build-library builds
it. Without it, the first call raises ImportError; the command tigercanon-tools works without the library.

The other calls do what the commands of tigercanon-tools do, and run the program instead of the library: manifest, verify and checks
judge the counties of an archive, changes and duplicates read manifests, differences and chains read counties, and explain is about a
refusal. They raise Failure if they can't go on. A call keeps nothing outside itself: what it starts and makes ends
with it, and results that aren't read to their end are ended by their close.
"""

from typing import TYPE_CHECKING, Any

from . import _library
from ._library import OutOfMemory, Part, Refusal, Set
from .version import VERSION as __version__

__all__ = [
    "ChainRow",
    "Checked",
    "Difference",
    "Explanation",
    "FORM",
    "Failure",
    "Fault",
    "Group",
    "History",
    "Judged",
    "OutOfMemory",
    "Part",
    "Refusal",
    "Results",
    "Set",
    "Verified",
    "__version__",
    "chains",
    "changes",
    "check",
    "checks",
    "compare",
    "differences",
    "duplicates",
    "explain",
    "fingerprint",
    "manifest",
    "normalise",
    "respell",
    "verify",
]

FORM = "tigercanon form 1"  # the name of the form of the canonical texts. Cite it with a fingerprint.

if TYPE_CHECKING:
    from .archive import ChainRow, Checked, Difference, Explanation, Failure, Fault, Group, History, Judged, Results, Verified
    from .archive import chains, changes, checks, differences, duplicates, explain, manifest, verify


def __getattr__(name: str) -> Any:
    """Returns a call for archives or a type of theirs. Their modules are loaded only if one of them is used."""
    if name not in __all__:
        raise AttributeError(f"module {__name__!r} has no attribute {name!r}")
    from . import archive

    return getattr(archive, name)


def __dir__() -> list[str]:
    return sorted({*globals(), *__all__})


def check(parts: Set) -> None:
    """Checks that a set is accepted: returns None if it is, and raises Refusal if it isn't.

    A set is accepted if each line is a record, the records fit together as a county, each polygon with a record of
    type P lies on a side of a chain, and the points of the chains leave few enough choices open.

    Raises Refusal with the first fault; OutOfMemory; and the errors that the module's documentation lists for other parts.
    """
    _library.call("check", [parts])


def respell(parts: Set) -> bytes:
    """Returns the records of a set in canonical spelling, in the order of their lines and with their own numbers.

    Each line ends with LF. The records needn't fit together.

    Raises Refusal with a number from 1 to 7 if a line isn't a record; and whatever else check raises.
    """
    return _library.text_of("respell", parts)


def normalise(parts: Set, *, no_sources: bool = False, no_reserved: bool = False) -> bytes:
    """Returns the canonical text of the map that a set describes. All sets that describe one map have the same.

    no_sources leaves out where data came from (SOURCE of record types 1, 7 and I), no_reserved the reserved fields.

    Raises whatever check raises.
    """
    return _library.text_of("normalise", parts, bool(no_sources), bool(no_reserved))


def fingerprint(parts: Set, *, no_sources: bool = False, no_reserved: bool = False) -> str:
    """Returns the fingerprint of the map that a set describes: the SHA-256 hash of its canonical text.

    It has 64 lower-case hexadecimal digits. With a flag it is the hash of the text that normalise returns with it.

    Raises whatever check raises.
    """
    digits = _library.Hash()
    _library.call("fingerprint", [parts], bool(no_sources), bool(no_reserved), digits)
    return bytes(digits.bytes).hex()


def compare(first: Set, second: Set, *, no_sources: bool = False, no_reserved: bool = False) -> bool:
    """Returns whether two sets describe one map: they differ only in numbering, direction, order, packing and spelling.

    With a flag the maps are compared without the fields that it leaves out.

    Raises Refusal with the number of the rejected set, the second only if the first is accepted; and whatever else check raises.
    """
    status = _library.call("compare", [first, second], bool(no_sources), bool(no_reserved))
    return status != _library.DIFFERENT

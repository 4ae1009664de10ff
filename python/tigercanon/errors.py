"""Errors that end a command with one line on standard error."""

from contextlib import contextmanager
from typing import Iterator


class Failure(Exception):
    """A command can't start or can't go on. The text names the file and the cause; the exit status is 2."""


class Unreadable(Exception):
    """A file of a county can't be read, or isn't what its name says. The text says why."""


def printable(text: str) -> str:
    """Returns the text on one line: characters that can't be printed are escaped."""
    return "".join(letter if letter.isprintable() else repr(letter)[1:-1] for letter in text)


def reason(error: BaseException) -> str:
    """Returns what an error reports, on one line."""
    if isinstance(error, OSError) and error.strerror:
        return error.strerror
    return printable(" ".join(str(error).split())) or type(error).__name__


@contextmanager
def reported(name: str, what: str = "can't be written") -> Iterator[None]:
    """Reports an error of the system with a file's name, and the action that failed."""
    try:
        yield
    except OSError as error:
        raise Failure(f"{name}: {what}: {reason(error)}") from None

"""The output of a command on standard output, and its reports on standard error: lines, its progress and its end."""

from __future__ import annotations

import json
import os
import sys
import threading
import time
from collections import Counter
from contextlib import contextmanager, suppress
from typing import Any, Iterable, Iterator

from .errors import Failure, printable, reason

PAUSE = 10.0  # seconds between two lines of progress if standard error isn't a terminal


def print_lines(lines: Iterable[str]) -> None:
    """Prints lines on standard output. Raises BrokenPipeError if the reader is gone, and Failure if it can't be written."""
    print_bytes(os.fsencode("".join(f"{line}\n" for line in lines)))


def print_bytes(text: bytes) -> None:
    """Prints a text on standard output, with the same errors."""
    if text and sys.stdout is None:
        raise Failure("standard output: can't be written: it is closed")
    try:
        if text:
            sys.stdout.buffer.write(text)
            sys.stdout.buffer.flush()
    except BrokenPipeError:
        raise
    except OSError as error:
        raise Failure(f"standard output: can't be written: {reason(error)}") from None


def as_json(row: Any) -> str:
    """Returns a value as JSON, on one line."""
    return json.dumps(row, ensure_ascii=True)


def amount(count: int) -> str:
    """Returns a number of bytes in the largest unit that it fills."""
    for unit, size in (("GB", 10**9), ("MB", 10**6), ("kB", 10**3)):
        if count >= size:
            return f"{count / size:,.1f} {unit}"
    return f"{count:,} bytes"


def duration(seconds: float) -> str:
    """Returns a time in hours, minutes and seconds, without seconds if it has hours."""
    whole = int(seconds + 0.5)
    if whole >= 3600:
        return f"{whole // 3600} h {whole // 60 % 60} min"
    return f"{whole // 60} min {whole % 60} s" if whole >= 60 else f"{whole} s"


def plural(noun: str) -> str:
    return f"{noun[:-1]}ies" if noun.endswith("y") else f"{noun}s"


def counted(count: int, noun: str) -> str:
    """Writes a number of things, with their noun in the singular or the plural."""
    return f"{count:,} {noun if count == 1 else plural(noun)}"


class Tally:
    """The counties that are judged, and the results so far: doubles are files with the map of another file of their county. A call from
    Python doesn't show them."""

    noun = "county"

    def __init__(self) -> None:
        self.counties = self.ended = self.bytes = self.bytes_in_all = self.failed = self.doubles = 0
        self.refused: Counter[str] = Counter()
        self.started = time.monotonic()

    @property
    def accepted(self) -> int:
        """How many were neither refused nor failed."""
        return self.ended - sum(self.refused.values()) - self.failed - self.doubles

    def start(self, counties: int, bytes_in_all: int) -> None:
        """Notes that all counties are found."""
        self.counties, self.bytes_in_all = counties, bytes_in_all

    def end(self, size: int) -> None:
        """Notes that a county is done."""
        self.ended += 1
        self.bytes += size

    def look(self) -> None:
        """Notes that a moment has passed."""

    def close(self) -> None:
        """Notes that all counties are done."""


class Console:
    """What a command reports on standard error, and the counties that it judges."""

    def __init__(self) -> None:
        self.lock = threading.Lock()  # keeps lines whole: it is held while one is printed
        self.progress: Progress | None = None

    @contextmanager
    def above_the_bar(self) -> Iterator[None]:
        """Takes the progress bar away, if there is one, while something is printed."""
        with self.lock:
            bar = self.progress.bar if self.progress else None
            if bar is not None:
                bar.clear()
            yield
            if bar is not None:
                bar.refresh()

    def report(self, text: str) -> None:
        """Reports a line on standard error. If it can't be written, it is dropped."""
        with self.above_the_bar(), suppress(OSError, ValueError, AttributeError):
            sys.stderr.write(f"tigercanon-tools: {printable(text)}\n")
            sys.stderr.flush()

    def print_lines(self, lines: Iterable[str]) -> None:
        """Prints lines on standard output. Raises what print_lines raises."""
        with self.above_the_bar():
            print_lines(lines)


class Progress(Tally):
    """A tally that is shown: by a bar, if standard error is a terminal and tqdm is installed, or else by a line now and then."""

    bar: Any = None

    def __init__(self, console: Console, noun: str = "county") -> None:
        super().__init__()
        self.console, self.noun, self.reported_at = console, noun, self.started
        console.progress = self

    def start(self, counties: int, bytes_in_all: int) -> None:
        super().start(counties, bytes_in_all)
        with suppress(ImportError, AttributeError):
            if counties and sys.stderr.isatty():
                from tqdm import tqdm

                self.bar = tqdm(total=counties, unit=f" {plural(self.noun)}", file=sys.stderr, leave=False, dynamic_ncols=True)

    def end(self, size: int) -> None:
        super().end(size)
        if self.bar is not None:
            self.bar.update()

    def look(self) -> None:
        if self.bar is not None:
            self.bar.refresh()
        elif time.monotonic() - self.reported_at >= PAUSE:
            self.reported_at = time.monotonic()
            self.console.report(self.line(self.reported_at - self.started))

    def line(self, took: float) -> str:
        """Returns how far the run has come, at what rate, and how long the rest will take at this rate."""
        words = [self.how_far]
        if not self.bytes_in_all:
            rest = took * (self.counties - self.ended) / self.ended if self.ended else 0
            return ", ".join([*words, *([f"{duration(rest)} left"] if rest else [])])
        words.append(f"{amount(self.bytes)} of {amount(self.bytes_in_all)}")
        rate = self.bytes / took if took > 0 else 0
        if rate > 0:
            words += [f"{amount(int(rate))} a second", f"{duration((self.bytes_in_all - self.bytes) / rate)} left"]
        return ", ".join([*words, f"{sum(self.refused.values()):,} refused", f"{self.failed:,} failed"])

    def close(self) -> None:
        bar, self.bar = self.bar, None
        if bar is not None:
            bar.close()

    @property
    def how_far(self) -> str:
        return f"{self.ended:,} of {counted(self.counties, self.noun)}"

    @property
    def took(self) -> str:
        return f"{amount(self.bytes)} in {duration(time.monotonic() - self.started)}"

"""The time and memory of a process, and the settings for measuring programs."""

import os
import re
import subprocess
import tempfile
import time
from typing import NamedTuple, Sequence

from dev.testing import ROOT, Answer

TURNED = ("--shuffle", "--renumber", "--turn")


class Spent(NamedTuple):
    """The cost of a process and of all that it waited for: seconds of the clock and of the processor, and the most memory, in kB."""

    clock: float
    processor: float
    memory: int
    answer: Answer


def spend(words: Sequence[object], reads_output: bool = True, **how: object) -> Spent:
    """Runs a program to its end. Its output goes to files. If it isn't read, the answer has none: the memory of this process counts for a
    program that it starts."""
    with tempfile.TemporaryFile() as out, tempfile.TemporaryFile() as err:
        called = [str(word) for word in words]
        began = time.perf_counter()
        child = subprocess.Popen(called, stdin=subprocess.DEVNULL, stdout=out, stderr=err, **how)  # type: ignore[call-overload]
        _, status, used = os.wait4(child.pid, 0)
        clock = time.perf_counter() - began
        child.returncode = os.waitstatus_to_exitcode(status)
        out.seek(0)
        err.seek(0)
        answer = Answer(child.returncode, out.read() if reads_output else b"", err.read())
    return Spent(clock, used.ru_utime + used.ru_stime, used.ru_maxrss, answer)


def use_large_pages() -> None:
    """Sets GLIBC_TUNABLES for all programs, as ./tigercanon does, unless it is set."""
    launcher = (ROOT / "tigercanon").read_text()
    os.environ.setdefault("GLIBC_TUNABLES", re.findall(r"\bGLIBC_TUNABLES=([^}]+)\}", launcher)[0])

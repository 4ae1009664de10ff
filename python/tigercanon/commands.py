"""The command line: one command with a subcommand for each job."""

import argparse
import os
import re
import signal
import sys
import threading
import traceback
from concurrent.futures import ThreadPoolExecutor, wait
from typing import Any, Callable, Sequence

from . import explanations, listing, runs, tables
from .diff import command as differences
from .errors import Failure, reason
from .judge import SECONDS
from .progress import Console, print_bytes
from .resources import PATIENCE, Resources
from .version import VERSION

NAME = "tigercanon-tools"
SIZES = {"": 1, "kB": 10**3, "MB": 10**6, "GB": 10**9}
LARGEST = "2GB"
Run = Callable[[argparse.Namespace, Console, Resources], int]
SIGNALS = [signal.Signals[f"SIG{name}"] for name in "INT TERM HUP QUIT USR1 USR2 ALRM XCPU".split()]

ABOUT = """\
Fingerprints the counties of an archive, and shows where two maps differ.

A county is a zip as it is distributed (TGR01001.ZIP) or its single files
(TGR01001.RT1 to TGR01001.RTP), in upper or lower case. A SOURCE is a folder,
which is searched with all folders below it; a glob in quotes; the name of a
county or of one of its files; or a URL that the Python package fsspec reads."""

STATUSES = """\
Exit status: 0 on success; 1 if a county has no fingerprint or something differs;
2 if the command line is wrong or the command can't continue. A command that a
signal stops leaves no temporary files; run it again to do the rest.

Example: tigercanon-tools fingerprint -o manifest tiger/2006"""


def size_of(word: str) -> int:
    """Reads a number of bytes, with or without a unit."""
    size = re.fullmatch(r"([0-9]+)(|kB|MB|GB)", word)
    if not size or int(size[1]) == 0:
        raise argparse.ArgumentTypeError(f"{word!r} isn't a size such as 500MB or 2GB")
    return int(size[1]) * SIZES[size[2]]


def name_of(word: str) -> str:
    """Returns a name that isn't empty, as one from a variable of the shell that isn't set would be."""
    if not word:
        raise argparse.ArgumentTypeError("the name is empty")
    return word


def count_of(word: str) -> int:
    if not re.fullmatch(r"[1-9][0-9]*", word):
        raise argparse.ArgumentTypeError(f"{word!r} isn't a number from 1")
    return int(word)


class Parser(argparse.ArgumentParser):
    """A parser whose errors take one line, with the name of the command. The options of a command may also come between its names."""

    def parse_known_args(self, args: Any = None, namespace: Any = None) -> Any:
        if args is not None and self._subparsers is None:
            args = self.with_options_first(args)
        options, others = super().parse_known_args(args, namespace)
        if others:
            self.error(f"unrecognized arguments: {' '.join(others)}")
        return options, others

    def with_options_first(self, words: Sequence[str]) -> list[str]:
        """Returns the words of a command with its options first: argparse doesn't take names from two places."""
        options, names, left = list[str](), list[str](), list(words)
        while left:
            word = left.pop(0)
            if word == "--":
                names += left
                break
            is_option = word.startswith("-") and word != "-"
            (options if is_option else names).append(word)
            action = self._option_string_actions.get(word)
            if action and action.nargs is None and left:  # it has a value
                options.append(left.pop(0))
        return [*options, *(["--", *names] if names else [])]

    def _print_message(self, message: str, file: Any = None) -> None:
        """Prints help as the commands print: with an error if it can't be written."""
        if file is sys.stdout:
            print_bytes(message.encode())
        else:
            super()._print_message(message, file)

    def error(self, message: str) -> Any:
        self.exit(2, f"{self.prog}: {message}; see {self.prog} --help\n")


def parser() -> Parser:
    raw = argparse.RawDescriptionHelpFormatter
    tools = Parser(prog=NAME, description=ABOUT, epilog=STATUSES, formatter_class=raw, allow_abbrev=False)
    tools.add_argument("--version", action="version", version=f"{NAME} {VERSION}")
    commands = tools.add_subparsers(metavar="COMMAND", required=True, dest="command")
    for add in (add_fingerprint, add_verify, add_check, add_duplicates, add_changes, add_diff, add_table, add_explain):
        add(commands)
    return tools


def add_command(commands: Any, name: str, about: str, run: Run) -> argparse.ArgumentParser:
    description = f"{about[0].upper()}{about[1:]}."
    command: argparse.ArgumentParser = commands.add_parser(name, help=about, description=description, allow_abbrev=False)
    command.add_argument("--version", action="version", version=f"{NAME} {VERSION}")
    command.set_defaults(run=run)
    return command


WHERE = "default: $TIGERCANON, else the program of this tree or package, else tigercanon on the PATH"
SHARED: dict[str, dict[str, Any]] = {
    "--program": {"metavar": "FILE", "type": name_of, "help": f"the program tigercanon to run ({WHERE})"},
    "--no-sources": {"action": "store_true", "help": "leave out the fields that record where data came from"},
    "--no-reserved": {"action": "store_true", "help": "leave out the reserved fields"},
    "--force": {"action": "store_true", "help": "also replace a county's file, a manifest, another page or a link"},
    "--json": {"action": "store_true", "help": "print JSON, one value on each line"},
    "manifest": {"metavar": "MANIFEST", "help": "a manifest written by the command fingerprint; - is standard input"},
}


def add_shared(command: argparse.ArgumentParser, *names: str) -> None:
    for name in names:
        command.add_argument(name, **SHARED[name])


def add_judging_options(command: argparse.ArgumentParser, with_flags: bool = True) -> None:
    add_shared(command, "--program")
    engine = command.add_mutually_exclusive_group()
    engine.add_argument("--jobs", metavar="N", type=count_of, help="process N counties at a time (default: one per processor)")
    about = "use the workers of the Dask scheduler at this address, or of the one that wrote this scheduler file"
    engine.add_argument("--scheduler", metavar="ADDRESS", type=name_of, help=about)
    about = "limit the memory of each process, for example to 4GB; a county that doesn't fit is tried again, alone"
    command.add_argument("--memory", metavar="SIZE", type=size_of, help=about)
    about = f"fail counties that unpack to more than SIZE (default: {LARGEST})"
    command.add_argument("--largest", metavar="SIZE", type=size_of, default=size_of(LARGEST), help=about)
    about = f"fail counties that take longer than N seconds (default: {SECONDS})"
    command.add_argument("--seconds", metavar="N", type=count_of, default=SECONDS, help=about)
    about = "leave out files and folders whose name or path in a SOURCE matches this glob; can be given several times"
    command.add_argument("--exclude", metavar="GLOB", action="append", default=[], help=about)
    command.add_argument("--verbose", action="store_true", help="name each file that is skipped because it belongs to no county")
    add_shared(command, *(["--no-sources", "--no-reserved"] if with_flags else []), "--json")


def add_fingerprint(commands: Any) -> None:
    about = "print or write a manifest: the fingerprint and the name of each county"
    command = add_command(commands, "fingerprint", about, runs.fingerprint)
    about = "write the manifest to this file; counties that it already lists are skipped, including refused ones"
    command.add_argument("-o", "--output", metavar="MANIFEST", type=name_of, help=about)
    about = "with -o: check a county again if the size or time of a file differs from the manifest"
    command.add_argument("--update", action="store_true", help=about)
    command.add_argument("--again", action="store_true", help="with -o: check again all counties that were refused")
    about = "with --update: remove counties below a SOURCE from the manifest if they are gone"
    command.add_argument("--prune", action="store_true", help=about)
    about = "reject a county if a file is missing, or if the file of type 1, 2 or I is empty"
    command.add_argument("--strict", action="store_true", help=about)
    add_judging_options(command)
    command.add_argument("sources", metavar="SOURCE", nargs="+", help="where the counties are")


def add_verify(commands: Any) -> None:
    about = "check counties against their fingerprints in a manifest: OK, FAILED or MISSING for each"
    command = add_command(commands, "verify", about, runs.verify)
    command.add_argument("--quiet", action="store_true", help="don't print counties that are OK")
    about = "check only counties with a file whose size or time differs from the manifest"
    command.add_argument("--quick", action="store_true", help=about)
    command.add_argument("--root", metavar="FOLDER", type=name_of, help="look for the names in the manifest below this folder")
    add_judging_options(command)
    add_shared(command, "manifest")
    command.add_argument(
        "sources", metavar="SOURCE", nargs="*", default=[], help="print NEW for each county here that isn't in the manifest"
    )


def add_check(commands: Any) -> None:
    about = "check whether counties are accepted, and show the faulty line and field of each that isn't"
    command = add_command(commands, "check", about, runs.check)
    command.add_argument("--quiet", action="store_true", help="don't print counties that are accepted")
    add_judging_options(command, with_flags=False)
    command.add_argument("counties", metavar="COUNTY", nargs="+", help="a county, or a SOURCE of several")


def add_duplicates(commands: Any) -> None:
    about = "list, in groups, the counties of a manifest that are the same map"
    command = add_command(commands, "duplicates", about, listing.list_duplicates)
    command.add_argument("--different", action="store_true", help="list only groups in which counties have different names")
    add_shared(command, "--json", "manifest")


def add_changes(commands: Any) -> None:
    about = "list how the editions of an archive differ: counties that are the same, changed, added, removed or renamed"
    command = add_command(commands, "changes", about, listing.list_changes)
    command.description = f"{command.description} Counties are matched by their names without folder, case and ending."
    command.add_argument("--quiet", action="store_true", help="don't print counties that are the same")
    about = "with one manifest: the folder of an edition; give one for each edition, in order"
    command.add_argument("--edition", metavar="FOLDER", type=name_of, action="append", default=[], help=about)
    add_shared(command, "--json")
    about = "print how many chains, landmarks, polygons and names are only in the first map, only in the second, or changed"
    command.add_argument("--stat", action="store_true", help=about)
    about = "write a page with a map for each county that changed, and an index; existing pages stay"
    command.add_argument("--pages", metavar="FOLDER", type=name_of, help=about)
    about = "with --pages or --stat: look for the names in the manifests below this folder"
    command.add_argument("--root", metavar="FOLDER", type=name_of, help=about)
    about = "with --pages or --stat: compare N counties at a time (default: one per processor)"
    command.add_argument("--jobs", metavar="N", type=count_of, help=about)
    add_shared(command, "--program", "--force")
    about = "a manifest for each edition, in order, or one manifest with all editions"
    command.add_argument("manifests", metavar="MANIFEST", nargs="+", help=about)


def add_diff(commands: Any) -> None:
    command = add_command(commands, "diff", "show where two maps differ, as text, a page or GeoJSON", differences.run)
    add_shared(command, "--program", "--no-sources", "--no-reserved", "--force")
    differences.add_arguments(command, name_of)


def add_table(commands: Any) -> None:
    command = add_command(commands, "table", "write the chains of a county as a table, in CSV or GeoJSON", tables.run)
    command.description = f"{command.description} In CSV the points are WKT. DuckDB, pandas and GDAL read both."
    add_shared(command, "--program")
    command.add_argument("--geojson", action="store_true", help="write GeoJSON")
    command.add_argument("-o", "--output", metavar="FILE", type=name_of, help="write to this file instead of standard output")
    add_shared(command, "--force")
    command.add_argument("county", metavar="COUNTY", help="a zip, a file with all records, or the stem or one of the nine files")


def add_explain(commands: Any) -> None:
    about = "explain a refusal: its meaning, an example, and what to do; with a county, show the place too"
    command = add_command(commands, "explain", about, explanations.run)
    add_shared(command, "--program")
    about = "the line that the program printed, or the refusal's number or name; add a COUNTY, or give only a COUNTY"
    command.add_argument("line", metavar="LINE", nargs="+", help=about)


def end_by(number: int) -> None:
    """Ends this process by a signal, as if it had no handler."""
    signal.signal(number, signal.SIG_DFL)
    signal.pthread_sigmask(signal.SIG_UNBLOCK, {number})
    os.kill(os.getpid(), number)


class Stop:
    """Ends what the command has started, and then this process by the signal."""

    def __init__(self, console: Console, resources: Resources) -> None:
        self.console, self.resources = console, resources

    def __call__(self, number: int, _: object) -> None:
        for each in SIGNALS:
            signal.signal(each, signal.SIG_IGN)
        self.resources.end()
        last = threading.Thread(target=self.report, args=(signal.Signals(number).name[3:],), daemon=True)
        last.start()
        last.join(PATIENCE)  # nobody may be reading standard error
        end_by(number)

    def report(self, name: str) -> None:
        """Reports the signal and how far the command has come, without the progress bar."""
        progress = self.console.progress
        if progress:
            progress.close()
        self.console.report(f"stopped by {name}{f': {progress.how_far} done' if progress else ''}")


def open_streams() -> None:
    """Opens the standard streams that are closed on nothing, so that no file takes the place of one."""
    for number in range(3):
        try:
            os.fstat(number)
        except OSError:
            os.open(os.devnull, os.O_RDWR)


def perform(options: argparse.Namespace, console: Console, resources: Resources) -> int:
    """Runs a command, and leaves nothing behind but its outputs."""
    with resources:
        return int(options.run(options, console, resources))


def run(arguments: Sequence[str]) -> int:
    """Runs a command line and returns the exit status. The command runs in a thread of its own, and this one waits for signals, so
    none comes at a bad moment. A command that can't go on ends this process, in which other threads may still be at work."""
    open_streams()
    console, resources = Console(), Resources(prints=True)
    for number in SIGNALS:
        if signal.getsignal(number) is not signal.SIG_IGN:
            signal.signal(number, Stop(console, resources))
    try:
        options = parser().parse_args(list(arguments))
        future = ThreadPoolExecutor(1).submit(perform, options, console, resources)
        while wait([future], PATIENCE).not_done:  # a signal in the moment before a wait is handled after it
            pass
        return future.result()
    except Failure as failure:
        console.report(str(failure))
    except BrokenPipeError:
        resources.end()
        end_by(signal.SIGPIPE)
    except MemoryError:
        console.report("out of memory")
    except OSError as error:
        name = f"{error.filename}: " if isinstance(error.filename, str) else ""
        console.report(f"{name}{reason(error)}")
    except SystemExit:  # help, the version, or a wrong command line
        raise
    except BaseException:  # a fault of this package
        traceback.print_exc()
    resources.end()
    os._exit(2)

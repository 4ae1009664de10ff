"""The commands that judge counties: fingerprint, verify and check."""

from __future__ import annotations

import argparse
from collections import Counter
from contextlib import closing
from dataclasses import asdict
from typing import Any, Iterable

from .counties import Finder, ending_of
from .editions import groups_of
from .errors import Failure
from .judging import VERDICTS, Check, Checked, Judging, Means, Verification, Verified
from .manifests import flags_of, heading
from .progress import Console, Progress, as_json, counted
from .resources import Resources
from .survey import Choice, Survey


def judging_by(options: argparse.Namespace, progress: Progress, resources: Resources, job: str = "fingerprint") -> Judging:
    means = Means(options.program, options.jobs, options.scheduler, options.memory, options.largest, options.seconds)
    return Judging(means, resources, progress, job)


class Printed:
    """Prints the results in the order of their numbers: a line for each, or a row in JSON, or nothing."""

    def __init__(self, options: argparse.Namespace, console: Console) -> None:
        self.console, self.is_json, self.next = console, options.json, 0
        self.waiting: dict[int, str | None] = {}

    def add(self, number: int, line: str | None, row: dict[str, Any] | None) -> None:
        self.waiting[number] = line if not self.is_json else as_json(row) if row else None
        while self.next in self.waiting:
            self.console.print_lines(filter(None, [self.waiting.pop(self.next)]))
            self.next += 1


def report_end(console: Console, judging: Judging, progress: Progress, count: int, words: Iterable[str]) -> None:
    console.report(f"{counted(count, 'county')}: {', '.join(words)}; {progress.took}")
    rules = sorted(progress.refused.items(), key=lambda item: (-item[1], item[0]))
    if rules and judging.job == "fingerprint":
        console.report(f"refused: {', '.join(f'{count:,} by {rule}' for rule, count in rules)}")
    if judging.gone:
        console.report(f"{judging.gone}: {judging.left:,} counties are left; run the same command again to do them")


def fingerprint(options: argparse.Namespace, console: Console, resources: Resources) -> int:
    output = None if options.output == "-" else options.output
    if output is None and (options.update or options.again):
        raise Failure("--update and --again need -o with the name of a manifest")
    if options.prune and not options.update:
        raise Failure("--prune needs --update")
    progress, choice = Progress(console), Choice(options.update, options.again, options.prune)
    survey = Survey(judging_by(options, progress, resources), flags_of(options), options.strict, choice)
    with survey.of(options.sources, output, options.exclude):
        report_found(survey.finder, options, console)
        printed, results = Printed(options, console), survey.results()
        if output is None and not options.json:
            console.print_lines([heading(survey.marked)])
        with closing(results):
            for number, each in results:
                row = {"county": each.county, "fingerprint": each.fingerprint, "reason": each.reason, "notes": list(each.notes)}
                printed.add(number, each.line if output is None else None, row)
                if each.remarks:
                    console.report(f"{each.county}: {each.remarks}")
    report_survey(survey, progress, console)
    count = sum(len(group.counties) for group in groups_of(survey.manifest.lines)) if survey.manifest else 0
    if count:
        console.report(f"{count:,} counties in the manifest share their map with another one: see the command duplicates")
    are_gone = bool(survey.gone) and not options.prune
    return int(bool(survey.judging.left or progress.refused or progress.failed or survey.refused_before or are_gone))


def report_found(finder: Finder, options: argparse.Namespace, console: Console) -> None:
    """Reports files that aren't judged, and why."""
    for stem, first in finder.same:
        console.report(f"{stem}: the same file as {first}, which is counted once")
    if options.verbose:
        for path in finder.skipped.values():
            console.report(f"{path}: skipped: it isn't a county's file, and doesn't begin with a record")
    endings = Counter(map(ending_of, finder.skipped.values()))
    if endings:
        named = ", ".join(f"{count:,} {ending}" for ending, count in sorted(endings.items()))
        advice = "" if options.verbose else "; --verbose names them"
        console.report(f"skipped: {counted(len(finder.skipped), 'file')} ({named}){advice}")


def report_survey(survey: Survey, progress: Progress, console: Console) -> None:
    for stem, place in survey.moved.items():
        console.report(f"{place}: moved from {stem}")
    for line in survey.gone:
        console.report(f"{line.stem}: gone{', and its line removed' if survey.choice.prune else '; --prune removes its line'}")
    known = {"in the manifest already": survey.known, "refused before": survey.refused_before}
    accepted, refused = progress.accepted, sum(progress.refused.values())
    words = [f"{count:,} {what}" for what, count in known.items() if count]
    words.append(f"{accepted:,} new{' or changed' * survey.choice.update}" if survey.manifest else counted(accepted, "fingerprint"))
    words += [f"{refused:,} refused", f"{progress.failed:,} failed", *([f"{len(survey.gone):,} gone"] if survey.gone else [])]
    report_end(console, survey.judging, progress, progress.counties - progress.doubles + sum(known.values()), words)
    if survey.refused_before:
        console.report("counties refused before aren't tried again: --update tries those that changed on disk, and --again all")


def verify(options: argparse.Namespace, console: Console, resources: Resources) -> int:
    progress = Progress(console)
    judging = judging_by(options, progress, resources)
    verification = Verification(
        judging, options.manifest, options.sources, options.root, flags_of(options), options.exclude, options.quick
    )
    printed, results, counts = Printed(options, console), verification.results(), Counter[str]()
    report_found(verification.finder, options, console)
    with closing(results):
        for number, each in results:
            counts[each.verdict] += 1
            is_shown = each.verdict != "OK" or not options.quiet
            printed.add(number, verdict_of(each) if is_shown else None, asdict(each) if is_shown else None)
            if each.remarks and each.verdict == "OK":
                console.report(f"{verification.counties[number].stem}: {each.remarks}")
    count = sum(counts.values())
    words = [f"{counts[verdict]:,} {verdict}" for verdict in VERDICTS if counts[verdict] or verdict == "OK"]
    if options.quick:
        words.append(f"{len(verification.unchanged):,} by sizes and times alone")
    report_end(console, judging, progress, count, words)
    return int(judging.left > 0 or counts["OK"] < count)


def verdict_of(each: Verified) -> str:
    """Returns the line of a county, with the reason if the verdict alone doesn't tell it."""
    is_clear = each.verdict in ("OK", "MISSING", "NEW", "ACCEPTED")
    return f"{on_one_line(each.county)}: {each.verdict}{'' if is_clear or not each.remarks else f' ({each.remarks})'}"


def on_one_line(name: str) -> str:
    """Returns a name as it is on standard output, where each county has one line."""
    return name.replace("\n", "\\n")


def check(options: argparse.Namespace, console: Console, resources: Resources) -> int:
    progress = Progress(console)
    judging = judging_by(options, progress, resources, "check")
    checked = Check(judging, options.counties, options.exclude)
    report_found(checked.finder, options, console)
    printed, results = Printed(options, console), checked.results()
    with closing(results):
        for number, each in results:
            is_shown = bool(each.reason) or not options.quiet
            printed.add(number, "\n".join(shown(each)) if is_shown else None, row_of(each) if is_shown else None)
            if each.notes:
                console.report(f"{each.county}: {'; '.join(each.notes)}")
    if len(checked.counties) > 1 and not options.json:
        console.print_lines(["", *table_of(progress)])
    refused = sum(progress.refused.values())
    words = [f"{progress.accepted:,} accepted", f"{refused:,} refused", f"{progress.failed:,} failed"]
    report_end(console, judging, progress, progress.counties, words)
    return int(judging.left > 0 or progress.accepted < progress.counties)


def shown(each: Checked) -> list[str]:
    """Returns what is wrong with a county, and where."""
    places = [f"    {line}" for fault in each.faults for line in fault.shown()]
    return [f"{on_one_line(each.county)}: {each.reason or 'accepted'}", *places]


def row_of(each: Checked) -> dict[str, Any]:
    """Returns a county in JSON."""
    faults = [asdict(fault) for fault in each.faults]
    return {"county": each.county, "accepted": not each.reason, "reason": each.reason, "notes": list(each.notes), "faults": faults}


def table_of(progress: Progress) -> list[str]:
    """Returns how many counties were accepted, and how many of each refusal there are."""
    refused = {f"refused {rule}": count for rule, count in progress.refused.most_common()}
    counts = {"accepted": progress.accepted, **refused, "failed": progress.failed}
    table = [(f"{count:,}", what) for what, count in counts.items() if count]
    width = max((len(count) for count, _ in table), default=0)
    return [f"{count:>{width}}  {what}" for count, what in table]

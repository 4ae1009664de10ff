"""Judges counties: by threads of this process, each with a process of the program, or by the workers of a Dask cluster."""

from __future__ import annotations

import logging
import os
import time
import warnings
from concurrent.futures import ThreadPoolExecutor
from contextlib import suppress
from dataclasses import astuple
from queue import Empty, SimpleQueue
from typing import Any, Iterator, Optional, Sequence

import tigercanon.judge

from .errors import Failure, reason
from .faults import Fault
from .judge import Answer, County, Kind, Order, judge, judge_on_a_worker
from .resources import Resources

TICK = 0.5
PATIENCE_FOR_SCHEDULER = 30.0
PATIENCE_FOR_WORKERS = 300.0  # a run ends if there was no worker for this many seconds
# Errors that end a future if the scheduler ends. There are several classes of each of these names.
SCHEDULER_ENDED = ("CancelledError", "CommClosedError")
Result = Optional[tuple[int, Answer]]  # a county's number and its answer, or None if nothing was done for a moment


class Gone(Exception):
    """The engine can judge no more counties. The text says why."""


class Engine:
    """Judges counties side by side, in the given number of threads, or one for each processor."""

    def __init__(self, jobs: int | None, resources: Resources) -> None:
        self.resources = resources
        self.pool = ThreadPoolExecutor(jobs or len(os.sched_getaffinity(0)))

    def answers(self, counties: Sequence[County], order: Order) -> Iterator[Result]:
        """Yields the answers as they come. Counties that may not have fitted into memory are judged again, each alone. Raises Gone."""
        again: list[int] = []
        for result in self.first_answers(dict(enumerate(counties)), order):
            if result and result[1].kind is Kind.MEMORY:
                again.append(result[0])
            else:
                yield result
        for number in sorted(again):
            yield from self.first_answers({number: counties[number]}, order)

    def first_answers(self, counties: dict[int, County], order: Order) -> Iterator[Result]:
        done: SimpleQueue[Any] = SimpleQueue()
        under_way = dict(zip(self.begin([*counties.values()], order), counties))
        for future in [*under_way]:
            future.add_done_callback(done.put)
        while under_way:
            try:
                future = done.get(timeout=TICK)
            except Empty:
                self.look_round(under_way)
                yield None
                continue
            if future in under_way:
                yield under_way.pop(future), self.answer(future)

    def begin(self, counties: Sequence[County], order: Order) -> Any:
        """Submits the counties, and returns a future for each."""
        return [self.pool.submit(judge, county, order, self.resources) for county in counties]

    def answer(self, future: Any) -> Any:
        return future.result()

    def look_round(self, under_way: dict[Any, int]) -> None:
        """Raises Gone if there can be no further answers."""

    def close(self) -> None:
        self.pool.shutdown(wait=False, cancel_futures=True)


class DaskEngine(Engine):
    """Judges counties by the workers of a scheduler that is running."""

    def __init__(self, address: str, is_quiet: bool = False) -> None:
        self.name, self.client = f"the scheduler at {address}", client_of(address, is_quiet)

    def begin(self, counties: Sequence[County], order: Order) -> Any:
        self.served_at = time.monotonic()  # when there was an answer, or something that could give one
        arguments = [astuple(county) for county in counties], [astuple(order)] * len(counties)
        return self.client.map(judge_on_a_worker, *arguments, key="tigercanon", pure=False)

    def answer(self, future: Any) -> Answer:
        """Returns the result of a task. A county isn't blamed for a worker that ended unless this also happens to the county alone."""
        self.served_at = time.monotonic()
        try:
            kind, text, notes, faults = future.result()
            answer = Answer(Kind(kind), text, notes, tuple(Fault(*each) for each in faults))
        except BaseException as error:
            name = type(error).__name__
            if name in SCHEDULER_ENDED:
                raise Gone(f"{self.name} is gone") from None
            if name == "KilledWorker":
                return Answer(Kind.MEMORY, "every worker that checked it ended")
            if not isinstance(error, Exception):
                raise
            return Answer(Kind.FAILED, f"its judging ended with {name}: {reason(error)}")
        if answer.kind is Kind.LOST:
            raise Failure(f"{self.name}: {answer.text}")
        return answer

    def look_round(self, under_way: dict[Any, int]) -> None:
        if self.client.status != "running" or any(future.status == "cancelled" for future in under_way):
            raise Gone(f"{self.name} is gone")
        if self.client.scheduler_info().get("workers"):
            self.served_at = time.monotonic()
        elif time.monotonic() - self.served_at > PATIENCE_FOR_WORKERS:
            raise Gone(f"{self.name} has had no worker for {int(PATIENCE_FOR_WORKERS / 60)} minutes")

    def close(self) -> None:
        with suppress(Exception):  # the rest of it ends with this process
            self.client.close(timeout=2)


def client_of(address: str, is_quiet: bool = False) -> Any:
    """Returns a client of a scheduler: at an address, which has a port, or at the one in a file that the scheduler has written.
    With is_quiet Dask's log and all warnings of this process are turned off."""
    try:
        import cloudpickle
        import distributed
    except ImportError as error:
        needed = "distributed and fsspec (Debian: python3-distributed and python3-fsspec)"
        raise Failure(f"--scheduler needs the Python packages {needed}: {reason(error)}") from None
    connect: Any = distributed.Client
    for module in (tigercanon, tigercanon.judge):  # all of the package, and by its name the module of the function
        cloudpickle.register_pickle_by_value(module)
    if is_quiet:
        for name in ("asyncio", "distributed", "tornado"):
            logging.getLogger(name).setLevel(logging.CRITICAL)
        warnings.simplefilter("ignore")
    try:
        if ":" in address:
            return connect(address, timeout=PATIENCE_FOR_SCHEDULER)
        until = time.monotonic() + PATIENCE_FOR_SCHEDULER
        while not os.path.exists(address) and time.monotonic() < until:
            time.sleep(0.1)
        os.stat(address)  # distributed would wait for it without end
        return connect(scheduler_file=address, timeout=PATIENCE_FOR_SCHEDULER)
    except Exception as error:
        raise Failure(f"no scheduler answers at {address}: {reason(error)}") from None

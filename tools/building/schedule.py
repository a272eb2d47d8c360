"""Which crate is proved next, and how long the rest takes."""

from __future__ import annotations

import pathlib
import re
import sys
import time
from typing import Protocol

from .plan import OF_JOB, OWN_MEMORY, Crate, Plan
from .running import Running

_PLANNED = 0.85  # how much of the free memory is planned on
SECONDS_A_LINE = 0.15  # before the first crate is done
MOST_JOBS = 4  # of one crate
_NEARLY = 0.95  # of the longest chain, which is known about


def free_memory() -> float:
    found = re.search(r"MemAvailable:\s+(\d+)", pathlib.Path("/proc/meminfo").read_text(encoding="ascii"))
    return _PLANNED * 1024 * int(found[1]) if found else OWN_MEMORY


class _Way(Protocol):
    """A way to prove a crate, once those below it are proved."""

    def begin(self, crate: Crate, jobs: int, is_first: bool) -> Running:
        ...


class Schedule:
    """Crates of the plan, side by side: as many as there are processors and free memory."""

    def __init__(self, plan: Plan, wanted: set[str], done: set[str], processors: int) -> None:
        self.plan, self.wanted, self.processors = plan, wanted, processors
        self.done = done & wanted
        self.running: list[Running] = []
        self.memory, self.seconds = free_memory(), 0.0
        self.timed: set[str] = set()  # those that this run proved

    def start_ready(self, way: _Way) -> None:
        """Starts what is ready, the longest chain first, while there are processors and memory for it."""
        busy = {one.crate.name for one in self.running}
        unfinished = self.wanted - self.done
        ready = [name for name in unfinished - busy if self.plan.below(name) <= self.done]
        ready.sort(key=self.plan.chain, reverse=True)
        longest = max(map(self.plan.chain, unfinished))
        room = self.memory - sum(one.memory for one in self.running)
        for at, name in enumerate(ready):
            idle = self.processors - sum(one.processors for one in self.running)
            crate, all_wait = self.plan.crates[name], self.plan.chain(name) >= _NEARLY * longest
            # one more than there are processors for: a check reads and writes for a good part of its time
            if (idle <= 0 and not all_wait) or (self.running and crate.memory > room):
                return
            # what nearly all else waits for takes each processor, and others run in the time that it leaves
            wanted = self.processors if all_wait else int(idle) // (len(ready) - at)
            jobs = max(1, min(MOST_JOBS, wanted, int(1 + (room / crate.memory - 1) / OF_JOB)))
            self.running.append(way.begin(crate, jobs, all_wait))
            room -= self.running[-1].memory

    def end_one(self) -> Running:
        """Waits for a crate's command to end, and returns it."""
        while not (ended := [one for one in self.running if one.process.poll() is not None]):
            time.sleep(0.2)
        one, seconds = ended[0], time.monotonic() - ended[0].begun
        self.running.remove(one)
        if one.end() == 0:
            self.done.add(one.crate.name)
            self.timed.add(one.crate.name)
            self.seconds += seconds * one.processors
            self._print_progress(f"{one.crate.name} in {seconds:.0f} s")
        return one

    def left(self) -> float:
        """About how many seconds the rest takes: as many as its longest chain, or as all of it on all processors."""
        work = {name: self.plan.crates[name].work for name in self.wanted}
        rest = sum(work[name] for name in self.wanted - self.done)
        longest = max((self.plan.chain(name) for name in self.wanted - self.done), default=0)
        timed = sum(work[name] for name in self.timed)
        return max(longest, rest / self.processors) * (self.seconds / timed if timed else SECONDS_A_LINE)

    def _print_progress(self, what: str) -> None:
        rest = f"some {self.left() / 60:.0f} minutes left"
        print(f"{len(self.done)} of {len(self.wanted)} crates: {what}; {rest}", file=sys.stderr, flush=True)

    def run(self, way: _Way) -> Running | None:
        """Proves all that are wanted, and returns the first that failed."""
        self._print_progress("at the start")
        try:
            while self.done != self.wanted:
                self.start_ready(way)
                one = self.end_one()
                if one.crate.name not in self.done:
                    return one
        finally:
            for one in self.running:
                one.end()
        return None

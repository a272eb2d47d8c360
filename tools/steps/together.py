"""Steps side by side, one a processor."""

from __future__ import annotations

import concurrent.futures
import contextlib
import os
import pathlib
import signal
import threading
from collections.abc import Callable, Generator, Sequence

from .step import Outcome, Step, run

_SET_CHILD_SUBREAPER = 36
_BEAT = 10.0


def adopt_orphans() -> None:
    """Has processes become children of this one when theirs ends, where Linux and Python can."""
    with contextlib.suppress(ImportError, OSError, AttributeError):
        import ctypes

        ctypes.CDLL(None).prctl(_SET_CHILD_SUBREAPER, 1, 0, 0, 0)


def end_children() -> None:
    """Ends what a step left in a session of its own: it is a child of this process since the step ended."""
    for place in pathlib.Path("/proc").glob("[0-9]*/stat"):
        with contextlib.suppress(OSError):
            parent = int(place.read_text().rpartition(")")[2].split()[1])
            if parent == os.getpid():
                os.kill(int(place.parent.name), signal.SIGKILL)
                os.waitpid(int(place.parent.name), 0)


def ended(
    steps: Sequence[Step], program: str, processors: int, beat: Callable[[], None] | None = None
) -> Generator[tuple[Step, Outcome], None, None]:
    """Each step and what came of it as it ends; those that may take longest begin first. Where none ends for ten
    seconds, `beat` is called. Where this ends before all steps did, by an interrupt, say, they are stopped."""
    stopped = threading.Event()
    with concurrent.futures.ThreadPoolExecutor(processors) as pool:
        longest_first = sorted(steps, key=lambda step: -step.limit)
        running = {pool.submit(run, step, program, stopped): step for step in longest_first}
        left = set(running)
        try:
            while left:
                done, left = concurrent.futures.wait(left, _BEAT, concurrent.futures.FIRST_COMPLETED)
                for one in done:
                    yield running[one], one.result()
                if beat and not done:
                    beat()
        finally:
            stopped.set()
            pool.shutdown(wait=False, cancel_futures=True)

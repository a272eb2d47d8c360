"""A command that proves a crate beside others."""

from __future__ import annotations

import os
import pathlib
import signal
import subprocess
import time
from dataclasses import dataclass, field

from .plan import OF_JOB, Crate

_AFTER_OTHERS = ("nice", "-n", "10")


@dataclass
class Running:
    crate: Crate
    jobs: int
    folder: pathlib.Path  # in which the command runs
    is_first: bool  # whether all else waits for it
    begun: float = field(default_factory=time.monotonic)

    @property
    def log(self) -> pathlib.Path:
        return self.crate.folder / "out/build.log"

    def start(self, words: list[str], log: pathlib.Path) -> Running:
        with open(log, "wb") as said:
            self.process = subprocess.Popen(
                words if self.is_first else [*_AFTER_OTHERS, *words],
                cwd=self.folder,
                process_group=0,  # and no session of its own, which would have a share of the processors of its own
                stdin=subprocess.DEVNULL,
                stdout=said,
                stderr=said,
            )
        return self

    def end(self) -> int:
        """Ends it if it runs, with what it started, and returns the exit status."""
        if self.process.poll() is None:
            os.killpg(self.process.pid, signal.SIGTERM)
        return self.process.wait()

    @property
    def processors(self) -> float:
        """How many it keeps busy, about: of several jobs one goes on alone for half of the time."""
        return (1 + self.jobs) / 2

    @property
    def memory(self) -> float:
        return self.crate.memory * (1 + OF_JOB * (self.jobs - 1))

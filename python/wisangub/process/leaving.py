"""Co-processes whose input has ended, until they end: nobody waits for one."""

import time

from .coprocess import ENDING, CoProcess


class Leaving:
    """Those that leave, each with the time until which it may take."""

    def __init__(self) -> None:
        self.processes: list[tuple[float, CoProcess]] = []

    def add(self, process: CoProcess) -> None:
        """One ends from now on."""
        process.leave()
        self.processes.append((time.monotonic() + ENDING, process))

    def look(self) -> None:
        """Forgets those that have ended, and kills those that take too long."""
        standing = [one for one in self.processes if one[1].process.poll() is None]
        for _, process in [one for one in standing if one[0] < time.monotonic()]:
            process.process.kill()
        self.processes = standing

    def wait(self) -> None:
        """Until all have ended."""
        for _, process in self.processes:
            process.end()
        self.processes.clear()

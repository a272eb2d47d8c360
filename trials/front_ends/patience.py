"""How long a trial waits for what ought to come, and what ends a trial that hangs."""

import collections
import contextlib
import signal
import time
from typing import Any, Iterator

TIMES = 60  # of what a front end's start takes: after so long a wait is given up
LEAST, _MOST = 30.0, 600.0  # seconds
HANGS = 150.0  # seconds after which what takes some on a quiet machine hangs on any
RINGS_AGAIN = 5.0  # seconds, should what is ended go on waiting


class Pace:
    """What the last starts of a front end took on this machine, so that one that is busy has longer for all that is
    waited for, and what hangs is seen soon on one that is not."""

    def __init__(self) -> None:
        self.starts: collections.deque[float] = collections.deque(maxlen=20)
        self.most = _MOST

    def took(self, seconds: float) -> None:
        """A start took so long."""
        self.starts.append(seconds)

    def start(self) -> float:
        """The longest of the last starts."""
        return max(self.starts, default=1.0)

    def patience(self) -> float:
        """The seconds that a start, a reply or an end may take."""
        return min(max(LEAST, TIMES * self.start()), self.most)


PACE = Pace()


class Hangs(BaseException):
    """What is watched took longer than it may: none of the faults that a trial expects."""


@contextlib.contextmanager
def watched(seconds: float) -> Iterator[None]:
    """Ends what is within after so many seconds, where it stands."""

    def ring(*_: Any) -> None:
        raise Hangs(f"not over after {seconds:.0f} s")

    begun, handler = time.monotonic(), signal.signal(signal.SIGALRM, ring)
    left, again = signal.setitimer(signal.ITIMER_REAL, seconds, RINGS_AGAIN)
    try:
        yield
    finally:
        signal.setitimer(signal.ITIMER_REAL, 0)
        signal.signal(signal.SIGALRM, handler)
        if left:
            signal.setitimer(signal.ITIMER_REAL, max(0.001, left - (time.monotonic() - begun)), again)

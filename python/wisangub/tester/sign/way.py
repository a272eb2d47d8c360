"""What becomes of datagrams on the way to a sign and back, and when it is no use to go on."""

import math
from collections import Counter, deque
from dataclasses import dataclass, field
from enum import Enum
from typing import Any

from .clock import Clock

LONGEST_SILENCE = 5.0  # seconds: a longer one is more than a way that loses some
_PATIENCE = 30.0  # seconds without a reply after which a test ends
_LAST_PATIENCE = 40.0  # and after which the sign is not put back: one that was silent for a minute is
_MOST_KEPT = 2048  # requests whose replies may still come
_MOST_SHOWN = 100  # octets of a reply that no way makes
_SUMS = ("asked", "unanswered", "late", "doubled", "twice", "reboots")  # what is counted of a way
_MOSTS = ("longest", "slowest")  # seconds, of which the most is kept
_DELAYS = 24  # replies that are looked at to see whether they come in time


class Stopped(Exception):
    """The test ends before its last case, for the reason that this says."""


class Oddity(Enum):
    """Replies that no way makes of a right one."""

    GARBAGE = "a reply that is no message"
    NUMBER = "a request-id that was never asked"
    ANOTHER = "a reply with the request-id of another request"


@dataclass
class Sent:
    """A request that replies may come to: its octets, and when it was sent, the first time and each that has no reply
    yet."""

    moment: float
    octets: bytes
    waiting: list[float]
    missing: set[float] = field(default_factory=set)  # those that had no reply in time
    in_time: int = 0  # how often it was sent and had one
    doubled: int = 0  # replies beyond one for each time
    is_counted: bool = True  # whether it is one of those of which a share may be without a reply, or have two


@dataclass
class Way:
    """Counts of what was lost, late and doubled.

    `patience` is how many requests in a row may have no reply, where that is said; else it ends after 30 seconds
    without one. `deadline` is the moment at which the test is to end.
    """

    clock: Clock
    wait: float
    patience: int | None = None
    deadline: float = math.inf
    asked: int = 0
    unanswered: int = 0  # requests that had no reply in time
    late: int = 0  # of these, those whose reply came later
    doubled: int = 0  # replies beyond the one that a request has
    twice: int = 0  # requests that had their reply in time, and more than one
    longest: float = 0.0  # seconds that the sign was silent at the longest
    slowest: float = 0.0  # seconds that a reply took at the longest
    reboots: int = 0  # that nobody asked for
    odd: Counter[Oddity] = field(default_factory=Counter)
    examples: dict[Oddity, bytes] = field(default_factory=dict)
    _recent: dict[int, Sent] = field(default_factory=dict)
    _stood: float = 0.0  # seconds for which this program stood still while it waited
    _asked_at: float = 0.0  # when a request was sent last, without these seconds, as is the next
    _is_heard: bool = False  # whether anything has come since
    _silent_since: float | None = None
    _in_a_row: int = 0
    _most_silent: float = _PATIENCE
    _delays: deque[float] = field(default_factory=lambda: deque(maxlen=_DELAYS))

    def percent(self) -> float:
        """The share of requests whose reply did not come, came late or came twice."""
        return min(100.0, 100 * (self.unanswered + self.twice) / self.asked) if self.asked else 0.0

    def troubles(self) -> tuple[int, int, int]:
        """How many replies were missing, late and doubled so far."""
        return self.unanswered, self.late, self.doubled

    def send(self, number: int, octets: bytes, is_again: bool = False) -> None:
        """A request is sent whose reply is waited for, be it again since there was none. Raises Stopped where it is no
        use to go on."""
        self._give_up()
        now, self._asked_at, self._is_heard = self.clock.now(), self._awake(), False
        if is_again and number in self._recent:
            self._recent[number].waiting.append(now)
            return
        self._recent[number] = Sent(now, octets, [now])
        if len(self._recent) > _MOST_KEPT:
            self._recent.pop(next(iter(self._recent)))

    def answered(self, number: int, is_counted: bool = True) -> None:
        """A request has its reply."""
        self._hear()
        self.asked += is_counted
        sent = self._recent.get(number)
        if sent is not None:
            sent.is_counted = is_counted
            if sent.waiting:
                self._took(sent, True)

    def _hear(self) -> None:
        """Something has come from the sign, which is silent no more."""
        self.longest = max(self.longest, self.silence())
        self._silent_since, self._in_a_row, self._is_heard = None, 0, True

    def silent(self, number: int, is_counted: bool = True) -> None:
        """A request has no reply so far. The sign is silent where nothing has come since one was sent last."""
        if self._silent_since is None and not self._is_heard:
            self._silent_since = self._asked_at
        self.longest = max(self.longest, self.silence())
        self.asked += is_counted
        self._in_a_row += is_counted
        sent = self._recent.get(number)
        if is_counted and sent is not None and sent.waiting:
            self.unanswered += 1
            sent.missing.add(sent.waiting[-1])

    def passed_over(self, number: int, is_timed: bool = True) -> None:
        """A reply to an earlier request; it may be unknown how late it is."""
        sent = self._recent.get(number)
        if sent is not None and sent.waiting:
            self._hear()
            self._took(sent, is_timed)
            return
        self.doubled += 1
        if sent is None or sent.is_counted and sent.doubled < sent.in_time:
            self.twice += 1
        if sent is not None:
            sent.doubled += 1

    def looked(self, number: int) -> None:
        """A reply to a look that was not waited for any longer."""
        sent = self._recent.get(number)
        if sent is not None and sent.waiting:
            self._hear()
            sent.waiting.pop()

    def _took(self, sent: Sent, is_timed: bool) -> None:
        """A request has a reply, which counts as one to what was sent last. It is in time where it came within the wait
        that the command names, though the request may have been sent again before."""
        now, begun = self.clock.now(), sent.waiting.pop()
        is_missing = begun in sent.missing
        is_late = is_missing and not (is_timed and now - begun <= self.wait)
        self.late += is_late
        self.unanswered -= is_missing and not is_late
        sent.in_time += not is_late
        if is_timed:
            self._delays.append(now - sent.moment)
            self.slowest = max(self.slowest, now - begun)

    def usual(self) -> float:
        """Seconds that half of the replies take of late."""
        return sorted(self._delays)[len(self._delays) // 2] if self._delays else 0.0

    def note(self, oddity: Oddity, octets: bytes) -> None:
        """A reply that no way makes of a right one."""
        self.odd[oddity] += 1
        self.examples.setdefault(oddity, octets)

    def earlier(self, number: int) -> bytes | None:
        """What was asked under an earlier number, where that is known still."""
        sent = self._recent.get(number)
        return None if sent is None else sent.octets

    def _give_up(self) -> None:
        now = self.clock.now()
        if now >= self.deadline:
            raise Stopped("the time that --budget gives is over")
        if self.patience is not None and self._in_a_row >= self.patience:
            raise Stopped(f"{self._in_a_row} requests in a row had no reply")
        if self.patience is None and self.silence() >= self._most_silent:
            raise Stopped(f"the sign was silent for {self.silence():.0f} seconds")
        least = sorted(self._delays)[_DELAYS // 5] if len(self._delays) == _DELAYS else 0.0
        if least > self.wait:
            raise Stopped(f"four replies of five take {least:.1f} s or longer, and --wait is {self.wait:g}")

    def stood_still(self, seconds: float) -> None:
        """This program stood still for so long while it waited, as on a busy machine: that is no silence of the
        sign."""
        self._stood += seconds

    def _awake(self) -> float:
        """The moment, without the seconds for which this program stood still."""
        return self.clock.now() - self._stood

    def silence(self) -> float:
        """Seconds for which nothing has come so far."""
        return 0.0 if self._silent_since is None else self._awake() - self._silent_since

    def is_in_doubt(self) -> bool:
        """Whether there was no reply for so long that the sign may be gone, or leaves one request alone unanswered."""
        return self.silence() >= _PATIENCE / 3

    def begin_anew(self) -> None:
        """What was silent is no reason to stop any more: once more is tried, with no deadline."""
        self.deadline, self._silent_since, self._in_a_row = math.inf, None, 0
        self._most_silent = _LAST_PATIENCE
        self._delays.clear()

    def counts(self) -> dict[str, Any]:
        """What was seen, as a report keeps it."""
        held: dict[str, Any] = {word: getattr(self, word) for word in (*_SUMS, *_MOSTS)}
        return held | {"odd": {oddity.name: [self.odd[oddity], self.examples[oddity].hex()] for oddity in self.odd}}

    def add(self, counts: dict[str, Any]) -> None:
        """What an earlier part of the test saw. Raises KeyError, TypeError or ValueError where it is none."""
        for word in _SUMS:
            setattr(self, word, getattr(self, word) + int(counts[word]))
        for word in _MOSTS:
            setattr(self, word, max(getattr(self, word), float(counts[word])))
        for name, (count, example) in counts["odd"].items():
            self.odd[Oddity[name]] += int(count)
            self.examples.setdefault(Oddity[name], bytes.fromhex(example))

    def words(self) -> list[str]:
        """What was seen, a line each; nothing where all replies came once and in time."""
        found = []
        if self.unanswered or self.doubled or self.late:
            found.append(
                f"{self.percent():.1f} % of {self.asked} requests: {self.unanswered} without a reply in time "
                f"({self.late} of these replies came later), {self.doubled} replies doubled; "
                f"the longest silence was {self.longest:.1f} s"
            )
        for oddity, count in self.odd.items():
            example = self.examples[oddity]
            more = ".." if len(example) > _MOST_SHOWN else ""
            found.append(f"{count} times {oddity.value}, first {example[:_MOST_SHOWN].hex() or 'no octets'}{more}")
        if self.reboots:
            found.append(f"{self.reboots} times the sign began anew, and nobody asked for it")
        return found

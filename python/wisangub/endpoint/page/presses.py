"""What the page's buttons do at the sign's front end: in its thread, between two of its steps, and by its journal."""

import os
import queue
import threading
from typing import TYPE_CHECKING

from wisangub.endpoint.clock import MOST_MADE_UP, MOST_SECONDS, Moment, running

if TYPE_CHECKING:
    from wisangub.endpoint.sign_front_end import SignFrontEnd

PATIENCE = 30.0  # seconds that a button waits for the front end
MOST_LOST = 50  # datagrams that are to be lost at once
NAMES = ("seconds", "power-lost", "power-back", "lose-request", "lose-reply")
MOST = {"seconds": MOST_MADE_UP, "power-back": MOST_SECONDS}  # of the number that goes with it
NOT_KEPT = "the disk does not take it: it is not done"


class Press:
    """A button that was pressed, with its number if it has one, and why nothing was done in the end."""

    def __init__(self, name: str, amount: int | None) -> None:
        self.name, self.amount = name, amount
        self.done, self.fault = threading.Event(), ""


class Presses:
    """A page's thread hands a press over and waits; `file` wakes the front end."""

    def __init__(self) -> None:
        self.waiting: queue.SimpleQueue[Press] = queue.SimpleQueue()
        self.file, self.waker = os.pipe2(os.O_NONBLOCK | os.O_CLOEXEC)
        self.requests = self.replies = 0  # that are to be lost
        self.lost_at: float | None = None  # when the power went

    def press(self, name: str, amount: int | None) -> str:
        """Why nothing was done; nothing where it was. In a page's thread."""
        made = Press(name, amount)
        self.waiting.put(made)
        try:
            os.write(self.waker, b".")
        except BlockingIOError:
            pass  # it is woken already
        return made.fault if made.done.wait(PATIENCE) else "the front end has not come to it yet"

    def loses_request(self) -> bool:
        """Whether this datagram to the sign is to be lost, which then is done with."""
        self.requests, is_lost = max(0, self.requests - 1), self.requests > 0
        return is_lost

    def loses_reply(self) -> bool:
        """Whether this reply is to be lost."""
        self.replies, is_lost = max(0, self.replies - 1), self.replies > 0
        return is_lost

    def done_by(self, front_end: "SignFrontEnd") -> list[Press]:
        """Does what was pressed so far, in the front end's thread: the presses, whose pages wait for a word."""
        found: list[Press] = []
        try:
            os.read(self.file, 4096)  # first, so that a press after this wakes the front end again
        except BlockingIOError:
            pass
        while not self.waiting.empty():
            found.append(self.waiting.get())
            found[-1].fault = self.do(found[-1], front_end)
        return found

    def do(self, one: Press, front_end: "SignFrontEnd") -> str:
        """Does one: why not, or nothing."""
        if one.name == "seconds":
            return seconds(front_end, 1 if one.amount is None else one.amount)
        if one.name == "power-lost":
            return self.power_lost(front_end)
        if one.name == "power-back":
            return self.power_back(front_end, one.amount)
        if one.name == "lose-request":
            self.requests = min(self.requests + 1, MOST_LOST)
        else:
            self.replies = min(self.replies + 1, MOST_LOST)
        return ""

    def power_lost(self, front_end: "SignFrontEnd") -> str:
        """The power goes."""
        if self.lost_at is not None:
            return "the power is off already"
        why = power(front_end, b"power-lost")
        self.lost_at = None if why else running()
        return why

    def power_back(self, front_end: "SignFrontEnd", passed: int | None) -> str:
        """The power comes back after so many seconds, or after those that it was away."""
        if self.lost_at is None:
            return "the power is on already"
        why = power(front_end, b"power-back %d" % (int(running() - self.lost_at) if passed is None else passed))
        self.lost_at = self.lost_at if why else None
        return why


def seconds(front_end: "SignFrontEnd", count: int) -> str:
    """Seconds pass beside those of the clock. They are recorded as all seconds are, and with the moment up to which the
    clock's were handed over, from which the next start counts."""
    front_end.watcher.before_seconds()
    front_end.sign.hand([b"ticks %d" % count])
    front_end.watcher.after_seconds()
    if front_end.keeper:
        front_end.keeper.tick(count, front_end.up)
        front_end.keeper.clock(Moment.at(front_end.up))
    return ""


def power(front_end: "SignFrontEnd", line: bytes) -> str:
    """A line about the power is on the disk before the sign is told, as a datagram is: why not, or nothing."""
    front_end.watcher.before_seconds()
    if front_end.keeper and not front_end.keeper.keep([line]):
        return NOT_KEPT
    front_end.sign.hand([line])
    front_end.watcher.after_power()
    if front_end.log:
        front_end.log.event(line.decode("ascii"))
    return ""

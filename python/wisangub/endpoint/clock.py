"""Which time it is, and what the time without a process was."""

import time
from typing import NamedTuple

from wisangub.refusal import Refusal

BOOT = "/proc/sys/kernel/random/boot_id"
MOST_MADE_UP = 86_400  # seconds that are made up by ticks after a process died
MOST_SECONDS = 2**32 - 1  # of a loss of power: longer than any that a sign takes for a short one
SET = 1_577_836_800  # the wall clock at the begin of 2020: one that says less was never set


def running() -> float:
    """The seconds since the machine's boot, with those in which it slept: what ticks go by."""
    return time.clock_gettime(time.CLOCK_BOOTTIME)


class Moment(NamedTuple):
    """A boot of the machine by its kernel's id, the wall clock in seconds since 1970, and the seconds since that
    boot."""

    boot: str
    wall: int
    up: int

    def start(self) -> bytes:
        """The record that a start begins with."""
        return f"start {self.boot} {self.wall} {self.up}".encode()

    def clock(self) -> bytes:
        """The record of the clock."""
        return f"clock {self.wall} {self.up}".encode()

    def later(self, seconds: int) -> "Moment":
        """The moment so many seconds after this one, on the same run of the machine."""
        return Moment(self.boot, self.wall + seconds, self.up + seconds)

    @staticmethod
    def at(up: float) -> "Moment":
        """The moment of so many seconds since the boot."""
        try:
            with open(BOOT, encoding="ascii") as file:
                boot = file.read().strip() or "-"
        except (OSError, ValueError):
            boot = "-"
        return Moment(boot, max(0, int(time.time() - running() + up)), int(up))

    @staticmethod
    def now() -> "Moment":
        """This moment."""
        return Moment.at(running())

    @staticmethod
    def of(start: bytes, clock: bytes) -> "Moment":
        """The moment that a record of the clock says, in the boot of a start's record."""
        try:
            wall, up = map(int, clock.split(b" ")[1:3])
            return Moment(start.split(b" ")[1].decode(), wall, up)
        except ValueError as fault:
            told = f"{start[:80]!r} and {clock[:80]!r}"
            raise Refusal(f"{told} tell no moment: they were not written by a front end") from fault


def by_the_wall(last: Moment, now: Moment) -> int:
    """The seconds between two moments by the wall clock; the most where it went back or was not set, since nobody knows
    how long it was."""
    is_known = last.wall >= SET and now.wall >= last.wall
    return min(now.wall - last.wall, MOST_SECONDS) if is_known else MOST_SECONDS


def down(last: Moment, now: Moment, overruled: str | None = None, has_power: bool = True) -> list[bytes]:
    """The lines that tell a sign what the time without a process was: a loss of power, or the seconds that passed. A
    sign whose power was off before has it again."""
    is_same_boot = last.boot == now.boot and (last.boot != "-" or last.up <= now.up)
    if overruled == "power" or overruled is None and not is_same_boot:
        return [b"power-lost", b"power-back %d" % by_the_wall(last, now)]
    passed = now.up - last.up if is_same_boot else by_the_wall(last, now)
    if not has_power:
        return [b"power-back %d" % max(0, passed)]
    made_up = min(max(0, passed), MOST_MADE_UP)
    return [b"ticks %d" % made_up] if made_up else []

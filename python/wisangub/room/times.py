"""When something is on: from a day until a day, on days of the week, from and until times of a zone."""

import contextlib
import datetime
import os
import pathlib
import re
import zoneinfo
from dataclasses import dataclass
from typing import Iterator

from wisangub.refusal import Refusal

_DAY = datetime.timedelta(days=1)
_LOOKED = 400  # days that are looked at for the next time: a day of the week of a leap year is among them
_LONGEST_CHANGE = 180  # minutes by which clocks may go forward
_WORDS = "a schedule has two days and two times, such as 2026-11-30 and 06:00"
_MINUTES = re.compile(r"[0-9]{2}:[0-9]{2}(?::00)?")
_LAST_YEAR = 9990  # from which on so many days more may be in no calendar
MACHINE = pathlib.Path("/etc")  # where a machine says its zone
_ZONES = "/zoneinfo/"  # in the name of a zone's file
DAYS = ("Mon", "Tue", "Wed", "Thu", "Fri", "Sat", "Sun")
Span = tuple[float, float]  # seconds since 1970: from, and until


@dataclass(frozen=True)
class Times:
    """`days` are those of the week, 0 is Monday, each with its own beginning and end, which is on the next day where it
    is not after the beginning; without days it is on from the first day's beginning to the last day's end. `zone` is a
    name such as Europe/Berlin, or empty, as schedules of before had it, for that of the machine."""

    first_day: datetime.date
    last_day: datetime.date
    days: frozenset[int]
    begins: datetime.time
    ends: datetime.time
    zone: str = ""

    @staticmethod
    def of(first_day: str, last_day: str, days: str, begins: str, ends: str, zone: str) -> "Times":
        """By words, as a form has them; refused where they are no days and times of whole minutes, or never on."""
        if not all(map(_MINUTES.fullmatch, (begins, ends))):
            raise Refusal(_WORDS)
        made = Times.kept(first_day, last_day, days, begins, ends, zone)
        if not made.days <= frozenset(range(7)) or next(made.spans(made.first_day), None) is None:
            raise Refusal("a schedule ends after it begins, and one of its days is between them")
        return made

    @staticmethod
    def kept(first_day: str, last_day: str, days: str, begins: str, ends: str, zone: str) -> "Times":
        """By words, as the database has them; refused where they are no days and times. Its zone may be one that this
        machine has not."""
        try:
            return Times(
                datetime.date.fromisoformat(first_day),
                datetime.date.fromisoformat(last_day),
                frozenset(map(int, days)),
                datetime.time.fromisoformat(begins).replace(tzinfo=None),
                datetime.time.fromisoformat(ends).replace(tzinfo=None),
                zone,
            )
        except ValueError:
            raise Refusal(_WORDS) from None

    @property
    def word(self) -> str:
        """The days of the week as digits."""
        return "".join(map(str, sorted(self.days)))

    def at(self, day: datetime.date, time: datetime.time) -> float:
        """Seconds since 1970 of a local time. Of one that comes twice it is the first; one that is left out, as clocks
        go forward, is as much later as they go, but where something that begins then would be over (`spans`)."""
        try:
            return datetime.datetime.combine(day, time, _zone(self.zone)).timestamp()
        except (ValueError, OverflowError, OSError):
            raise Refusal(f"{day} is no day of this machine's calendar") from None

    def spans(self, day: datetime.date) -> Iterator[Span]:
        """When it is on, from what begins on this day or later."""
        if not self.days:
            span = self.at(self.first_day, self.begins), self.at(self.last_day, self.ends)
            if span[0] < span[1]:
                yield span
            return
        day = max(day, self.first_day)
        if day.year > _LAST_YEAR:
            raise Refusal(f"{day} is no day of this machine's calendar")
        ends = min(self.last_day, day + _LOOKED * _DAY)
        while day <= ends:
            if day.weekday() in self.days and (found := self._span(day)) is not None:
                yield found
            day += _DAY

    def _span(self, day: datetime.date) -> Span | None:
        """When it is on that begins on a day; None where clocks, as they go forward, leave out all of it."""
        last = day if self.begins < self.ends else day + _DAY
        begins, ends = self.at(day, self.begins), self.at(last, self.ends)
        if begins >= ends:
            begins = self._after_change(day, begins)
        return (begins, ends) if begins < ends else None

    def _after_change(self, day: datetime.date, begins: float) -> float:
        """The first minute of a day at which clocks show its beginning or later, where they go forward over it."""
        zone, wanted = _zone(self.zone), datetime.datetime.combine(day, self.begins)
        before = (begins - 60.0 * minutes for minutes in range(_LONGEST_CHANGE + 1))
        return min(
            time for time in before if datetime.datetime.fromtimestamp(time, zone).replace(tzinfo=None) >= wanted
        )

    def day_of(self, now: float) -> datetime.date:
        return datetime.datetime.fromtimestamp(now, _zone(self.zone)).date()

    def on(self, now: float) -> Span | None:
        """From when until when it is on, where that is now."""
        for span in self.spans(self.day_of(now) - _DAY):
            if span[0] <= now:
                if now < span[1]:
                    return span
            else:
                break
        return None

    def next(self, now: float) -> float | None:
        """When it is on next."""
        return next((begins for begins, _ in self.spans(self.day_of(now)) if begins > now), None)


def machine_zone() -> str:
    """The name of this machine's zone, by TZ, by the link /etc/localtime or by /etc/timezone; UTC where it has none."""
    words = [os.environ["TZ"].removeprefix(":")] if os.environ.get("TZ") else []
    if not words:
        with contextlib.suppress(OSError):
            words.append(os.readlink(MACHINE / "localtime"))
        with contextlib.suppress(OSError, UnicodeDecodeError):
            words.append((MACHINE / "timezone").read_text(encoding="utf-8").strip())
    for name in filter(None, (word.rpartition(_ZONES)[2] for word in words)):
        with contextlib.suppress(Refusal):
            return str(_zone(name))
    return "UTC"


def _zone(name: str) -> zoneinfo.ZoneInfo:
    """The zone of a name; of none that of the machine."""
    try:
        return zoneinfo.ZoneInfo(name or machine_zone())
    except (zoneinfo.ZoneInfoNotFoundError, ValueError, OSError):
        raise Refusal(f"{name!r} is no time zone of this machine") from None

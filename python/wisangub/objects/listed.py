"""A file of objects: its lines, which times it wants, and the first line that is at fault."""

from __future__ import annotations

import enum
from dataclasses import dataclass, field

from wisangub.refusal import Refusal, reason
from wisangub.snmp import wire

from .lines import Bad, Object, dotted, name_of, object_of

MOST_OCTETS = 1_048_576
_MOST_LINE = 65_536


class Time(enum.Enum):
    """An object whose value is a time, by the word of its line."""

    UPTIME = "uptime"  # TimeTicks: hundredths of a second since the front end's start
    CLOCK = "clock"  # Counter: seconds since 1970

    def value(self, running: float, wall: float) -> wire.Tagged:
        """What it reads so many seconds after the start, and after 1970."""
        if self is Time.UPTIME:
            return wire.TICKS, int(100 * running) % 2**32
        return wire.COUNTER, int(wall) % 2**32


def at_line(path: str, line: int, why: str) -> Refusal:
    """A fault of a file."""
    return Refusal(f"{path}: line {line}: {why}")


@dataclass
class Listed:
    """What a file has: objects and times by their names, the line of each, and that of `fonts` where it has one."""

    path: str
    objects: dict[wire.Name, Object] = field(default_factory=dict)
    times: dict[wire.Name, Time] = field(default_factory=dict)
    places: dict[wire.Name, int] = field(default_factory=dict)
    fonts: int | None = None

    def add(self, line: int, words: list[str]) -> None:
        """Takes a line up; raises Bad."""
        keyword, *rest = words
        if words == ["fonts"]:
            if self.fonts is not None:
                raise Bad(f"line {self.fonts} is the same")
            self.fonts = line
        elif keyword == "object":
            made = object_of(rest)
            self.place(made.name, line)
            self.objects[made.name] = made
        elif keyword in ("uptime", "clock"):
            if len(rest) != 1:
                raise Bad("one name is wanted")
            name = name_of(rest[0])
            self.place(name, line)
            self.times[name] = Time(keyword)
        elif keyword == "fonts":
            raise Bad("no words stand behind fonts")
        else:
            raise Bad("a line begins with object, uptime, clock or fonts")

    def place(self, name: wire.Name, line: int) -> None:
        """A name is that of a line, and of one alone."""
        if name in self.places:
            raise Bad(f"line {self.places[name]} has an object of this name")
        self.places[name] = line

    def published(self, running: float, wall: float) -> dict[wire.Name, Object]:
        """All objects, with the times of this moment."""
        times = {name: Object(name, time.value(running, wall)) for name, time in self.times.items()}
        return {**self.objects, **times}


def of_text(path: str, octets: bytes) -> Listed:
    """What a text has; raises Refusal for the first line at fault."""
    if len(octets) > MOST_OCTETS:
        raise Refusal(f"{path}: more than {MOST_OCTETS} octets")
    found = Listed(path)
    for number, line in enumerate(octets.split(b"\n"), 1):
        line = line.removesuffix(b"\r")
        if not line or line.startswith(b"#"):
            continue
        try:
            words = line.decode("ascii").split(" ")
            if "" in words:
                raise Bad("one space stands between two words, and none before or behind all")
            if len(line) > _MOST_LINE:
                raise Bad(f"more than {_MOST_LINE} octets")
            found.add(number, words)
        except UnicodeDecodeError:
            raise at_line(path, number, "a word is not ASCII") from None
        except Bad as bad:
            raise at_line(path, number, str(bad)) from bad
    return found


def read(path: str) -> Listed:
    """What a file has; raises Refusal."""
    try:
        with open(path, "rb") as file:
            return of_text(path, file.read(MOST_OCTETS + 1))
    except OSError as fault:
        raise Refusal(reason(fault)) from fault


def refused_by(listed: Listed, name: wire.Name, answer: bytes) -> Refusal:
    """Why a process does not publish an object of a file."""
    why = answer.decode("latin-1").removeprefix("refused ")
    return at_line(listed.path, listed.places[name], f"{why}: {dotted(name)}")

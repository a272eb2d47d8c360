"""What the pages say in words: times, modes, durations, codes, and what an operator asked for."""

import datetime
import re
from dataclasses import dataclass

from wisangub.room.store.values import SLACK
from wisangub.snmp.names import Memory, RowStatus

NO_END = 65535
STATUSES = {status.value: status.name.lower().replace("_", " ") for status in RowStatus if status <= RowStatus.ERROR}
ALARMS = {
    "silent": "silent",
    "error": "in error",
    "other": "not ours",
    "failed": "command failed",
    "device": "device fault",
}
_MEMORIES: dict[int, str] = {
    Memory.PERMANENT: "permanent",
    Memory.CHANGEABLE: "changeable",
    Memory.VOLATILE: "volatile",
    Memory.CURRENT: "what was shown before",
    Memory.BLANK: "blank",
}
_LAST = re.compile(r"(?:^[0-9A-Fa-f]{24}| [0-9.]+)\Z")  # a command ends with a code or with an address
_MODES = {
    8: ("central", "A central system activated it."),
    10: ("power recovery", "Power came back, or the sign was started."),
    12: ("communications loss", "No central system was heard for longer than the sign is to wait."),
    13: ("power loss", "Power was lost."),
    14: ("end of duration", "The message before it had reached its end."),
}


def text_of(octets: bytes) -> str:
    """A text as it is read, in ISO 8859-1."""
    return octets.decode("latin-1")


def minutes_word(minutes: int | None) -> str:
    """How long something is shown."""
    if minutes is None:
        return "not known"
    if minutes == NO_END:
        return "without end"
    if minutes < 120:
        return f"{minutes} min"
    hours, rest = divmod(minutes, 60)
    if hours < 48:
        return f"{hours} h {rest} min" if rest else f"{hours} h"
    days, hours = divmod(hours, 24)
    return f"{days} d {hours} h" if hours else f"{days} d"


def mode_word(mode: int | None) -> str:
    return "not known" if mode is None else _MODES.get(mode, (f"mode {mode}", ""))[0]


def mode_why(mode: int | None) -> str:
    return "" if mode is None else _MODES.get(mode, ("", "This mode is none of the profile's."))[1]


def row_word(memory: int, number: int) -> str:
    """A row of the message table."""
    if memory == Memory.CURRENT:
        return _MEMORIES[memory]
    return f"{_MEMORIES.get(memory, f'memory {memory}')} {number}"


def source_word(code: bytes) -> str:
    """The row that a MessageIDCode names."""
    return row_word(code[0], int.from_bytes(code[1:3], "big")) if len(code) == 5 else code.hex() or "none"


def address_word(address: bytes) -> str:
    return ".".join(map(str, address)) if address else "none"


@dataclass(frozen=True)
class Asked:
    """A command's line."""

    kind: str
    memory: int = 0
    number: int = 0
    text: bytes = b""
    owner: bytes = b""
    beacon: int = 0
    pixel: int = 0
    run: int = 0
    minutes: int = 0
    priority: int = 0
    code: str = ""

    @property
    def what(self) -> str:
        """The command in a few words, without its text."""
        if self.kind == "publish":
            return f"publish in {row_word(self.memory, self.number)}"
        if self.kind == "blank":
            return f"blank {self.number}"
        if self.kind == "activate":
            octets = bytes.fromhex(self.code)
            return f"show {source_word(octets[3:8])}"
        return "another command"

    @property
    def how(self) -> str:
        """Its particulars."""
        words = [minutes_word(self.minutes), f"activation priority {self.priority}"]
        if self.kind == "publish":
            words.append(f"priority while shown {self.run}")
            words += ["with beacon"] * (self.beacon == 1) + ["with pixel service"] * (self.pixel == 1)
        return ", ".join(words) if self.kind != "other" else ""


def octets(word: str) -> bytes:
    return b"" if word == "-" else bytes.fromhex(word)


def asked(line: str) -> Asked:
    """What a command's line says; one that is none is another command."""
    words = line.split(" ")
    try:
        if words[0] == "publish" and len(words) == 11:
            memory, number, beacon, pixel, run, minutes, priority = map(int, [*words[1:3], *words[5:10]])
            return Asked(
                "publish", memory, number, octets(words[3]), octets(words[4]), beacon, pixel, run, minutes, priority
            )
        if words[0] == "blank" and len(words) == 5:
            return Asked("blank", Memory.BLANK, int(words[1]), minutes=int(words[2]), priority=int(words[3]))
        if words[0] == "activate" and len(words) == 2 and len(octets(words[1])) == 12:
            code = octets(words[1])
            return Asked(
                "activate",
                code[3],
                int.from_bytes(code[4:6], "big"),
                minutes=int.from_bytes(code[:2], "big"),
                priority=code[2],
                code=words[1],
            )
    except ValueError:
        pass
    return Asked("other")


def age_word(seconds: float) -> str:
    """How long ago something was; static/room.js says it in the same words."""
    if seconds < -SLACK:
        return "by a clock that was ahead"
    whole = max(0, int(seconds))
    for size, word in ((86_400, "d"), (3600, "h"), (60, "min")):
        if whole >= 2 * size or size == 60 and whole >= 60:
            return f"{whole // size} {word} ago"
    return f"{whole} s ago"


class Clock:
    """Local time with its zone."""

    def __init__(self, zone: datetime.tzinfo | None) -> None:
        self.zone = zone

    def moment(self, at: float) -> datetime.datetime:
        return datetime.datetime.fromtimestamp(at, datetime.timezone.utc).astimezone(self.zone)

    def full(self, at: float) -> str:
        return self.moment(at).strftime("%Y-%m-%d %H:%M:%S %Z")

    def short(self, at: float, now: float) -> str:
        """Without the day where it is today's."""
        held = self.moment(at)
        is_today = held.date() == self.moment(now).date()
        return held.strftime("%H:%M:%S %Z" if is_today else "%Y-%m-%d %H:%M:%S %Z")

    def begins(self, day: datetime.date) -> float:
        """When a day begins."""
        midnight = datetime.datetime.combine(day, datetime.time())
        return (midnight.astimezone() if self.zone is None else midnight.replace(tzinfo=self.zone)).timestamp()

    def iso(self, at: float) -> str:
        return self.moment(at).isoformat(timespec="seconds")


def audit_words(what: str) -> str:
    """A line of the audit, a command's line in words; one of something else in which such words stand as it is."""
    for kind in ("publish", "blank", "activate"):
        name, found, rest = what.rpartition(f": {kind} ")
        held = asked(f"{kind} {rest}") if found and _LAST.search(rest) else None
        if held is not None and held.kind != "other":
            said = f" “{text_of(held.text)}”" if kind == "publish" else ""
            return f"{name}: {held.what}{said}, {held.how}"
    return what

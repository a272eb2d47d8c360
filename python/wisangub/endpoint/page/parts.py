"""What a browser is told of the sign, in parts: each is told again only where it has changed."""

import json
import secrets
import threading
from collections.abc import Callable

from wisangub.snmp.names import Memory, Name, scalar

from .board import Board, View
from .exchanges import Exchanges
from .lamps import Lamps
from .readings import OF_SHOWN, REPORTS, REQUESTER, Reading, Row

ENDLESS = 65_535  # minutes
Fact = tuple[str, str]
WORDS = {memory: memory.name.lower() for memory in Memory}
STATUSES = ("", "notUsed", "modifying", "validating", "valid", "error")


def in_quotes(octets: bytes) -> str:
    """Octets as text: what is not ASCII, or cannot be seen, in its escapes."""
    return "".join(chr(octet) if 32 <= octet < 127 else f"\\x{octet:02x}" for octet in octets)


class Parts:
    """The parts as JSON, made once for all who listen. `said` is asked for in a page's threads."""

    def __init__(self, board: Board, lamps: Lamps) -> None:
        self.board, self.lamps, self.lock = board, lamps, threading.Lock()
        self.made: dict[str, tuple[object, str]] = {}  # what each was made of
        self.run = secrets.token_hex(8)  # a browser that finds another run there wants its token
        self.told_run = json.dumps(self.run)

    def said(self) -> dict[str, str]:
        """All parts; one that has not changed is the same object as before."""
        with self.lock:
            view, count = self.board.view, self.board.exchanges.count
            return {
                "run": self.told_run,
                "lamps": self.part("lamps", (view.lamps, view.defaults, view.shown.text), lambda: self.picture(view)),
                "shown": self.part("shown", view, lambda: self.shown(view)),
                "table": self.part("table", (view.reading, view.read_at, view.is_older), lambda: table(view)),
                "datagrams": self.part("datagrams", count, self.board.exchanges.listed),
            }

    def part(self, name: str, of: object, make: Callable[[], object]) -> str:
        """One part, made anew where it is of something else."""
        before, told = self.made.get(name, (None, ""))
        if not told or before != of:
            made = json.dumps(make())
            self.made[name] = (of, told if told == made else made)
        return self.made[name][1]

    def drawn(self, view: View) -> bytes:
        """The picture of what is shown."""
        return self.lamps.of(view.shown.text, view.lamps, view.defaults).svg

    def picture(self, view: View) -> dict[str, object]:
        """Which picture there is: its number goes up with each other one."""
        picture = self.lamps.of(view.shown.text, view.lamps, view.defaults)
        before = json.loads(self.made["lamps"][1])["number"] if "lamps" in self.made else 0
        return {"number": before + 1, "by": "program" if picture.is_of_program else "lines"}

    def shown(self, view: View) -> dict[str, object]:
        """What is shown, by whom, and for how long; what the reading says of it, where that is of the same message."""
        shown, reading, of_mib = view.shown, view.reading, self.board.exchanges
        facts: list[Fact] = [
            ("Mode", word(of_mib, scalar("dmsMsgSourceMode"), shown.mode)),
            ("Message", f"{memory_word(shown.memory)} {shown.number}, checksum {shown.checksum}"),
            ("Left", left(shown.remaining)),
            ("Run-time priority", str(shown.priority)),
        ]
        if reading is not None and view.is_read_of_shown:
            owner, beacon, pixel = OF_SHOWN
            facts += [
                ("Activated by", ".".join(map(str, reading.octets(REQUESTER)))),
                ("Owner", in_quotes(reading.octets(owner)) or "none"),
                ("Beacon, pixel service", f"{reading.number(beacon)}, {reading.number(pixel)}"),
            ]
        return {
            "text": in_quotes(shown.text),
            "powered": shown.is_powered,
            "facts": facts,
            "reports": [] if reading is None else reports(of_mib, reading),
        }


def left(minutes: int) -> str:
    """How long a message is still shown."""
    if minutes == ENDLESS:
        return "without end"
    return f"{minutes} minute{'' if minutes == 1 else 's'}, rounded up"


def memory_word(number: int) -> str:
    return WORDS[Memory(number)] if number in WORDS.keys() else str(number)


def word(exchanges: Exchanges, name: Name, number: int) -> str:
    """A number with its word of the MIB."""
    found = exchanges.mib.word(name, number)
    return f"{found} ({number})" if found else str(number)


def reports(exchanges: Exchanges, reading: Reading) -> list[Fact]:
    """What the sign says of the last activation, validation and text that it refused."""
    why, code, verdict, fault, offset = REPORTS
    found = [
        ("Last activation", word(exchanges, why, reading.number(why))),
        ("Code that was refused", reading.octets(code).hex()),
        ("Last validation", word(exchanges, verdict, reading.number(verdict))),
        ("Fault of a text", f"{word(exchanges, fault, reading.number(fault))} at octet {reading.number(offset)}"),
    ]
    return found


def table(view: View) -> dict[str, object]:
    """The rows that are used, how many are not, and since when that is known."""
    if view.reading is None:
        return {"rows": [], "unused": "", "readAt": None, "older": True}
    unused = [f"{count} {memory_word(memory)}" for memory, count in view.reading.unused.items() if count]
    return {
        "rows": [of_row(row) for row in view.reading.rows],
        "unused": ", ".join(unused),
        "readAt": view.read_at if view.is_older else None,
        "older": view.is_older,
    }


def of_row(row: Row) -> list[str]:
    """A row's cells in words."""
    return [
        f"{memory_word(row.memory)} {row.number}",
        STATUSES[row.status] if 0 < row.status < len(STATUSES) else str(row.status),
        in_quotes(row.text),
        in_quotes(row.owner),
        f"{row.checksum:04x}",
        str(row.priority),
        f"{row.beacon}, {row.pixel}",
    ]

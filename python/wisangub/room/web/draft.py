"""What an operator is about to ask for: the fields of a form, what is wrong with them, and the line of a centre."""

import dataclasses
import re
from dataclasses import dataclass, field, replace
from typing import Any, Mapping

from wisangub.room.store.rules import Purpose
from wisangub.snmp.names import Memory

from .faces import Face
from .words import NO_END

_NUMBER = re.compile(r"[0-9]{1,5}")
KINDS = ("publish", "blank", "activate")
GREATEST = 255  # the priority that nothing else comes above: it is warned of
_RULED = ("memory", "number", "run", "priority")  # what a purpose decides


@dataclass(frozen=True)
class Draft:
    """`checksum` is of a row that is there, as the sign reads it."""

    kind: str = "publish"
    signs: tuple[int, ...] = ()
    text: str = ""
    memory: int = Memory.CHANGEABLE
    number: int = 1
    beacon: int = 0
    pixel: int = 0
    run: int = 100
    priority: int = 100
    minutes: int = NO_END
    checksum: int = 0
    faults: dict[str, str] = field(default_factory=dict)

    @property
    def octets(self) -> bytes:
        return self.text.encode("latin-1", "replace")

    @property
    def is_greatest(self) -> bool:
        """Whether it takes away whatever is shown, or lets nothing else take it away."""
        return GREATEST in ((self.priority, self.run) if self.kind == "publish" else (self.priority,))

    def of_purpose(self, purpose: Purpose, of: list[Face]) -> "Draft":
        """The row and the priorities by an agency's rules: of a sign with fewer rows its last one."""
        number = min([purpose.number, *(face.most(Memory.CHANGEABLE) for face in of)])
        faults = {key: words for key, words in self.faults.items() if key not in _RULED}
        return replace(
            self,
            memory=int(Memory.CHANGEABLE),
            number=max(1, number),
            run=purpose.priority,
            priority=purpose.priority,
            faults=faults,
        )

    def is_of(self, purpose: Purpose, of: list[Face]) -> bool:
        """Whether its row and priorities are those of a purpose."""
        return self.of_purpose(purpose, of) == self

    @property
    def confirmed(self) -> str:
        """What the page that confirms it shows and lets nobody change, in one line."""
        if self.kind == "blank":
            return repr((self.kind, self.signs, self.number))
        if self.kind == "activate":
            return repr((self.kind, self.signs, self.memory, self.number, self.checksum))
        return repr(dataclasses.astuple(dataclasses.replace(self, faults={})))

    def confirmed_at(self, newest: int) -> str:
        """The same, beside the newest command of its signs that the page knew of."""
        return f"{self.confirmed} after {newest}"

    def line(self, owner: str, address: str) -> str:
        """The line of a centre."""
        if self.kind == "blank":
            return f"blank {self.number} {self.minutes} {self.priority} {address}"
        if self.kind == "activate":
            code = (
                self.minutes.to_bytes(2, "big")
                + bytes([self.priority, self.memory])
                + self.number.to_bytes(2, "big")
                + self.checksum.to_bytes(2, "big")
                + bytes(map(int, address.split(".")))
            )
            return f"activate {code.hex()}"
        return (
            f"publish {self.memory} {self.number} {self.octets.hex() or '-'} {owner.encode('ascii').hex()}"
            f" {self.beacon} {self.pixel} {self.run} {self.minutes} {self.priority} {address}"
        )


class Form:
    """Fields as they were sent, read one by one; what is wrong is kept by the field's name."""

    def __init__(self, fields: Any) -> None:
        self.fields: Mapping[str, Any] = fields
        self.many = fields.getall if hasattr(fields, "getall") else None
        self.faults: dict[str, str] = {}

    def word(self, key: str, default: str = "") -> str:
        held = self.fields.get(key, default)
        return held if isinstance(held, str) else default

    def number(self, key: str, least: int, most: int, default: int, what: str) -> int:
        """A number in its range; the default where it is not there, or not in order."""
        word = self.word(key).strip()
        if not word and key not in self.fields:
            return default
        if _NUMBER.fullmatch(word) and least <= int(word) <= most:
            return int(word)
        self.faults[key] = f"{what} is a number from {least} to {most}."
        return default

    def signs(self, known: Mapping[int, Face]) -> tuple[int, ...]:
        """The signs that were chosen, each once."""
        words = self.many("sign", []) if self.many else []
        found = [int(word) for word in dict.fromkeys(words) if isinstance(word, str) and _NUMBER.fullmatch(word)]
        found = [sign_id for sign_id in found if sign_id in known]
        if not found:
            self.faults["sign"] = "Choose at least one sign."
        return tuple(found)

    def minutes(self, is_last: bool) -> int:
        """How long. Where no other page shows it again, minutes that were written and not chosen are not left out."""
        if self.word("lasts", "forever") != "minutes":
            if is_last and self.word("minutes").strip():
                self.faults["minutes"] = "Minutes are given, and not chosen: choose them, or leave them out."
            return NO_END
        return self.number("minutes", 1, NO_END - 1, NO_END, "A duration in minutes")


def text_fault(text: str) -> tuple[int, str] | None:
    """The first character that no sign takes: its place, and why."""
    for place, character in enumerate(text):
        if ord(character) > 255:
            return place, f"a sign's characters are U+0000 to U+00FF, and this is U+{ord(character):04X}"
    return None


def joined(text: str) -> str:
    """A line break is a new line of the message."""
    return text.replace("\r\n", "\n").replace("\r", "\n").replace("\n", "[nl]")


def read(fields: Any, faces: Mapping[int, Face], kind: str = "publish") -> Draft:
    """What a form says."""
    form = Form(fields)
    signs = form.signs(faces)
    of = [faces[sign_id] for sign_id in signs]
    least_memory = Memory.PERMANENT if kind == "activate" else Memory.CHANGEABLE
    memory = form.number("memory", least_memory, Memory.VOLATILE, Memory.CHANGEABLE, "A memory")
    least = min([255 if kind == "blank" else face.most(memory) or 16 for face in of], default=1)
    draft = Draft(
        kind,
        signs,
        joined(form.word("text")),
        memory,
        form.number("number", 1, max(1, least), 1, "A blank message" if kind == "blank" else "A row"),
        int(form.word("beacon") == "1"),
        int(form.word("pixel") == "1"),
        form.number("run", 1, 255, 100, "A priority"),
        form.number("priority", 0, 255, 100 if kind == "publish" else 255, "An activation priority"),
        form.minutes(is_last=kind != "publish"),
        form.number("checksum", 0, 65535, 0, "A checksum"),
    )
    if kind == "publish":
        _check(draft, of, form.faults)
    return replace(draft, faults=form.faults)


def _check(draft: Draft, of: list[Face], faults: dict[str, str]) -> None:
    """What a publication's fields are refused for beside their ranges."""
    if draft.beacon and not all(face.has_beacon for face in of):
        faults["beacon"] = "Not all of these signs have a beacon."
    if draft.pixel and not all(face.has_pixel for face in of):
        faults["pixel"] = "Not all of these signs have pixel service."
    if not draft.text:
        faults["text"] = "Write a text. To show nothing, blank the sign."

"""Signs that are described, and how: for the tests of `wisangub-conform describe` in both forms."""

import bisect
import random
import re
from dataclasses import dataclass, field
from typing import Sequence

from model import text, wire
from model.objects import Objects
from model.sign import Sign
from model.state import State
from trials.wrong_signs.misbehaving import Misbehaving
from wisangub.snmp.names import DMS, TABLE, scalar
from wisangub.tester.describe.client import Client
from wisangub.tester.describe.describing import Describing
from wisangub.tester.describe.spelling import block
from wisangub.tester.sign.clock import SimulatedClock
from wisangub.tester.sign.described import Font, described
from wisangub.tester.sign.port import Port
from wisangub.tester.sign.simulated import SimulatedLink, SomeSign

ALPHABET = " 0123456789ABCDEFGHIJKLMNOPQRSTUVWXYZ.!-'"
FEW: tuple[int, ...] = tuple(map(ord, ALPHABET))  # what a font is asked for in the short form
LATIN = "".join(map(chr, range(32, 127))) + "ÄÖÜß°"


def font(number: int, height: int, space: int, line: int, widths: dict[int, int], version: int = 1) -> str:
    """The lines of a font whose characters are blocks."""
    head = f"font {number} height {height} space {space} line {line} version {version:04x}"
    glyphs = [f"glyph {held} {width} {block(width, height, True).hex()}" for held, width in sorted(widths.items())]
    return "\n".join([head, *glyphs])


def proportional(characters: str, usual: int, narrow: int, wide: int) -> dict[int, int]:
    """Widths as fonts have them."""
    found = {ord(held): usual for held in characters}
    found |= {ord(held): narrow for held in characters if held in "I1.!'il:;,|"}
    return found | {ord(held): wide for held in characters if held in "MWmw@"}


def fixed(characters: str, width: int) -> dict[int, int]:
    """One width for all."""
    return {ord(held): width for held in characters}


def description(size: str, fonts: list[str], more: str = "", order: str = "high", has: str = "1 1") -> bytes:
    """The description of a sign with these fonts."""
    head = f"size {size}\ncommunities public administrator\nrows 3 2\norder {order}\nhas {has}\n"
    lines = [head + "defaults 0 9 5 5 2 3 3 30 0\nfirst 1", *([more] if more else []), *fonts, "end", ""]
    return "\n".join(lines).encode("ascii")


# three signs of other makes, small enough for the short form
OTHERS = {
    "trailer": description(
        "48 28",
        [
            font(2, 7, 1, 3, proportional(ALPHABET, 5, 2, 7)),
            font(9, 13, 3, 2, fixed("0123456789KMH", 9), version=0xBEEF),
        ],
        "permanent 5b666f392c626565665d3830 - 1 0 7",
        order="swapped",
    ),
    "column": description("30 62", [font(2, 9, 0, 0, fixed(ALPHABET, 6))], has="0 1"),
    "tunnel": description(
        "128 32",
        [
            font(2, 8, 2, 1, proportional(ALPHABET, 6, 3, 9)),
            font(3, 12, 2, 4, proportional(ALPHABET, 8, 3, 12)),
            font(200, 24, 4, 5, proportional("0123456789", 14, 8, 14)),
        ],
        has="0 0",
    ),
}


@dataclass
class Made:
    """A sign that is being described under a clock of its own; `said` is what it said."""

    sign: SomeSign
    link: SimulatedLink
    clock: SimulatedClock
    describing: Describing
    said: list[str] = field(default_factory=list)


def made(
    spelled: bytes,
    sign: SomeSign | None = None,
    faulty: float = 0.0,
    both_ways: bool = False,
    candidates: Sequence[int] = FEW,
    probes: Sequence[int] = (),
    is_by_table: bool = True,
) -> Made:
    """A sign of the model by its description, or this one, and who describes it."""
    clock, said = SimulatedClock(), list[str]()
    whole = described(spelled)
    link = SimulatedLink(sign or Sign(text.described(spelled)), clock, random.Random(3), faulty, both_ways=both_ways)
    client = Client(Port(link, clock), (whole.reader, whole.writer))
    return Made(link.sign, link, clock, Describing(client, said.append, candidates, probes, is_by_table), said)


def misbehaving(spelled: bytes, silent: tuple[float, float]) -> Made:
    """A sign that is silent from one moment to another."""
    found = made(spelled)
    found.link.close()
    found.link = Misbehaving(found.clock, spelled, silent=silent)
    found.describing.client.port.link = found.link
    return found


def differing(found: str, spelled: bytes) -> list[str]:
    """What a description that was found says otherwise than the one that a sign was made with, but for versions,
    pictures, the first request's number, and what it says itself that no text tells. The model takes it."""
    text.described(found.encode())
    ours, theirs = described(found.encode()), described(spelled)
    words = ("reader", "writer", "swapped", "beacons", "pixels", "permanent", "changeable", "volatile")
    said = [f"{word}: {getattr(ours, word)}" for word in words if getattr(ours, word) != getattr(theirs, word)]
    mine, right = ours.face, theirs.face
    if (mine.width, mine.height, mine.defaults) != (right.width, right.height, right.defaults):
        said.append("size or defaults")
    if [held.number for held in mine.fonts] != [held.number for held in right.fonts]:
        return [*said, "the numbers of fonts"]
    open_ones = {
        (int(number), word): range(int(least), int(most) + 1)
        for number, word, least, most in re.findall(r"(?m)^# font (\d+), (\w+): (\d+) to (\d+) are alike", found)
    }
    for font, other in zip(mine.fonts, right.fonts):
        said += _of_font(font, other, open_ones)
    return said


def _of_font(font: Font, other: Font, open_ones: dict[tuple[int, str], range]) -> list[str]:
    said = [
        f"{word} of font {font.number}: {getattr(font, word)}, not {getattr(other, word)}"
        for word in ("height", "space", "line")
        if getattr(font, word) != getattr(other, word)
        and getattr(other, word) not in open_ones.get((font.number, word), ())
    ]
    widths = [{held: glyph.width + one.space for held, glyph in one.glyphs.items()} for one in (font, other)]
    odd = sorted(held for held in {*widths[0], *widths[1]} if widths[0].get(held) != widths[1].get(held))
    return [*said, *(f"character {held} of font {font.number}: {widths[0].get(held)}" for held in odd)]


# --- a font table ---------------------------------------------------------------------------------------------------


def table_of(spelled: bytes) -> dict[wire.Name, wire.Tagged]:
    """The objects of NTCIP 1203's font table and character table for the fonts of a description."""
    held: dict[wire.Name, wire.Tagged] = {}
    index = 0
    for line in spelled.decode().splitlines():
        words = line.split()
        if words[:1] == ["font"]:
            index += 1
            number, height, space, between = (int(words[at]) for at in (1, 3, 5, 7))
            row = {1: index, 2: number, 4: height, 5: space, 6: between, 7: int(words[9], 16), 8: 4}
            held |= {(*DMS, 3, 2, 1, column, index): (wire.INTEGER, value) for column, value in row.items()}
            held[(*DMS, 3, 2, 1, 3, index)] = (wire.OCTETS, b"a font")
        elif words[:1] == ["glyph"]:
            character = int(words[1])
            values: list[wire.Tagged] = [(wire.INTEGER, character), (wire.INTEGER, int(words[2]))]
            values.append((wire.OCTETS, bytes.fromhex(words[3])))
            held |= {(*DMS, 3, 4, 1, column, index, character): value for column, value in enumerate(values, 1)}
    held[(*DMS, 3, 2, 1, 8, index + 1)] = (wire.INTEGER, 1)  # a row that is not used
    held |= {(*DMS, 3, 2, 1, column, index + 1): (wire.INTEGER, 0) for column in (1, 2, 4, 5, 6, 7)}
    return held


class _More(Objects):
    """The profile's objects, and those of the tables."""

    def __init__(self, state: State, held: dict[wire.Name, wire.Tagged]) -> None:
        super().__init__(state)
        self.held = held
        for name in held:
            bisect.insort(self.names, name)

    def value(self, name: wire.Name) -> wire.Tagged | None:
        return self.held.get(name) or super().value(name)


class WithTable(Sign):
    """A sign that has a font table too, of its own fonts and of more; `said` are other values of its objects."""

    def __init__(self, spelled: bytes, more: bytes = b"", said: dict[wire.Name, wire.Tagged] | None = None) -> None:
        super().__init__(text.described(spelled))
        self.objects = _More(self.state, table_of(spelled + more) | (said or {}))


class _Fewer(Objects):
    """The profile's objects but for columns of the message table, and positions of faults that begin with 1."""

    def __init__(self, state: State, without: tuple[int, ...], offset: int) -> None:
        super().__init__(state)
        self.offset = offset
        self.names = [name for name in self.names if name[: len(TABLE)] != TABLE or name[len(TABLE)] not in without]

    def value(self, name: wire.Name) -> wire.Tagged | None:
        if self.offset and name == scalar("dmsMultiSyntaxErrorPosition"):
            return wire.INTEGER, self.state.syntax_at + self.offset
        return super().value(name) if name in self.names else None


class Other(Sign):
    """A sign that lacks columns of the message table, or counts positions of faults from another number."""

    def __init__(self, spelled: bytes, without: tuple[int, ...] = (), offset: int = 0) -> None:
        super().__init__(text.described(spelled))
        self.objects = _Fewer(self.state, without, offset)

"""Descriptions of signs, scripts and reports as text."""

import pathlib
import re
from collections.abc import Callable
from typing import Any, TypeVar

from . import layout
from .centre import Centre
from .codes import Activation
from .description import Description, Row, is_refused
from .sign import Sign

MOST_INPUT = 1_048_576
Read = TypeVar("Read")
_Event = tuple[str, Any]  # the kind of event, and what it says
BENCH = (pathlib.Path(__file__).resolve().parents[1] / "signs/bench.sign").read_bytes()


class Bad(Exception):
    """A line that is not in order, by its number."""

    def __init__(self, line: int) -> None:
        super().__init__(line)
        self.line = line


class TooLong(Exception):
    """An input of more than 1,048,576 octets."""


def _lines_of(text: bytes) -> "_Lines":
    if len(text) > MOST_INPUT:
        raise TooLong
    return _Lines(text)


def kept_lines(text: bytes) -> tuple[list[tuple[int, bytes]], int]:
    """The lines that are not skipped, with their numbers, and the number after the last line."""
    lines = text.split(b"\n")
    ended = lines.pop() if lines[-1] == b"" else None
    found = []
    for number, line in enumerate(lines, 1):
        if (number < len(lines) or ended is not None) and line.endswith(b"\r"):
            line = line[:-1]
        if line and not line.startswith(b"#"):
            found.append((number, line))
    return found, len(lines) + 1


def number(word: bytes, least: int = 0, most: int = 65535, digits: int = 5) -> int:
    """A number of at most so many digits and in this range; raises ValueError."""
    if not re.fullmatch(rb"[0-9]{1,%d}" % digits, word) or not least <= int(word) <= most:
        raise ValueError
    return int(word)


def octets(word: bytes) -> bytes:
    """The octets of pairs of hexadecimal digits, none for `-`; raises ValueError."""
    if word == b"-":
        return b""
    if not word or len(word) % 2 or not re.fullmatch(rb"[0-9a-fA-F]+", word):
        raise ValueError
    return bytes.fromhex(word.decode())


def address(word: bytes) -> bytes:
    """The four octets of A.B.C.D; raises ValueError."""
    parts = word.split(b".")
    if len(parts) != 4:
        raise ValueError
    return bytes(number(part, 0, 255, 3) for part in parts)


def glyph(words: list[bytes], height: int) -> tuple[int, layout.Glyph]:
    """A character's number, and its picture."""
    character, width = number(words[1], 1), number(words[2], 1, 32)
    held = octets(words[3])
    bits = [octet >> place & 1 == 1 for octet in held for place in range(7, -1, -1)]
    if len(held) != (width * height + 7) // 8:
        raise ValueError
    return character, (width, [bits[row * width : (row + 1) * width] for row in range(height)])


def _new_glyph(words: list[bytes], font: layout.Font) -> tuple[int, layout.Glyph]:
    character, picture = glyph([words[0], *wants(words, b"glyph", 3)], font.height)
    if character in font.glyphs or len(font.glyphs) == 255:
        raise ValueError
    return character, picture


class _Lines:
    def __init__(self, text: bytes) -> None:
        self.kept, self.after = kept_lines(text)
        self.at = 0

    def next(self, read: Callable[[list[bytes]], Read]) -> Read:
        """What a function of the words reads in the next line."""
        if self.at == len(self.kept):
            raise Bad(self.after)
        at, line = self.kept[self.at]
        self.at += 1
        words = line.split(b" ")
        try:
            if b"" in words:
                raise ValueError
            return read(words)
        except (ValueError, IndexError):
            raise Bad(at) from None

    def word(self) -> bytes | None:
        """The first word of the next line, none at the end."""
        return self.kept[self.at][1].split(b" ")[0] if self.at < len(self.kept) else None


def wants(words: list[bytes], keyword: bytes, count: int) -> list[bytes]:
    """What stands behind this word, so many words; raises ValueError."""
    if words[0] != keyword or len(words) != count + 1:
        raise ValueError
    return words[1:]


def _is_swapped(words: list[bytes]) -> bool:
    if words not in ([b"order", b"high"], [b"order", b"swapped"]):
        raise ValueError
    return words[1] == b"swapped"


def _permanent_row(words: list[bytes]) -> Row:
    shown, owner, *numbers = wants(words, b"permanent", 5)
    return Row(octets(shown), octets(owner), *[number(word, 0, 255) for word in numbers])


def _font_head(words: list[bytes]) -> layout.Font:
    """A font without a character yet."""
    if len(words) != 10 or words[2::2] != [b"height", b"space", b"line", b"version"]:
        raise ValueError
    if not re.fullmatch(rb"[0-9a-fA-F]{4}", words[9]):
        raise ValueError
    height, space, leading = number(words[3], 1, 32), number(words[5], 0, 32), number(words[7], 0, 32)
    return layout.Font(number(words[1], 1, 255), height, space, leading, int(words[9], 16))


def _font_of(lines: _Lines) -> layout.Font:
    """The font of the next lines, with its characters."""
    font = lines.next(_font_head)
    while lines.word() == b"glyph":
        character, picture = lines.next(lambda words: _new_glyph(words, font))
        font.glyphs[character] = picture
    return font


def description(lines: _Lines) -> Description:
    """The sign that the next lines describe, up to `end`. Lines that no sign follows raise Bad."""
    width, height = lines.next(lambda w: (number(wants(w, b"size", 2)[0]), number(w[2])))
    reader, writer = lines.next(lambda w: wants(w, b"communities", 2))
    changeable, volatile = lines.next(lambda w: [number(x, 0, 255) for x in wants(w, b"rows", 2)])

    swapped = lines.next(_is_swapped)
    beacons, pixels = lines.next(lambda w: [number(x, 0, 1) == 1 for x in wants(w, b"has", 2)])
    defaults = tuple(lines.next(lambda w: [number(x, 0, 255) for x in wants(w, b"defaults", 9)]))
    first = lines.next(lambda w: number(wants(w, b"first", 1)[0], 0, 2**32 - 1, 10))
    permanent = []
    while lines.word() == b"permanent":
        permanent.append(lines.next(_permanent_row))
    fonts = []
    while lines.word() == b"font":
        fonts.append(_font_of(lines))
    lines.next(lambda w: wants(w, b"end", 0))
    face = layout.Face(width, height, fonts, defaults)
    found = Description(face, reader, writer, swapped, beacons, pixels, permanent, changeable, volatile, first)
    if is_refused(found):
        raise Bad(lines.kept[lines.at - 1][0])
    return found


def event(words: list[bytes], swapped: bool) -> _Event:
    """The event of a line's words; raises ValueError."""
    kind = words[0].decode("latin-1")
    if kind == "publish":
        memory, row, text, owner, beacon, pixel, run, minutes, priority, by = wants(words, b"publish", 10)
        return kind, (
            number(memory, 0, 255),
            number(row),
            octets(text),
            octets(owner),
            number(beacon, 0, 255),
            number(pixel, 0, 255),
            number(run, 0, 255),
            number(minutes),
            number(priority, 0, 255),
            address(by),
        )
    if kind == "blank":
        row, minutes, priority, by = wants(words, b"blank", 4)
        return kind, (number(row), number(minutes), number(priority, 0, 255), address(by))
    if kind == "activate":
        code = octets(wants(words, b"activate", 1)[0])
        if len(code) != 12:
            raise ValueError
        return kind, Activation.of(code, swapped)
    if kind in ("to-sign", "to-centre", "power-back"):
        return kind, number(wants(words, words[0], 1)[0], 0, 2**32 - 1, 10)
    if kind in ("forge-sign", "forge-centre"):
        return kind, octets(wants(words, words[0], 1)[0])
    if kind in ("sign-tick", "centre-tick", "power-lost", "centre-restart"):
        wants(words, words[0], 0)
        return kind, None
    raise ValueError


def shown_line(sign: Sign) -> str:
    """The line of what is shown."""
    shown, source, remaining = sign.state.shown, sign.state.shown.source, sign.objects.scalars()[(6, 4)]
    assert isinstance(remaining, int)
    return (
        f"shown {source.memory} {source.number} {source.crc:04x} mode {shown.mode} priority {shown.priority} "
        f"remaining {remaining} text {shown.text.hex() or '-'}"
    )


class World:
    """A sign, its centre, what they sent each other, and what was accepted."""

    def __init__(self, described: Description) -> None:
        self.sign = Sign(described)
        self.centre = Centre(described.writer, described.swapped, described.first)
        self.to_sign: list[bytes] = []
        self.to_centre: list[bytes] = []
        self.accepted: list[tuple[int, Activation]] = []  # after how many events, and what
        self.events = 0

    def happen(self, kind: str, held: Any) -> None:
        """An event happens."""
        self.events += 1
        out = None
        if kind in ("publish", "blank", "activate"):
            out = self.centre.command((kind, held))
        elif kind == "sign-tick":
            self.sign.tick()
        elif kind == "centre-tick":
            out = self.centre.tick()
        elif kind == "power-lost":
            self.sign.showing.power_lost()
        elif kind == "power-back":
            self.sign.showing.power_back(held)
        elif kind == "centre-restart":
            self.centre.restart()
        elif kind in ("to-centre", "forge-centre"):
            if kind == "forge-centre" or held < len(self.to_centre):
                out = self.centre.receive(held if kind == "forge-centre" else self.to_centre[held])
        elif kind == "forge-sign" or held < len(self.to_sign):
            reply, code = self.sign.receive(held if kind == "forge-sign" else self.to_sign[held])
            if reply is not None:
                self.to_centre.append(reply)
            if code is not None:
                self.accepted.append((self.events, code))
        if out is not None:
            self.to_sign.append(out)

    def report(self) -> list[str]:
        """The lines of the report."""
        swapped = self.sign.state.swapped
        lines = [f"events {self.events}", f"sent {len(self.to_sign)} {len(self.to_centre)}", shown_line(self.sign)]
        lines += [f"accepted {at} {code.octets(swapped).hex()}" for at, code in self.accepted]
        lines += [f"ledger {at} {code.octets(swapped).hex()} {outcome}" for at, code, outcome in self.centre.ledger]
        return lines


def described(text: bytes) -> Description:
    """The sign that a text describes; raises Bad or TooLong."""
    lines = _lines_of(text)
    found = description(lines)
    if lines.word() is not None:
        raise Bad(lines.kept[lines.at][0])
    return found


def bench() -> Description:
    """The bench sign."""
    return description(_Lines(BENCH))


def replayed(text: bytes) -> list[str]:
    """The report of a script; raises Bad or TooLong."""
    lines = _lines_of(text)
    if lines.word() == b"bench":
        lines.next(lambda w: wants(w, b"bench", 0))
        sign = bench()
    else:
        sign = description(lines)
    events = []
    while lines.word() is not None:
        events.append(lines.next(lambda w: event(w, sign.swapped)))
    world = World(sign)
    for kind, held in events:
        world.happen(kind, held)
    return world.report()


def answered(sign: Description, datagram: bytes) -> bytes | None:
    """The reply of a sign as it starts; None where it drops the datagram."""
    reply, _ = Sign(sign).receive(datagram)
    return reply

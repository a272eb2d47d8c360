"""Texts of lines and pages that are each so wide or so high that their room, or the lack of it, tells something."""

from dataclasses import dataclass, field
from typing import Protocol

MOST_TEXT, MOST_PAGES, MOST_GAP = 512, 6, 9
Char = tuple[int, int]  # a font's number, and a character's


def spelled(character: int) -> bytes:
    """The octets of a character in a text."""
    if character > 255:
        return b"[hc%x]" % character
    return bytes([character]) * (2 if character in b"[]" else 1)


def average(first: int, second: int) -> int:
    """The mean of two spacings, rounded up."""
    return (first + second + 1) // 2


@dataclass(frozen=True)
class Line:
    """The characters of a line, by where they stand in it."""

    left: tuple[Char, ...]
    centre: tuple[Char, ...] = ()
    right: tuple[Char, ...] = ()

    def parts(self) -> tuple[tuple[Char, ...], ...]:
        return self.left, self.centre, self.right


@dataclass(frozen=True)
class Page:
    """Lines of one character each, with the gap above each but the first; None is the average of the spacings."""

    lines: tuple[tuple[Char, int | None], ...]


class Frame(Protocol):
    """A text that is put together of parts."""

    parts: int  # a guess of how many find room

    def is_added(self, part: Line | Page) -> bool:
        """Whether the part found room; then it stands at the text's end."""

    def text(self) -> bytes:
        """The text."""

    def part_at(self, offset: int) -> int:
        """Which part, from 0, has the octet at this offset, or is the last before it."""


@dataclass
class _Text:
    """Octets with the place where each part begins."""

    octets: bytes = b"[jp2]"
    starts: list[int] = field(default_factory=list)
    font: int = 0

    def text(self) -> bytes:
        return self.octets

    def part_at(self, offset: int) -> int:
        return max(at for at, start in enumerate(self.starts) if start <= max(offset, self.starts[0]))

    def _spelled(self, character: Char, font: int) -> tuple[bytes, int]:
        """The octets of a character, with its font's tag where another font holds."""
        tag = b"" if character[0] == font else b"[fo%d]" % character[0]
        return tag + spelled(character[1]), character[0]

    def _take(self, octets: bytes, font: int) -> bool:
        if len(self.octets) + len(octets) > MOST_TEXT:
            return False
        self.starts.append(len(self.octets))
        self.octets += octets
        self.font = font
        return True


@dataclass
class LineFrame(_Text):
    """Lines without gaps, as many on a page as find room by these heights of fonts."""

    heights: dict[int, int] = field(default_factory=dict)
    room: int = 0
    parts: int = 10
    used: int = 0
    pages: int = 1
    side: int = 0

    def is_added(self, part: Line | Page) -> bool:
        assert isinstance(part, Line)
        height = max((self.heights[font] for held in part.parts() for font, _ in held), default=0)
        is_same = self.used + height <= self.room
        if not is_same and self.pages == MOST_PAGES:
            return False
        octets, font, side = b"" if not self.starts else b"[nl0]" if is_same else b"[np]", self.font, self.side
        for number, held in enumerate(part.parts(), 2):
            if held and number != side:
                octets, side = octets + b"[jl%d]" % number, number
            for character in held:
                more, font = self._spelled(character, font)
                octets += more
        if not self._take(octets, font):
            return False
        self.side, self.pages = side, self.pages + (not is_same)
        self.used = self.used + height if is_same else height
        return True


@dataclass
class PageFrame(_Text):
    """A page after the other."""

    parts: int = MOST_PAGES

    def is_added(self, part: Line | Page) -> bool:
        assert isinstance(part, Page)
        if len(self.starts) == MOST_PAGES:
            return False
        octets, font = b"" if not self.starts else b"[np]", self.font
        for at, (character, gap) in enumerate(part.lines):
            more, font = self._spelled(character, font)
            octets += (b"" if not at else b"[nl]" if gap is None else b"[nl%d]" % gap) + more
        return self._take(octets, font)


def gaps(total: int, count: int) -> list[int] | None:
    """So many gaps that are this high together; None where they cannot be."""
    if not 0 <= total <= MOST_GAP * count:
        return None
    return [min(MOST_GAP, max(0, total - MOST_GAP * at)) for at in range(count)]

"""Layout: where the characters of a text stand, whether they fit, and the cells of its pages.

Each prefix of a text is laid out anew, so nothing here keeps running sums.
"""

from collections.abc import Sequence
from dataclasses import dataclass, field

from . import multi
from .multi import Fault, Item

_LEFT, _CENTRE, _RIGHT = TOP, _MIDDLE, _BOTTOM = 2, 3, 4
_VALUE, TOO_BIG, NO_FONT, _NO_CHARACTER, _CONFLICT, PAGES, VERSION = 4, 5, 6, 7, 11, 12, 13
MOST_TEXT, MOST_PAGES = 512, 6

Glyph = tuple[int, list[list[bool]]]  # the width, and the rows
Flash = tuple[str, int, int]  # what it begins with, and the tenths of a second that it is lit and dark
_Cell = tuple[int, Flash | None]  # the colour


@dataclass
class Font:
    """A font; height, space between characters and between lines in pixels."""

    number: int
    height: int
    space: int
    line: int
    version: int
    glyphs: dict[int, Glyph] = field(default_factory=dict)


@dataclass
class Face:
    """Width and height in pixels, the fonts, and the defaults of a text."""

    width: int
    height: int
    fonts: list[Font]
    defaults: tuple[int, ...]  # in the order of the objects 4.1 to 4.9

    def font(self, number: int) -> Font | None:
        """The font of this number; None where there is none."""
        return next((font for font in self.fonts if font.number == number), None)

    def takes(self, defaults: Sequence[int]) -> bool:
        """Whether these can be a text's defaults."""
        back, colour, _, _, font, line, page, _, _ = defaults
        are_justifications = 2 <= line <= 4 and 2 <= page <= 4
        return back <= 9 and colour <= 9 and are_justifications and self.font(font) is not None

    def known_font(self, number: int) -> Font:
        """The font of this number, which there is."""
        font = self.font(number)
        assert font is not None
        return font


@dataclass
class _Character:
    font: Font
    glyph: Glyph
    colour: int
    flash: Flash | None
    part: int


@dataclass
class Line:
    """A line of a page while its characters come."""

    gap: int | None  # the value of the tag that opened it; None: the average of the spacings
    characters: list[_Character] = field(default_factory=list)
    closed_font: Font | None = None  # the font current at the closing of a line

    def counts(self) -> object:
        return self.characters or self.closed_font

    def height(self) -> int:
        """In pixels: that of its tallest character."""
        return max((c.font.height for c in self.characters), default=self.closed_font.height if self.closed_font else 0)

    def spacing(self) -> int:
        """In pixels, to the next line."""
        return max((c.font.line for c in self.characters), default=self.closed_font.line if self.closed_font else 0)

    def parts(self) -> dict[int, list[_Character]]:
        return {part: [c for c in self.characters if c.part == part] for part in (_LEFT, _CENTRE, _RIGHT)}


def average(first: int, second: int) -> int:
    """The mean, rounded up."""
    return (first + second + 1) // 2


def line_width(characters: list[_Character]) -> int:
    """In pixels."""
    width = sum(c.glyph[0] for c in characters)
    return width + sum(average(a.font.space, b.font.space) for a, b in zip(characters, characters[1:]))


def gap_above(lines: list[Line], at: int) -> int:
    """The rows between a line and the one before it."""
    line = lines[at]
    return line.gap if line.gap is not None else average(lines[at - 1].spacing(), line.spacing())


def _part_height(lines: list[Line]) -> int:
    height = 0
    for at, line in enumerate(lines):
        if line.counts():
            height += line.height() + (gap_above(lines, at) if at else 0)
    return height


def _begin(part: int, room: int, size: int) -> int:
    """Where something of this size begins in a room, by its part: first, middle or last."""
    return {2: 0, 3: (room - size) // 2, 4: room - size}[part]


def spans_fit(sizes: dict[int, int], room: int) -> bool:
    """Whether parts of these sizes, 0 where a part is empty, lie in the room and do not overlap."""
    if any(size > room for size in sizes.values()):
        return False
    spans = [(_begin(part, room, size), _begin(part, room, size) + size) for part, size in sizes.items() if size]
    return all(a[1] <= b[0] or b[1] <= a[0] for at, a in enumerate(spans) for b in spans[at + 1 :])


class Page:
    """A page that is laid out; its times are in tenths of a second."""

    def __init__(self, part: int, back: int, on: int, off: int) -> None:
        self.parts: dict[int, list[Line]] = {TOP: [], _MIDDLE: [], _BOTTOM: []}
        self.part = part
        self.parts[part].append(Line(0))
        self.back, self.on, self.off = back, on, off

    def open_line(self) -> Line:
        return self.parts[self.part][-1]

    def close_part(self, font: Font) -> None:
        """Closes the line and the part; a part with a single line without a character has no lines then."""
        self.open_line().closed_font = font
        if len(self.parts[self.part]) == 1 and not self.open_line().characters:
            self.parts[self.part] = []

    def fits(self, face: Face) -> bool:
        heights = {part: _part_height(lines) for part, lines in self.parts.items()}
        if not spans_fit(heights, face.height):
            return False
        lines = [line for lines in self.parts.values() for line in lines]
        return all(
            spans_fit({part: line_width(found) for part, found in line.parts().items()}, face.width) for line in lines
        )


class _Layout:
    """A text that is laid out item by item, under the defaults handed in. `take` answers the code of a fault, or
    None."""

    def __init__(self, face: Face, defaults: Sequence[int]) -> None:
        self.face, self.defaults = face, defaults
        self.back, self.colour, self.on, self.off = defaults[0], defaults[1], defaults[7], defaults[8]
        self.font = face.known_font(defaults[4])
        self.flash: Flash | None = None
        self.side, self.part = defaults[5], defaults[6]
        self.pages = [Page(self.part, self.back, self.on, self.off)]

    def take(self, item: Item) -> int | None:
        page = self.pages[-1]
        kind = item[0]
        if kind == "character":
            glyph = self.font.glyphs.get(item[1])
            if glyph is None:
                return _NO_CHARACTER
            page.open_line().characters.append(_Character(self.font, glyph, self.colour, self.flash, self.side))
            return None if page.fits(self.face) else TOO_BIG
        if kind == "font":
            number = self.defaults[4] if item[1] is None else item[1]
            font = self.face.font(number)
            if font is None:
                return NO_FONT
            if item[2] is not None and item[2] != font.version:
                return VERSION
            self.font = font
        elif kind == "line":
            side = self.defaults[5] if item[1] is None else item[1]
            if any(side < c.part for c in page.open_line().characters):
                return _CONFLICT
            self.side = side
        elif kind == "page":
            return self.new_part(self.defaults[6] if item[1] is None else item[1])
        elif kind == "new line":
            page.open_line().closed_font = self.font
            page.parts[page.part].append(Line(item[1]))
            return None if page.fits(self.face) else TOO_BIG
        elif kind == "new page":
            return self.new_page()
        else:
            self.change(item)
        return None

    def change(self, item: Item) -> None:
        """An item that changes what holds from here on: colours, flash, page times."""
        page = self.pages[-1]
        kind = item[0]
        if kind == "background":
            self.back = page.back = self.defaults[0] if item[1] is None else item[1]
        elif kind == "foreground":
            self.colour = self.defaults[1] if item[1] is None else item[1]
        elif kind == "page time":
            self.on = page.on = self.defaults[7] if item[1] is None else item[1]
            self.off = page.off = self.defaults[8] if item[2] is None else item[2]
        elif kind == "flash":
            lit = self.defaults[2] if item[2] is None else item[2]
            dark = self.defaults[3] if item[3] is None else item[3]
            self.flash = (item[1], lit, dark)
        else:
            self.flash = None

    def new_part(self, part: int) -> int | None:
        page = self.pages[-1]
        if part == self.part:
            return None
        page.close_part(self.font)
        if any(lines and part <= other for other, lines in page.parts.items()):
            return _CONFLICT
        fits = page.fits(self.face)
        self.part = page.part = part
        page.parts[part].append(Line(0))
        return None if fits else TOO_BIG

    def new_page(self) -> int | None:
        page = self.pages[-1]
        page.close_part(self.font)
        if not page.fits(self.face):
            return TOO_BIG
        if len(self.pages) == MOST_PAGES:
            return PAGES
        self.pages.append(Page(self.part, self.back, self.on, self.off))
        return None

    def end(self) -> int | None:
        page = self.pages[-1]
        page.close_part(self.font)
        return None if page.fits(self.face) else TOO_BIG


def laid_out(face: Face, defaults: Sequence[int], text: bytes) -> tuple[list[Page], None] | tuple[None, Fault]:
    """The pages of a text, or its fault (code, offset)."""
    if len(text) > MOST_TEXT:
        return None, (TOO_BIG, MOST_TEXT)
    layout = _Layout(face, defaults)
    found, fault = multi.items(text)
    for item, at in found:
        code = layout.take(item)
        if code is not None:
            return None, (code, at)
    if fault is not None:
        return None, fault
    code = layout.end()
    if code is not None:
        return None, (code, len(text))
    return layout.pages, None


def cells(face: Face, page: Page) -> list[list[_Cell | None]]:
    """The page's cells, a list of rows: (colour, flash) where a cell is lit, else None."""
    lit: list[list[_Cell | None]] = [[None] * face.width for _ in range(face.height)]
    for part, lines in page.parts.items():
        top = _begin(part, face.height, _part_height(lines)) if lines else 0
        for at, line in enumerate(lines):
            if not line.counts():
                continue
            top += gap_above(lines, at) if at else 0
            for side, characters in line.parts().items():
                left = _begin(side, face.width, line_width(characters)) if characters else 0
                for index, character in enumerate(characters):
                    if index:
                        left += average(characters[index - 1].font.space, character.font.space)
                    width, rows = character.glyph
                    for y, row in enumerate(rows):
                        for x in range(width):
                            if row[x]:
                                lit[top + line.height() - character.font.height + y][left + x] = (
                                    character.colour,
                                    character.flash,
                                )
                    left += width
            top += line.height()
    return lit


def drawn(face: Face, pages: list[Page]) -> list[str]:
    """The pages as the program prints them."""
    lines = []
    for number, page in enumerate(pages, 1):
        lines.append(f"page {number} on {page.on} off {page.off} back {page.back}")
        lines += ["".join("." if cell is None else str(cell[0]) for cell in row) for row in cells(face, page)]
    return lines

"""Texts whose parts are exactly as wide, and as high, as it takes: widths of characters and fonts are combined."""

import itertools
from typing import Iterator, Sequence

from wisangub.tester.context import Context
from wisangub.tester.sign.described import Face, Font

from .edge_texts import Sample, average, made, stacked, unit_of


def _plain(font: Font) -> dict[int, bytes]:
    """A character of each width of a font, the first that is seen."""
    found: dict[int, bytes] = {}
    for number, glyph in sorted(font.glyphs.items(), key=lambda held: not held[1].is_lit):
        if number < 256 and number not in b"[]":
            found.setdefault(glyph.width, bytes([number]))
    return {width: found[width] for width in sorted(found, reverse=True)}


_OCTET = 256  # columns that do not fit an octet


class Widths:
    """The shortest text of each width, in the default's font and, where that does not do, in others between."""

    def __init__(self, face: Face, most: int) -> None:
        own = face.known_font(face.defaults[4])
        fonts = [own, *[font for font in face.fonts if font.number != own.number and font.height <= face.height]]
        plain = {font.number: _plain(font) for font in fonts}
        self._own = own.number
        self._held: dict[tuple[int, int], bytes] = {}  # by width and the font of the last character
        for font in fonts:
            for width, unit in plain[font.number].items():
                self._keep(width, font.number, self._tag(own.number, font.number) + unit)
        for width, last, font in itertools.product(range(1, most + 1), fonts, fonts):
            front = self._held.get((width, last.number))
            for more, unit in plain[font.number].items() if front else ():
                whole = width + average(last.space, font.space) + more
                self._keep(whole, font.number, (front or b"") + self._tag(last.number, font.number) + unit)

    def _tag(self, before: int, after: int) -> bytes:
        return b"" if before == after else b"[fo]" if after == self._own else b"[fo%d]" % after

    def _keep(self, width: int, font: int, text: bytes) -> None:
        known = self._held.get((width, font))
        if known is None or len(text) < len(known):
            self._held[width, font] = text

    def text(self, width: int) -> bytes | None:
        """The shortest text so wide, after which the default's font holds; None where there is none."""
        found = [text + self._tag(font, self._own) for (held, font), text in self._held.items() if held == width]
        return min(found, key=len) if found else None


def widths(context: Context) -> Widths:
    """The widths of this sign's characters."""
    return Widths(context.described.face, max(_OCTET, context.described.face.width + 1))


def exact(context: Context) -> list[Sample]:
    """A part as wide as the matrix, and one column wider, at each place of a line; as high, and one row higher."""
    face, one, held = context.described.face, context.character(), widths(context)
    across = [held.text(face.width + more) for more in (0, 1)]
    found = [b"[jl%d]" % place + text for text in across if text for place in (2, 3, 4)]
    found += [before + text for text in across if text for before in _places(one)]
    found += [text for total in (face.width, face.width + 1) for text in _sides(held, total)]
    found += [text for text in [held.text(_OCTET)] if text and _is_past(context, text)]
    if one:
        height = face.known_font(context.defaults[4]).height
        down = [stacked(one, height, face.height + more) for more in (0, 1)]
        found += [b"[jp%d]" % place + text for text in down if text for place in (2, 3, 4)]
    return made("room", found, len(found))


def _sides(held: Widths, total: int) -> list[bytes]:
    """A left and a right part that are so wide together."""
    pairs = ((held.text(left), held.text(total - left)) for left in range(total // 3, total))
    return [b"[jl2]" + left + b"[jl4]" + right for left, right in pairs if left and right][:1]


def _places(one: bytes) -> tuple[bytes, ...]:
    """What stands before a line that is not the first: a line, a page, or nothing of the part at the bottom."""
    return (one + b"[nl0]", one + b"[np]", b"[jp4]")


def _is_past(context: Context, text: bytes) -> bool:
    """Whether the last character is what there is no room for, so that what is seen is the whole width."""
    fault = context.fault(text)
    return fault is not None and fault[1] == len(text) - 1


def centred(context: Context) -> list[Sample]:
    """A centred part that touches another where the free columns, or rows, are odd in number, and where they are
    even: as far as it may, and by one more."""
    found = [*_columns(context), *_rows(context)]
    return made("room", found, len(found))


def _columns(context: Context) -> Iterator[bytes]:
    """Of each rest of the free columns by four, as ways to round differ, the first width of which enough is there."""
    face, held, third = context.described.face, widths(context), context.described.face.width // 3
    outwards = [*range(third, 0, -1), *range(third + 1, face.width)]
    inwards = outwards[third:] + outwards[:third]
    for rest, middles in ((1, outwards), (3, inwards), (2, outwards)):
        for width in middles:
            middle, free = held.text(width), (face.width - width) // 2
            if middle and (face.width - width) % 4 == rest:
                left = [held.text(free + more) for more in (0, 1)]
                right = [held.text(free + rest % 2 + more) for more in (0, 1)]
                if _is_telling(left, right):
                    yield from (b"[jl2]" + text + b"[jl3]" + middle for text in left if text)
                    yield from (b"[jl3]" + middle + b"[jl4]" + text for text in right if text)
                    yield from _all_three(context, left[0], middle, right[0])
                    break


def _all_three(context: Context, left: bytes | None, middle: bytes, right: bytes | None) -> Iterator[bytes]:
    """Three parts that fill a line, in a line by itself and in others, of those that fit."""
    if left and right:
        text = b"[jl2]" + left + b"[jl3]" + middle + b"[jl4]" + right
        texts = [before + text for before in (b"", *_places(context.character()))]
        yield from (held for held in texts if context.fault(held) is None)


def _is_telling(before: Sequence[bytes | None], after: Sequence[bytes | None]) -> bool:
    """Whether parts before and after one in the middle, as long as there is room for and by one longer, show that it
    stands by one further on, and by one less far."""
    return bool((before[1] or after[0]) and (before[0] or after[1]))


def _rows(context: Context) -> Iterator[bytes]:
    """Of each rest of the free rows by four, texts that tell that the middle stands a row lower, and a row higher: one
    that fits, and one that does not. Lines of each font are tried, in the middle and beside it: a lower font may be all
    that leaves such a rest."""
    face, fonts = context.described.face, list(_Lines.fonts(context))
    for rest, is_lower in itertools.product((1, 3, 0, 2), (True, False)):
        heights = [total for total in range(1, face.height) if (face.height - total) % 4 == rest]
        places = list(itertools.product(fonts, fonts, heights))
        for tried in (_touching, _overlapping):
            found = (tried(face.height, total, middle, side, is_lower) for middle, side, total in places)
            yield from itertools.islice(filter(None, found), 1)
        if is_lower:
            full = (_filling(face.height, total, middle, side) for middle, side, total in places)
            yield from itertools.islice(filter(None, full), 1)


class _Lines:
    """Lines of a font, the default's font after them."""

    def __init__(self, unit: bytes, front: bytes, height: int) -> None:
        self._unit, self._front, self._height = unit, front, height

    @classmethod
    def fonts(cls, context: Context) -> Iterator["_Lines"]:
        """Those of each font that has a character, the default's first."""
        face, own = context.described.face, context.defaults[4]
        for font in sorted(face.fonts, key=lambda font: font.number != own):
            unit = context.character() if font.number == own else unit_of(font)
            if unit:
                yield cls(unit, b"" if font.number == own else b"[fo%d]" % font.number, font.height)

    def text(self, total: int) -> bytes | None:
        """Lines that are so high together; None where no gaps make it so."""
        held = stacked(self._unit, self._height, total)
        return self._front + held + (b"[fo]" if self._front else b"") if held else None


def _touching(height: int, total: int, lines: _Lines, others: _Lines, is_lower: bool) -> bytes:
    """Lines in the middle, so high together, and others that touch them: below, which tells that the middle stands
    lower, or above; nothing where there are none."""
    free = (height - total) // 2
    return _beside(lines.text(total), others.text(height - total - free if is_lower else free), is_lower)


def _overlapping(height: int, total: int, lines: _Lines, others: _Lines, is_lower: bool) -> bytes:
    """The same with others that overlap them by a row: above, which tells that the middle stands lower, or below."""
    free = (height - total) // 2
    return _beside(lines.text(total), others.text(1 + (free if is_lower else height - total - free)), not is_lower)


def _filling(height: int, total: int, lines: _Lines, others: _Lines) -> bytes:
    """Lines in the middle, so high together, and others that touch them above and below; nothing where there are
    none."""
    free = (height - total) // 2
    top, middle, bottom = others.text(free), lines.text(total), others.text(height - total - free)
    if top is None or middle is None or bottom is None:
        return b""
    return b"[jp2]" + top + b"[jp3]" + middle + b"[jp4]" + bottom


def _beside(middle: bytes | None, side: bytes | None, is_below: bool) -> bytes:
    if middle is None or side is None:
        return b""
    return b"[jp3]" + middle + b"[jp4]" + side if is_below else b"[jp2]" + side + b"[jp3]" + middle

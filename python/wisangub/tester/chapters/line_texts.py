"""Texts whose lines are of two fonts: in each part of a line, at each place of a page, and three lines one below the
other."""

import itertools
from typing import Iterator

from wisangub.tester.context import Context
from wisangub.tester.sign.described import Font

from .edge_texts import Sample, edge, made, stacked, unit_of


def _two(context: Context, is_apart: str) -> tuple[bytes, bytes] | None:
    """A character of each of the first two fonts that differ in this, with their tags: the lesser first."""
    fonts = [font for font in context.described.face.fonts if unit_of(font)]
    for pair in itertools.combinations(fonts, 2):
        low, high = sorted(pair, key=lambda font: int(getattr(font, is_apart)))
        if getattr(low, is_apart) != getattr(high, is_apart):
            return _tagged(low), _tagged(high)
    return None


def _tagged(font: Font) -> bytes:
    return b"[fo%d]" % font.number + unit_of(font)


def _in_parts(first: bytes, second: bytes) -> Iterator[bytes]:
    """Lines of which one part alone is of another font than the others, each part in turn."""
    for a, b in ((first, second), (second, first)):
        yield b"[jl2]" + a + b"[jl4]" + b
    yield b"[jl2]" + first + b"[jl3]" + second
    yield b"[jl3]" + second + b"[jl4]" + first


def _above(context: Context, line: bytes) -> list[bytes]:
    """This line above others, the last of which stands as low as it may, and a row lower."""
    return edge(context, line + b"[fo]")


def _last(context: Context, line: bytes) -> list[bytes]:
    """This line below others, as low as it may stand, and a row lower."""
    one = context.character()
    for between, count in itertools.product((9, 3, 0), range(8)):
        above = one + (b"[nl%d]" % between + one) * count
        texts = [above + b"[nl%d]" % gap + line for gap in range(10)]
        first = next((at for at, text in enumerate(texts) if context.fault(text) is not None), None)
        if first:
            return texts[first - 1 : first + 1]
    return []


def _touching(context: Context, line: bytes, height: int) -> Iterator[bytes]:
    """This line at the top, and lines at the bottom that touch it, and that overlap it by a row; and the other way."""
    face, one = context.described.face, context.character()
    own = face.known_font(context.defaults[4])
    for more in (0, 1):
        lines = stacked(one, own.height, face.height - height + more)
        if lines:
            yield b"[jp2]" + line + b"[jp4][fo]" + lines
            yield b"[jp2]" + lines + b"[jp4]" + line


def mixed_heights(context: Context) -> list[Sample]:
    """A line is as high as its highest character, whichever that is, in whatever part of the line, and wherever the
    line stands."""
    pair, found = _two(context, "height"), list[bytes]()
    if pair is None:
        return []
    low, high = pair
    height = max(font.height for font in context.described.face.fonts if _tagged(font) in pair)
    for line in (low + low + high, *_in_parts(low, high)):
        found += _above(context, line)
    for line in (low + high, high + low):
        found += [*_last(context, line), *_touching(context, line, height)]
    return made("room", found, len(found))


def mixed_spacings(context: Context) -> list[Sample]:
    """The gap between two lines is the average of their spacings: for lines of both fonts, whichever part of a line
    has which, and for the second gap as for the first."""
    pair, found = _two(context, "line"), list[bytes]()
    if pair is None:
        return []
    a, b = pair
    for lines in ((a, a, b), (b, a, a), (a, b, b), (b, b, a), (a + b, b), (b, b + a), (a + b, b + a)):
        found += _above(context, b"[nl]".join(lines))
    for line in _in_parts(a, b):
        found += _above(context, line + b"[nl]" + a)
    return made("room", found, len(found))

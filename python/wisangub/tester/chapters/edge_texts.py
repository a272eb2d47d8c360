"""Texts at the edge of a sign's matrix, and one past it."""

import itertools
from dataclasses import dataclass

from wisangub.tester.context import Context
from wisangub.tester.sign.described import Font


@dataclass(frozen=True)
class Sample:
    """A text, and the rule that decides on it."""

    text: bytes
    rule: str
    is_first: bool = False  # looked at without --slow too
    parts: tuple["Sample", ...] = ()  # of which it is joined


def made(rule: str, texts: list[bytes], first: int) -> list[Sample]:
    """Samples of one rule, so many of them looked at first."""
    return [Sample(text, rule, at < first) for at, text in enumerate(dict.fromkeys(texts)) if len(text) <= 512]


def average(first: int, second: int) -> int:
    """The spacing between two fonts' characters, half a column rounded up."""
    return (first + second + 1) // 2


def longest(context: Context, unit: bytes, between: bytes = b"", front: bytes = b"") -> int:
    """How many of a text, with another between them, fit after this front; 0 where the 512 octets end first."""
    for count in range(1, 513):
        text = front + between.join([unit] * count)
        if len(text) > 512:
            return 0
        if context.fault(text) is not None:
            return count - 1
    return 0


def edges(context: Context) -> list[Sample]:
    """Texts at the edge of the matrix, and one past it."""
    one = context.character()
    found: list[bytes] = []
    across, down, empty = longest(context, one), longest(context, one, b"[nl]"), longest(context, one, b"[nl9]")
    if across:
        part = max(1, across // 3)
        found += [
            one * across,
            one * (across + 1),
            b"[jl2]" + one + b"[jl4]" + one * (across - 1),
            b"[jl2]" + one + b"[jl4]" + one * across,
        ]
    if down:
        found += [b"[nl]".join([one] * (down + more)) for more in (0, 1)] + [b"[nl]".join([one] * down) + b"[nl]"]
    if across:
        found += [b"[jl2]" + one * part + b"[jl3]" + one * (part + more) for more in (0, 1, 2, 3)]
        found += [
            b"[jl2]" + one * (across // 2) + b"[jl4]" + one * (across + more - across // 2) for more in (-1, 0, 1)
        ]
        found += [b"[jl4]" + one * across, b"[jl3]" + one * (across + 1)]
    if down:
        found += [b"[nl]" * down, b"[nl]" * (down + 1)]
    if empty:
        found += [b"[nl9]".join([one] * (empty + more)) for more in (0, 1)]
    return made("room", found, 9)


def _spread(context: Context, unit: bytes, most: int) -> list[tuple[int, bytes]]:
    """Rows of one character with their widths, up to a width."""
    font = context.described.face.known_font(context.defaults[4])
    width = font.glyphs[unit[0]].width
    return [(count * width + (count - 1) * font.space, unit * count) for count in range(1, most // width + 1)]


def stacked(unit: bytes, height: int, total: int) -> bytes:
    """Lines that are so high together, with gaps between them; nothing where no gaps make it so."""
    for count in range(1, total // height + 1):
        gaps = total - count * height
        if gaps <= 9 * (count - 1):
            each = [min(9, max(0, gaps - 9 * at)) for at in range(count - 1)]
            return unit + b"".join(b"[nl%d]" % gap + unit for gap in each)
    return b""


def touching(context: Context) -> list[Sample]:
    """Two parts of a line, and of a page, that touch, and that overlap by one column or row."""
    face, one = context.described.face, context.character()
    if not one:
        return []
    rows = [
        held for unit in context.characters[:1] + context.characters[-1:] for held in _spread(context, unit, face.width)
    ]
    found = []
    for total in (face.width, face.width + 1):
        pairs = (b"[jl2]" + left + b"[jl4]" + right for a, left in rows for b, right in rows if a + b == total)
        found += list(itertools.islice(pairs, 1))
    height = face.known_font(context.defaults[4]).height
    for total in (face.height, face.height + 1):
        bottom = stacked(one, height, total - height)
        found += [b"[jp2]" + one + b"[jp4]" + bottom] if bottom else []
    return made("room", found, 4)


def mixed(context: Context) -> list[Sample]:
    """Characters of two fonts in turn, up to the edge of the matrix and one more: their spacings are averaged."""
    face, one = context.described.face, context.character()
    fonts = [font for font in face.fonts if font.number != context.defaults[4]]
    found = []
    for font in fonts:
        other = next((bytes([number]) for number in font.glyphs if number < 256 and number not in b"[]"), None)
        if other is None or not one:
            continue
        for turns in (2, 1):
            front = (one + b"[fo%d]" % font.number + other + b"[fo]") * turns
            count = longest(context, one, front=front)
            if count:
                found += [front + one * (count + more) for more in (1, 0)]
    return made("room", found, 1)


def _mixtures(context: Context, font: Font) -> list[tuple[int, bytes]]:
    """Characters of the default's font and of another in turn, begun with either, with their widths."""
    own = context.described.face.known_font(context.defaults[4])
    found: list[tuple[int, bytes]] = []
    other = next((number for number in font.glyphs if number < 256 and number not in b"[]"), None)
    if other is None:
        return []
    for unit in context.characters[:1] + context.characters[-1:]:
        pair = [unit, b"[fo%d]" % font.number + bytes([other]) + b"[fo]"]
        widths = own.glyphs[unit[0]].width + font.glyphs[other].width
        for turns in (1, 2, 3):
            width = turns * widths + (2 * turns - 1) * average(own.space, font.space)
            found += [(width, b"".join(pair) * turns), (width, b"".join(pair[::-1]) * turns)]
    return found


def mixed_parts(context: Context) -> list[Sample]:
    """Two parts of a line that touch, and that overlap by one column, of characters of two fonts in each order."""
    face, found = context.described.face, []
    for font in face.fonts:
        both = _mixtures(context, font) if font.number != context.defaults[4] else []
        rows = [*both, *[held for unit in context.characters[:1] for held in _spread(context, unit, face.width)]]
        for order, total in itertools.product((0, 1), (face.width, face.width + 1)):
            pairs = (left + b"[jl4]" + right for a, left in both[order::2] for b, right in rows if a + b == total)
            found += [b"[jl2]" + text for text in itertools.islice(pairs, 1)]
    return made("room", found, 0)


def _drawing(context: Context) -> list[Font]:
    """The fonts that have a character which a text writes as it is."""
    return [font for font in context.described.face.fonts if unit_of(font)]


def unit_of(font: Font) -> bytes:
    """The first character of a font that a text writes as it is; nothing where there is none."""
    return next((bytes([number]) for number in font.glyphs if number < 256 and number not in b"[]"), b"")


def _units(context: Context) -> list[tuple[int, bytes]]:
    """A character of each font that has one, with the font's height."""
    return [(font.height, b"[fo%d]" % font.number + unit_of(font)) for font in _drawing(context)]


def heights(context: Context) -> list[Sample]:
    """A line of two heights, in each order, above as many others as fit, and one row more."""
    face, found = context.described.face, []
    for (low, lower), (high, higher) in itertools.combinations(sorted(dict(_units(context)).items()), 2):
        for line in (lower + higher, higher + lower):
            front = line + (b"[nl0]" + higher) * (face.height // high - 2)
            texts = [front + b"[nl%d]" % gap + higher for gap in range(10)]
            first = next((at for at, text in enumerate(texts) if context.fault(text) is not None), None)
            if first is not None:
                found += texts[max(0, first - 1) : first + 1]
    return made("room", found, 4)


def edge(context: Context, front: bytes) -> list[bytes]:
    """This text above a last line that stands as low as it may, and above one that stands a row lower."""
    one = context.character()
    for between, count in itertools.product((9, 3, 0), range(8)):
        above = front + (b"[nl%d]" % between + one) * count
        texts = [above + b"[nl%d]" % gap + one for gap in range(10)]
        first = next((at for at, text in enumerate(texts) if context.fault(text) is not None), None)
        if first:
            return texts[first - 1 : first + 1]
    return []


def spacings(context: Context) -> list[Sample]:
    """Lines of one font above lines of another, lines of both, and lines without a character, with the gap of their
    spacings above and below; those of the first two fonts whose average is rounded are looked at first."""
    one, found, first = context.character(), [], 0
    for above, below in _pairs(context):
        for line in (below, above + below, above[:-1]):
            under = one + b"[nl]" + line + b"[nl0][fo]" + one
            found += edge(context, line + b"[nl][fo]" + one) + edge(context, under)
        found += edge(context, above + b"[nl]" + below + b"[nl0][fo]" + one)
        first = first or 2 * len(found)  # the first pair in both orders
    return made("room", found, first)


def _pairs(context: Context) -> list[tuple[bytes, bytes]]:
    """A character of each of two fonts, in each order: first of those the average of whose line spacings is rounded,
    then of those whose spacings differ."""
    units = {font.number: unit for font, (_, unit) in zip(_drawing(context), _units(context))}
    pairs = list(itertools.combinations(_drawing(context), 2))
    pairs.sort(key=lambda pair: ((pair[0].line + pair[1].line) % 2 == 0, pair[0].line == pair[1].line))
    return [(units[a.number], units[b.number]) for pair in pairs for a, b in (pair, pair[::-1])]


def gaps(context: Context) -> list[Sample]:
    """The greatest gap between two lines, and one more."""
    one = context.character()
    for gap in range(10):
        if context.fault(one + b"[nl%d]" % gap + one) is not None:
            return made("room", [one + b"[nl%d]" % (gap + more) + one for more in (-1, 0) if gap + more >= 0], 1)
    return []


def fonts_at_closing(context: Context) -> list[Sample]:
    """A line that is closed without a character in another font, above one of the default's."""
    one, found = context.character(), []
    for font in context.described.face.fonts:
        texts = [b"[fo%d][nl%d][fo]" % (font.number, gap) + one for gap in range(10)]
        first = next((at for at, text in enumerate(texts) if context.fault(text) is not None), None)
        if font.number != context.defaults[4] and first:
            found += [*texts[first - 1 : first + 1], b"[fo%d][nl][fo]" % font.number + one]
    return made("room", found, 0)


def full(context: Context) -> bytes:
    """Lines of one character that fill the matrix; nothing where the text ends first."""
    one = context.character()
    return b"[nl0]".join([one] * longest(context, one, b"[nl0]"))


def closed(context: Context) -> list[Sample]:
    """Lines that fill the matrix, and an open one, which is too much as soon as something closes it."""
    one, lines = context.character(), full(context)
    if not lines:
        return []
    texts = [b"[nl0][np]" + one, b"[nl0][nl0]" + one, b"[nl0]"]
    found = [lines + texts[0], b"[jp2]" + lines + b"[nl0][jp3]", *[lines + text for text in texts[1:]]]
    return made("room", found, 1)

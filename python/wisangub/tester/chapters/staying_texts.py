"""Texts that show whether fonts and justifications stay over lines, parts of a page, and pages."""

import itertools
from typing import Iterator, Sequence

from wisangub.tester.context import Context
from wisangub.tester.sign.described import Font

from .edge_texts import Sample, longest, made, unit_of

_BETWEEN = (b"[nl0]", b"[np]", b"[jp3][jp4]", b"[np][np]")


def _further(unit: bytes) -> tuple[bytes, ...]:
    """What else stands between: each way to begin a line, a page and a part of it, after one that has characters and
    after one that has none, and the second of each."""
    lines = b"[nl0]" + unit
    parts = (b"[jp3]", b"[jp4]", b"[jp4][nl0]")
    return (b"[nl]", b"[nl9]", lines + b"[nl0]", b"[nl]" + unit + b"[nl]", lines + b"[np]", b"[np]" + lines, *parts)


def _sharing(unit: bytes) -> tuple[bytes, ...]:
    """What stands between in texts that fit alone, which share a validation: each gap, each part, the last page."""
    gaps = tuple(unit + b"[nl%d]" % gap for gap in (1, 2, 3, 4, 6))
    parts = tuple(b"[jp%d]" % part + unit + after for part in (3, 4) for after in (b"[nl0]", b"[np]"))
    return (*gaps, *parts, unit + b"[jp3]" + unit + b"[jp4]", b"[np]" * 5)


# tags of which none changes the font, the part of a line or that of a page; and which leave the line as it is
_OTHERS = (b"[cf]", b"[cb]", b"[pb]", b"[fl]", b"[fl][/fl]", b"[pt]")


class _Telling:
    """Texts with what stays, of which another, in which that is lost over what is between, is judged otherwise."""

    def __init__(self, context: Context, lost: bytes) -> None:
        self.context, self.lost = context, lost

    def _is_telling(self, front: bytes, tail: bytes) -> tuple[bool, bool]:
        """Whether the loss shows, and whether the text fits."""
        kept, other = self.context.fault(front + tail), self.context.fault(front + self.lost + tail)
        return kept != (other and (other[0], other[1] - len(self.lost))), kept is None

    def first(self, front: bytes, tails: Sequence[bytes], wanted: Sequence[bool]) -> Iterator[bytes]:
        """The first that fits, the first that does not: those that are wanted."""
        for is_good in wanted:
            found = (front + tail for tail in tails if self._is_telling(front, tail) == (True, is_good))
            yield from itertools.islice(found, 1)

    def both(self, front: bytes, tails: Sequence[bytes]) -> Iterator[bytes]:
        """One that fits, and one that does not."""
        return self.first(front, tails, (True, False))

    def one(self, front: bytes, tails: Sequence[bytes]) -> Iterator[bytes]:
        """One that fits, else one that does not: those that fit share a validation."""
        return itertools.islice(self.both(front, tails), 1)

    def fitting(self, front: bytes, tails: Sequence[bytes]) -> Iterator[bytes]:
        """One that fits."""
        return self.first(front, tails, (True,))


def _only(font: Font, other: Font) -> bytes:
    """A character of a font that another lacks."""
    return next(
        (bytes([one]) for one in font.glyphs if one not in other.glyphs and one < 256 and one not in b"[]"), b""
    )


def _tails(context: Context, font: Font, front: bytes) -> list[bytes]:
    """What comes after a font and what is between: as much as there is room for, and more, and what one font has."""
    one, unit, own = context.character(), unit_of(font), context.described.face.known_font(context.defaults[4])
    count, down = longest(context, unit, front=front), longest(context, unit, b"[nl0]", front=front)
    tails = [unit * (count + more) for more in (0, 1)] if count else []
    tails += [b"[nl0]".join([unit] * (down + more)) for more in (0, 1)] if down else []
    return [*tails, *filter(None, (_only(font, own), one, unit, _only(own, font)))]


def _fonts(context: Context) -> Iterator[bytes]:
    """The first other font over all that may be between, each further one over the usual."""
    one, telling = context.character(), _Telling(context, b"[fo]")
    others = [font for font in context.described.face.fonts if font.number != context.defaults[4] and unit_of(font)]
    for font in others:
        front, unit = b"[fo%d]" % font.number, unit_of(font)
        for between in (*_BETWEEN, b"[jl4]"):
            yield from telling.both(front + between, _tails(context, font, front + between))
            yield from telling.both(front + unit + between, [one, unit])
    for font in others[:1]:
        front, unit = b"[fo%d]" % font.number, unit_of(font)
        begun = [begin + between for between in _further(unit) for begin in (front, front + unit)]
        for begin in (*begun, *(one + front + unit + between for between in (b"[nl0]", b"[np]"))):
            yield from telling.one(begin, _tails(context, font, begin))
        alone = [one + front + between for between in (b"[nl0]", b"[np]", b"[nl]")]
        alone += [b"[fo%d,%04x]" % (font.number, font.version) + between for between in (b"[nl0]", b"[np]")]
        alone += [front + between for between in (*_OTHERS, b"[jl]", b"[jp]")]
        for begin in (*alone, *(front + between for between in _sharing(unit))):
            yield from telling.fitting(begin, _tails(context, font, begin))


def _lowest(context: Context) -> tuple[bytes, bytes]:
    """The tag and a character of the lowest font, which leaves room for lines."""
    fonts = [font for font in context.described.face.fonts if unit_of(font)]
    font = min(fonts, key=lambda font: (font.height, font.number != context.defaults[4]), default=None)
    if font is None or font.number == context.defaults[4]:
        return b"", context.character()
    return b"[fo%d]" % font.number, unit_of(font)


def _lines(context: Context) -> Iterator[bytes]:
    one, telling = context.character(), _Telling(context, b"[jl]")
    for side, between in itertools.product((2, 3, 4), _BETWEEN):
        tails = [one + b"[jl%d]" % other + one for other in (2, 3, 4)]
        yield from telling.both(b"[jl%d]" % side + between, tails)
    front, unit = _lowest(context)
    across = longest(context, unit, front=front)
    tails = [unit + b"[jl%d]" % other + unit for other in (2, 3, 4)]
    halves = [(unit * left, unit * (across - left)) for left in (1, across // 2)]
    tails += [left + b"[jl%d]" % other + right for other in (2, 3, 4) for left, right in halves]
    for side, between in itertools.product((2, 3, 4), _further(unit)):
        yield from telling.one(front + b"[jl%d]" % side + between, tails)
    for side, between in itertools.product((2, 3, 4), _sharing(unit)):
        yield from telling.fitting(front + b"[jl%d]" % side + between, tails)
    yield from _behind(context, front, unit, tails)


def _behind(context: Context, front: bytes, unit: bytes, tails: list[bytes]) -> Iterator[bytes]:
    """A part of a line that is named behind a character of another part, and before tags that change no part; and what
    does not begin in the part of the line's first character."""
    sides, ends = [b"[jl%d]" % side for side in (2, 3, 4)], (b"[nl0]", b"[np]")
    telling, first = _Telling(context, b"[jl]"), _Telling(context, b"[jl2]")
    for side, between in itertools.product(sides, ends):
        yield from telling.fitting(front + unit + side + between, tails)
    for between in (*_OTHERS, b"[fo]"):
        found = (text for side in sides for text in telling.fitting(front + side + between, tails))
        yield from itertools.islice(found, 1)
    for between in ends:
        yield from first.one(front + b"[jl2]" + unit + b"[jl4]" + unit + between, tails)


def _pages(context: Context) -> Iterator[bytes]:
    one, telling = context.character(), _Telling(context, b"[jp]")
    for part, between in itertools.product((2, 3, 4), (b"[np]", b"[nl0]")):
        tails = [one + b"[jp%d]" % other + one for other in (2, 3, 4)]
        yield from telling.both(b"[jp%d]" % part + between, tails)
    front, unit = _lowest(context)
    tails = [unit + b"[jp%d]" % other + unit for other in (2, 3, 4)]
    tags = [b"[jp%d]" % part for part in (2, 3, 4)]
    for tag, between in itertools.product(tags, (b"[nl]", b"[np][np]", unit + b"[np]", b"[jl4]")):
        yield from telling.one(front + tag + between, tails)
    for first, second in itertools.combinations(tags, 2):
        yield from telling.one(front + first + unit + second + unit + b"[np]", tails)
    for tag, between in itertools.product(tags, (unit + b"[nl1]", unit + b"[nl0]" + unit + b"[nl0]", b"[np]" * 5)):
        yield from telling.fitting(front + tag + between, tails)


def staying(context: Context) -> list[Sample]:
    """Fonts and justifications over a line, a part and a page, where their loss shows."""
    fonts, lines, pages = list(_fonts(context)), list(_lines(context)), list(_pages(context))
    found = made("room", fonts, len(fonts))
    return found + made("line parts", lines, len(lines)) + made("page parts", pages, len(pages))

"""How high a font's characters are, and how far apart its lines."""

import itertools
from dataclasses import dataclass
from typing import Callable, Iterator, Sequence

from .fonts import MOST_SIDE, Found
from .lines import Page, PageFrame, average, gaps
from .narrowing import Test, narrow
from .validations import Validations

_Heights = tuple[int, int]  # a height and a line spacing


@dataclass
class Heights:
    """The heights and line spacings of fonts on a matrix of so many rows."""

    validations: Validations
    room: int

    def find(self, fonts: Sequence[Found]) -> None:
        """Those of each font; by other fonts where the font alone does not tell them. What stays open is noted."""
        left = {font.number: self._possible(font) for font in fonts}
        for font in fonts:
            self._narrow(font, left, list(self._alone(font, left[font.number])))
        for _ in range(2):
            for font in fonts:
                others = [other for other in fonts if other.is_high and other is not font]
                if not font.is_high:
                    self._narrow(font, left, [test for other in others for test in self._beside(font, other)])
        for font in fonts:
            self._note(font, left[font.number])

    def _narrow(self, font: Found, left: dict[int, list[_Heights]], tests: list[Test[_Heights]]) -> None:
        left[font.number] = narrow(self.validations, left[font.number], tests, PageFrame)
        font.height, font.line = _plausible(left[font.number])
        font.is_high = len(left[font.number]) == 1

    def _possible(self, font: Found) -> list[_Heights]:
        """The heights of which so many lines find room, and every spacing."""
        heights = [
            height
            for height in range(1, MOST_SIDE + 1)
            if font.lines * height <= self.room and (font.lines + 1) * height > self.room
        ]
        return [(height, line) for height in heights for line in range(MOST_SIDE + 1)]

    def _alone(self, font: Found, possible: Sequence[_Heights]) -> Iterator[Test[_Heights]]:
        """Pages of lines of this font alone, some of their gaps the font's own."""
        character = (font.number, font.reference)
        least = min(height for height, _ in possible)
        for count in sorted({2, font.lines // 2, font.lines - 1, font.lines}):
            for own in range(min(2, count - 1) + 1):
                for total in range(max(0, self.room - count * least) + 1):
                    between = gaps(total, count - 1 - own)
                    if between is None or count < 2:
                        continue
                    every: list[int | None] = [0, *[None] * own, *between]
                    page = Page(tuple((character, gap) for gap in every))
                    yield Test(page, self._fits_alone(count, own, total))

    def _fits_alone(self, count: int, own: int, total: int) -> Callable[[_Heights], bool]:
        return lambda held: count * held[0] + own * held[1] + total <= self.room

    def _beside(self, font: Found, other: Found) -> Iterator[Test[_Heights]]:
        """Pages of lines of this font above lines of one whose height is known; at most one of the gaps is the fonts'
        own, the first in this font or that between both."""
        mine, theirs = (font.number, font.reference), (other.number, other.reference)
        least = self.room // (font.lines + 1) + 1
        for count, more in itertools.product(sorted({1, 2, font.lines}), range(1, self.room // other.height + 1)):
            for own in {None, 0 if count > 1 else None, count - 1}:
                most = self.room - count * least - more * other.height
                for total in range(max(0, most) + 1):
                    between = gaps(total, count + more - 1 - (own is not None))
                    if between is None:
                        continue
                    every: list[int | None] = [*between]
                    if own is not None:
                        every.insert(own, None)
                    page = Page(tuple(zip([mine] * count + [theirs] * more, [0, *every])))
                    line = other.line if own == count - 1 else None
                    yield Test(page, self._fits_beside(count, more * other.height + total, own is not None, line))

    def _fits_beside(self, count: int, more: int, is_own: bool, line: int | None) -> Callable[[_Heights], bool]:
        def fits(held: _Heights) -> bool:
            own = 0 if not is_own else held[1] if line is None else average(held[1], line)
            return count * held[0] + own + more <= self.room

        return fits

    def _note(self, font: Found, left: Sequence[_Heights]) -> None:
        """What texts do not tell."""
        heights, lines = sorted({held[0] for held in left}), sorted({held[1] for held in left})
        if len(heights) > 1:
            font.notes.append(
                f"height: {heights[0]} to {heights[-1]} are alike to every text; set it by the maker's word"
            )
        if len(lines) > 1:
            font.notes.append(f"line: {lines[0]} to {lines[-1]} are alike to every text; set it by the maker's word")


def _plausible(left: Sequence[_Heights]) -> _Heights:
    """Of what is alike, lines that are a row or two apart."""
    return min(left, key=lambda held: (abs(held[1] - (1 if held[0] < 9 else 2)), held))

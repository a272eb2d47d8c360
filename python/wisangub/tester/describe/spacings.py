"""How far apart a font's characters stand: lines of two of its characters, in one part or in two, or beside a font that
is known."""

import itertools
from dataclasses import dataclass, field
from typing import Callable, Iterator, Sequence

from .fillers import Fillers
from .fonts import MOST_SIDE, Found
from .lines import Line, LineFrame, average
from .narrowing import Test, narrow
from .validations import Validations

_Single = tuple[int, int]  # a spacing, and the width of the reference character
_Double = tuple[int, int, int]  # and the width of a second one
_Both = tuple[_Single, _Single]  # of two fonts
_OTHERS = tuple(map(ord, "!i.lI1M:'W| ")), 3  # what is often of another width, and how many of these are tried
_MOST_COUNT = 48  # of a character in a line


@dataclass
class Spacings:
    """The spacings of fonts, whose heights are known or bounded, on a matrix of so many columns."""

    validations: Validations
    width: int
    frame: Callable[[], LineFrame]
    fillers: Fillers
    left: dict[int, list[_Single]] = field(default_factory=dict)

    def begin(self, fonts: Sequence[Found]) -> None:
        """The spacing of the first font that tells it by itself; where none does, of two together."""
        self.left = {font.number: self._possible(font) for font in fonts}
        for font in fonts:
            self._by_second(font)
            if font.is_spaced:
                return
        for font, other in itertools.combinations(fonts, 2):
            if not font.is_spaced and not other.is_spaced:
                self._by_pair(font, other)

    def find(self, font: Found) -> None:
        """The spacing of a font and the width of its reference character; what stays open is noted."""
        if not font.is_spaced:
            left = self.left[font.number]
            self.left[font.number] = narrow(self.validations, left, list(self._beside(font)), self.frame)
        self._settle(font)
        left = self.left[font.number]
        spaces = sorted({space for space, _ in left})
        if len(spaces) > 1:
            font.notes.append(
                f"space: {spaces[0]} to {spaces[-1]} are alike to every text, each with characters so much narrower or "
                "wider; set both by the maker's word"
            )
        columns = sorted(width for space, width in left if space == font.space)
        if len(columns) > 1:
            font.notes.append(
                f"widths: they hang on character {font.reference}, for which {columns[0]} to {columns[-1]} columns are "
                "alike to every text; set them by the maker's word"
            )

    def _possible(self, font: Found) -> list[_Single]:
        """What is possible where so many of the reference character find room in a line."""
        count = font.repeated
        return [
            (space, width)
            for space in range(MOST_SIDE + 1)
            for width in range(1, MOST_SIDE + 1)
            if self._is_in(count * width + (count - 1) * space) and not self._is_in((count + 1) * width + count * space)
        ]

    def _is_in(self, columns: int) -> bool:
        return columns <= self.width

    def _settle(self, font: Found) -> None:
        left = self.left[font.number]
        font.space, font.widths[font.reference] = _plausible(font, left)
        font.is_spaced = len(left) == 1
        self.fillers.add(font)

    # --- a font alone ----------------------------------------------------------------------------------------

    def _by_second(self, font: Found) -> None:
        """By two characters of the font, of which one is wider than the other."""
        likely, most = _OTHERS
        seconds = [held for held in likely if held in font.characters and held != font.reference]
        for second in seconds[:most]:
            possible = [(*held, width) for held in self.left[font.number] for width in range(1, MOST_SIDE + 1)]
            found = narrow(self.validations, possible, list(self._two(font, second)), self.frame)
            self.left[font.number] = sorted({(space, width) for space, width, _ in found})
            if len(found) == 1:
                font.widths[second] = found[0][2]
                self._settle(font)
                return

    def _two(self, font: Found, second: int) -> Iterator[Test[_Double]]:
        """Lines of both characters, in one part, in a left and a right one, and in a left and a centred one."""
        wide, other = (font.number, font.reference), (font.number, second)
        most = font.repeated + 1
        for first in sorted({0, 1, 2, 3, most // 2, most - 2, most - 1, most}):
            for count in range(_MOST_COUNT + 1):
                held = (wide,) * max(0, first) + (other,) * count
                if first < 0 or len(held) < 2 or len(held) > 3 * most + 8:
                    continue
                yield Test(Line(held), self._fits_two(first, count, len(held) - 1))
                if count:
                    yield Test(Line(held[:-1], right=held[-1:]), self._fits_two(first, count, len(held) - 2))
                if count and first:  # what is left of a centred part finds room where it does twice
                    yield Test(Line(held[:1], held[1:]), self._fits_two(first + 1, count, len(held) - 2))

    def _fits_two(self, firsts: int, seconds: int, gaps: int) -> Callable[[_Double], bool]:
        """Whether so many of both characters and of gaps between them take no more than the matrix has."""
        room = self.width
        return lambda held: gaps * held[0] + firsts * held[1] + seconds * held[2] <= room

    # --- beside others ---------------------------------------------------------------------------------------

    def _beside(self, font: Found) -> Iterator[Test[_Single]]:
        """A character or two at the left, and at the right a part whose width is known."""
        character = (font.number, font.reference)
        for count in sorted({1, 2, 3, font.repeated}):
            for columns in range(self.width + 1):
                filler = self.fillers.part(columns, font.number)
                if filler is not None:
                    yield Test(Line((character,) * count, right=filler), self._fits_beside(count, columns))

    def _fits_beside(self, count: int, columns: int) -> Callable[[_Single], bool]:
        return lambda held: count * held[1] + (count - 1) * held[0] + columns <= self.width

    def _by_pair(self, font: Found, other: Found) -> None:
        """Two fonts that are not known alone, each with characters of one width."""
        left = self.left
        possible = [(mine, theirs) for mine in left[font.number] for theirs in left[other.number]]
        found = narrow(self.validations, possible, list(self._pairs(font, other)), self.frame)
        left[font.number] = sorted({mine for mine, _ in found})
        left[other.number] = sorted({theirs for _, theirs in found})
        font.is_spaced, other.is_spaced = len(left[font.number]) == 1, len(left[other.number]) == 1

    def _pairs(self, font: Found, other: Found) -> Iterator[Test[_Both]]:
        mine, theirs = (font.number, font.reference), (other.number, other.reference)
        for first in range(1, font.repeated + 1):
            for second in range(1, other.repeated + 1):
                apart, together = self._fits_pair(first, second, False), self._fits_pair(first, second, True)
                yield Test(Line((mine,) * first, right=(theirs,) * second), apart)
                yield Test(Line((mine,) * first + (theirs,) * second), together)

    def _fits_pair(self, first: int, second: int, is_together: bool) -> Callable[[_Both], bool]:
        def fits(held: _Both) -> bool:
            (space, width), (other_space, other_width) = held
            between = average(space, other_space) if is_together else 0
            sizes = first * width + (first - 1) * space + second * other_width + (second - 1) * other_space
            return sizes + between <= self.width

        return fits


def _plausible(font: Found, left: Sequence[_Single]) -> _Single:
    """Of what is alike, characters that stand a column or two apart."""
    return min(left, key=lambda held: (abs(held[0] - (1 if font.height < 12 else 2)), held))

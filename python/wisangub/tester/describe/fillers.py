"""Parts of a line whose width is known, to fill a line up with."""

from dataclasses import dataclass, field

from .fonts import Found
from .lines import Char, spelled

_Chain = dict[int, tuple[int, int]]  # columns: in how few octets, and the last character


@dataclass
class Fillers:
    """Fillers of fonts whose spacings are known, up to so many columns: the shortest of each width."""

    width: int
    fonts: dict[int, Found] = field(default_factory=dict)
    _chains: dict[int, tuple[int, _Chain]] = field(default_factory=dict)

    def add(self, font: Found) -> None:
        """A font's spacing is known, and the widths of some of its characters."""
        self.fonts[font.number] = font

    def pitches(self, number: int) -> _Chain:
        """For each sum of widths with their spacings: the octets of the shortest text, and its last character."""
        font = self.fonts[number]
        known, chain = self._chains.get(number, (0, {}))
        if known == len(font.widths):
            return chain
        chain = {0: (0, 0)}
        steps = sorted({width + font.space: held for held, width in sorted(font.widths.items(), reverse=True)}.items())
        for columns in range(1, self.width + font.space + 40):
            ways = [
                (chain[columns - step][0] + len(spelled(held)), held) for step, held in steps if columns - step in chain
            ]
            if ways:
                chain[columns] = min(ways)
        self._chains[number] = (len(font.widths), chain)
        return chain

    def pitched(self, number: int, columns: int) -> tuple[Char, ...] | None:
        """Characters of a font that take so many columns, each with a spacing after it."""
        font, chain = self.fonts[number], self.pitches(number)
        found: list[Char] = []
        while columns > 0:
            if columns not in chain:
                return None
            _, character = chain[columns]
            found.append((number, character))
            columns -= font.widths[character] + font.space
        return tuple(found)

    def part(self, columns: int, without: int) -> tuple[Char, ...] | None:
        """A part so wide, of any known font but one; nothing for no columns, None where there is none."""
        if columns == 0:
            return ()
        found = [
            filler
            for number, font in self.fonts.items()
            if number != without
            and font.is_spaced
            and (filler := self.pitched(number, columns + font.space)) is not None
        ]
        return min(found, key=len) if found else None

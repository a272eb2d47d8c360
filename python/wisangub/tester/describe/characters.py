"""Which characters a font has: texts of characters, of which the first that is missing is told."""

from dataclasses import dataclass
from typing import Sequence

from .fonts import MOST_CHARACTERS, Found
from .lines import MOST_PAGES, MOST_TEXT, spelled
from .validations import NO_CHARACTER, NO_FONT, SYNTAX, TOO_BIG, Unlike, Validations

PRINTABLE = range(32, 127)
# of others, what a sign of some country or maker has first: arrows, a dot, letters of Latin-1, the degree, the euro
PROBES = (1, 8, 128, 176, 196, 201, 228, 233)
_FIRST = b"0AE1SNaOR8e"  # characters that fonts have most often
_TAG = (3, 4)  # faults of a tag that the sign does not take


@dataclass
class Characters:
    """The characters of the fonts of a sign whose matrix has this size."""

    validations: Validations
    width: int
    height: int

    def begin(self, font: Found, candidates: Sequence[int]) -> bool:
        """Whether there is such a font; then its first of these characters, and how often that finds room in a line and
        in a column. A font that has none of them is noted to be so."""
        likely = [held for held in _FIRST if held in candidates]
        for character in [*likely, *(held for held in candidates if held not in likely)]:
            if character in font.missing:
                continue
            found = self._row(font.number, character)
            if found == 0:
                font.missing.add(character)
                continue
            if found is None:
                return False
            font.reference, font.repeated = character, found
            font.characters = [character]
            font.lines = self._column(font.number, character)
            return True
        font.notes.append("all: it has none of the characters that were asked for; --characters names others")
        return True

    def _row(self, number: int, character: int) -> int | None:
        """How many of a character find room in a line: 0 where the font lacks it, None where there is no such font."""
        head, unit = b"[jp2][jl2][fo%d]" % number, spelled(character)
        count = min(self.width + 1, (MOST_TEXT - len(head)) // len(unit))
        verdict = self.validations.ask(head + count * unit)
        if verdict.is_fit:
            return count
        if verdict.error != SYNTAX or verdict.code not in (TOO_BIG, NO_FONT, NO_CHARACTER, *_TAG):
            raise Unlike(f"a text of the characters {character} of font {number} has the fault {verdict.code}")
        if verdict.code == NO_FONT:
            return None
        return (verdict.at - len(head)) // len(unit) if verdict.code == TOO_BIG else 0

    def _column(self, number: int, character: int) -> int:
        """How many lines of a character find room on a page."""
        head, unit = b"[jp2][jl2][fo%d]" % number, spelled(character)
        between = b"[nl0]"
        count = min(self.height + 1, (MOST_TEXT - len(head)) // len(unit + between))
        verdict = self.validations.ask(head + between.join([unit] * count))
        if verdict.is_fit:
            return count
        if verdict.error != SYNTAX or verdict.code != TOO_BIG:
            raise Unlike(f"lines of the character {character} of font {number} have the fault {verdict.code}")
        return max(1, (max(0, verdict.at - len(head)) + len(between)) // len(unit + between))

    def find(self, font: Found, candidates: Sequence[int]) -> None:
        """Which of these the font has too."""
        left = [held for held in candidates if held not in font.missing and held not in font.characters]
        a_line = max(1, font.repeated * 3 // 4)
        while left and len(font.characters) < MOST_CHARACTERS:
            text, starts = self._text(font, left, a_line)
            verdict = self.validations.ask(text)
            if verdict.is_fit:
                font.characters += left[: len(starts)]
                left = left[len(starts) :]
                continue
            at = max((at for at, start in enumerate(starts) if start <= verdict.at), default=0)
            font.characters += left[:at]
            if verdict.code == TOO_BIG:  # it is there, since a character that is missing is told first
                font.characters.append(left[at])
                a_line = max(1, min(a_line - 1, at))
            elif verdict.code in (NO_CHARACTER, *_TAG):
                font.missing.add(left[at])
            else:
                raise Unlike(f"a text of characters of font {font.number} has the fault {verdict.code}: {text!r}")
            left = left[at + 1 :]
        font.characters.sort()

    def probe(self, font: Found, probes: Sequence[int], candidates: Sequence[int]) -> None:
        """Looks for these; where one is there, for the others of the same block of 32 too."""
        self.find(font, [held for held in probes if held not in candidates])
        blocks = {held // 32 for held in font.characters if held in probes}
        for block in sorted(blocks):
            self.find(font, [held for held in range(32 * block, 32 * block + 32) if held and held not in candidates])

    def _text(self, font: Found, candidates: Sequence[int], a_line: int) -> tuple[bytes, list[int]]:
        """A text of as many of the candidates as find room, and where each of them begins."""
        text, starts = b"[jp2][jl2][fo%d]" % font.number, []
        for at, character in enumerate(candidates):
            line, column = divmod(at, a_line)
            page, row = divmod(line, font.lines)
            before = b"" if column or not line else b"[nl0]" if row else b"[np]"
            if page == MOST_PAGES or len(text) + len(before) + len(spelled(character)) > MOST_TEXT:
                break
            starts.append(len(text + before))
            text += before + spelled(character)
        return text, starts

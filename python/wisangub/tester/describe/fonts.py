"""What is found of a font, and what is left open."""

from dataclasses import dataclass, field

MOST_FONTS, MOST_CHARACTERS, MOST_SIDE = 4, 255, 32  # of a description; columns and rows of a character


@dataclass
class Found:
    """A font of the sign. Heights, widths and spacings are columns and rows of the matrix; `lines` is how many lines
    of it find room, `repeated` how often its `reference` character does in a line."""

    number: int
    height: int = 1
    space: int = 1
    line: int = 1
    version: int | None = None
    widths: dict[int, int] = field(default_factory=dict)
    bitmaps: dict[int, bytes] = field(default_factory=dict)
    characters: list[int] = field(default_factory=list)  # those that it has, in order
    missing: set[int] = field(default_factory=set)
    reference: int = 0
    repeated: int = 0
    lines: int = 0
    is_spaced: bool = False  # whether its spacing is known
    is_high: bool = False  # whether its height and its line spacing are known
    notes: list[str] = field(default_factory=list)

    def most_height(self, room: int) -> int:
        """Rows that a line of it takes at most."""
        return self.height if self.is_high else min(MOST_SIDE, room // max(1, self.lines))

"""The objects of a sign's fonts, which are read alone: numFonts, fontTable, characterTable and the limits of fonts."""

from collections.abc import Iterator

from . import layout, wire
from .objects import DMS

_PERMANENT = 6  # a fontStatus
_MOST_CHARACTERS, _MOST_OCTETS = 255, 128  # of a font, and of a picture


def bitmap(glyph: layout.Glyph) -> bytes:
    """The bits of a picture, row by row, eight at a time."""
    bits = "".join("01"[is_lit] for row in glyph[1] for is_lit in row)
    return bytes(int(bits[at : at + 8].ljust(8, "0"), 2) for at in range(0, len(bits), 8))


class FontObjects:
    """All of them, by their names, which never change."""

    def __init__(self, face: layout.Face) -> None:
        self.values = {DMS + (3, *name): value for name, value in _values(face.fonts)}

    def value(self, name: wire.Name) -> wire.Tagged | None:
        """What one reads; None where there is none of this name."""
        return self.values.get(name)

    def after(self, name: wire.Name) -> wire.Name | None:
        """The first name that stands behind this one; None behind the last."""
        return min((other for other in self.values if other > name), default=None)


def _values(fonts: list[layout.Font]) -> Iterator[tuple[wire.Name, wire.Tagged]]:
    """Each name below dms.3, and what it reads."""
    yield (1, 0), (wire.INTEGER, len(fonts))
    yield (3, 0), (wire.INTEGER, _MOST_CHARACTERS)
    yield (5, 0), (wire.INTEGER, _MOST_OCTETS)
    for i, font in enumerate(fonts, 1):
        numbers = {1: i, 2: font.number, 4: font.height, 5: font.space, 6: font.line, 7: font.version, 8: _PERMANENT}
        yield (2, 1, 3, i), (wire.OCTETS, b"")
        yield from (((2, 1, column, i), (wire.INTEGER, number)) for column, number in numbers.items())
        for n, glyph in font.glyphs.items():
            yield (4, 1, 1, i, n), (wire.INTEGER, n)
            yield (4, 1, 2, i, n), (wire.INTEGER, glyph[0])
            yield (4, 1, 3, i, n), (wire.OCTETS, bitmap(glyph))

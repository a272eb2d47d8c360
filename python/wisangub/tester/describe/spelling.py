"""The description that was found, as a text, with a comment at each line that was not found so."""

from collections.abc import Iterator

from .fonts import MOST_FONTS, Found
from .reading import MOST_CHANGEABLE, MOST_COLUMNS, MOST_LINES, MOST_VOLATILE, Read

_BLANKS = (32, 160)  # characters without a lit cell
_UNKNOWN_VERSION = 1


def spelled(
    read: Read, communities: tuple[bytes, bytes], has: tuple[int, int], fonts: list[Found], head: list[str]
) -> str:
    """The whole description. `head` says how it was made."""
    lines = [f"# {line}" for line in head]
    lines += _kept("size", (read.width, MOST_COLUMNS), (read.height, MOST_LINES))
    lines.append("# communities: as given to `describe`; no object tells them")
    lines.append(" ".join(["communities", *(held.decode("latin-1") for held in communities)]))
    lines += _kept("rows", (read.changeable, MOST_CHANGEABLE), (read.volatile, MOST_VOLATILE))
    if not read.order:
        lines.append("# order: no checksum of the sign tells it; ask its maker (high or swapped)")
    lines.append(f"order {read.order or 'high'}")
    lines.append(f"has {has[0]} {has[1]}")
    lines.append(" ".join(["defaults", *map(str, read.defaults)]))
    lines.append("# first: of your central system, the number of its next request; no sign tells it")
    lines.append("first 1")
    for held in read.permanent:
        lines.append(f"permanent {_octets(held.text)} {_octets(held.owner)} {held.beacon} {held.pixel} {held.priority}")
    for font in fonts[:MOST_FONTS]:
        lines += _font(font)
    return "\n".join([*lines, "end", ""])


def _kept(word: str, *held: tuple[int, int]) -> list[str]:
    """Numbers, each with the most that a description takes; what is above it is a comment."""
    above = [number for number, most in held if number > most]
    comment = [f"# {word}: the sign says {' '.join(str(number) for number, _ in held)}"] if above else []
    return [*comment, " ".join([word, *(str(min(number, most)) for number, most in held)])]


def _font(font: Found) -> Iterator[str]:
    yield from (f"# font {font.number}, {note}" for note in font.notes)
    if font.version is None:
        yield f"# font {font.number}, version: texts do not tell it; ask the maker of the sign"
    version = _UNKNOWN_VERSION if font.version is None else font.version
    head = f"font {font.number} height {font.height} space {font.space} line {font.line} version {version:04x}"
    drawn = [held for held in font.characters if held in font.widths and held not in font.bitmaps]
    if drawn:
        yield f"# font {font.number}, pictures: texts do not tell them; these are blocks of the characters' widths"
    yield head
    for character in font.characters:
        if character in font.widths:
            width = font.widths[character]
            bitmap = font.bitmaps.get(character) or block(width, font.height, character not in _BLANKS)
            yield f"glyph {character} {width} {bitmap.hex()}"


def block(width: int, height: int, is_lit: bool) -> bytes:
    """The picture of a character of which every cell is lit, or none."""
    cells = width * height
    octets = (cells + 7) // 8
    return ((((1 << cells) - 1) << (8 * octets - cells)) if is_lit else 0).to_bytes(octets, "big")


def _octets(held: bytes) -> str:
    return held.hex() or "-"

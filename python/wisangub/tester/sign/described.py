"""The sign that a description describes: its matrix and fonts, its communities, its rows and permanent messages.

Whether a description is in order the program decides; what is read here is taken as it stands.
"""

import pathlib
from dataclasses import dataclass, field


class Bad(Exception):
    """No sign is made of a description: by its words, `line N` or another refusal of the program."""


@dataclass(frozen=True)
class Glyph:
    """A character's picture: its columns, and whether any of its cells is lit."""

    width: int
    is_lit: bool


@dataclass
class Font:
    """A font: height and spacings are rows and columns of the matrix."""

    number: int
    height: int
    space: int
    line: int
    version: int
    glyphs: dict[int, Glyph] = field(default_factory=dict)


@dataclass(frozen=True)
class Face:
    """What texts are laid out for: columns, rows, fonts, and the defaults in the order of the objects 4.1 to 4.9."""

    width: int
    height: int
    fonts: list[Font]
    defaults: tuple[int, ...]

    def known_font(self, number: int) -> Font:
        """The font of this number, which there is."""
        return next(font for font in self.fonts if font.number == number)


@dataclass(frozen=True)
class Message:
    """A message that the sign is made with."""

    text: bytes
    owner: bytes
    beacon: int
    pixel: int
    priority: int


@dataclass(frozen=True)
class Description:
    """A sign as it is made: `changeable` and `volatile` are counts of rows."""

    face: Face
    reader: bytes
    writer: bytes
    swapped: bool
    beacons: bool
    pixels: bool
    permanent: list[Message]
    changeable: int
    volatile: int


_FORMS = {
    b"size": "size WIDTH HEIGHT",
    b"communities": "communities READER WRITER",
    b"rows": "rows CHANGEABLE VOLATILE",
    b"order": "order high, or order swapped",
    b"has": "has BEACONS PIXELS, each 0 or 1",
    b"defaults": "defaults and the nine values of defaultBackgroundColor to defaultPageOffTime",
    b"first": "first N",
    b"permanent": "permanent TEXT OWNER BEACON PIXEL PRIORITY, texts and owners as octets",
    b"font": "font N height H space C line L version V",
    b"glyph": "glyph CHARACTER WIDTH OCTETS, in a font",
    b"end": "end",
}


def cause(path: pathlib.Path, fault: Bad) -> str:
    """What stands in the line at fault, and what a line of its keyword is; nothing where no line is named."""
    word, _, number = str(fault).partition(" ")
    if word != "line" or not number.isdecimal():
        return ""
    lines = path.read_bytes().split(b"\n")
    line = lines[int(number) - 1] if int(number) <= len(lines) else b""
    if not line:
        return ": the description ends, or has an empty line, where another line is due"
    if line == b"end":
        return ": each line is as it should be, and the sign is none: a font, row, text, default or size is at fault"
    form = _FORMS.get(line.split(b" ")[0])
    shown = line[:60].decode("ascii", "backslashreplace")
    said = f"such a line is: {form}" if form else f"no line begins so, but with {', '.join(map(bytes.decode, _FORMS))}"
    return f": {shown!r}; {said}, and in the order of docs/PROFILE.md"


def _octets(word: bytes) -> bytes:
    return b"" if word == b"-" else bytes.fromhex(word.decode())


def _font(words: list[bytes]) -> Font:
    number, height, space, line = (int(words[at]) for at in (0, 2, 4, 6))
    return Font(number, height, space, line, int(words[8], 16))


def _glyph(words: list[bytes], height: int) -> tuple[int, Glyph]:
    character, width, held = int(words[0]), int(words[1]), _octets(words[2])
    cells = int.from_bytes(held, "big") >> 8 * len(held) - width * height
    return character, Glyph(width, cells != 0)


def _lines(description: bytes) -> list[tuple[bytes, list[bytes]]]:
    """The first word of each line and the others; comments are none."""
    lines = (line.removesuffix(b"\r") for line in description.split(b"\n"))
    words = [line.split(b" ") for line in lines if line and not line.startswith(b"#")]
    return [(first, rest) for first, *rest in words]


def ended(description: bytes) -> tuple[bytes, str]:
    """A description up to its line `end`, as a co-process is handed it; and where it ends otherwise, at which line."""
    lines = [line.removesuffix(b"\r") for line in description.split(b"\n")]
    if not lines[-1]:
        lines.pop()
    end = lines.index(b"end") if b"end" in lines else len(lines)
    after = [at for at, line in enumerate(lines) if at > end and line and not line.startswith(b"#")]
    wrong = f"line {after[0] + 1}" if after else f"line {end + 1}" if end == len(lines) else ""
    return b"\n".join([*lines[:end], b"end\n"]), wrong


def described(description: bytes) -> Description:
    """The sign of a description that is in order."""
    lines = _lines(description)
    held = dict(lines)
    fonts: list[Font] = []
    for keyword, words in lines:
        if keyword == b"font":
            fonts.append(_font(words))
        elif keyword == b"glyph":
            number, glyph = _glyph(words, fonts[-1].height)
            fonts[-1].glyphs[number] = glyph
    permanent = [
        Message(_octets(text), _octets(owner), *map(int, numbers))
        for keyword, (text, owner, *numbers) in (
            (keyword, words) for keyword, words in lines if keyword == b"permanent"
        )
    ]
    width, height = map(int, held[b"size"])
    changeable, volatile = map(int, held[b"rows"])
    beacons, pixels = (word == b"1" for word in held[b"has"])
    face = Face(width, height, fonts, tuple(map(int, held[b"defaults"])))
    reader, writer = held[b"communities"]
    swapped = held[b"order"] == [b"swapped"]
    return Description(face, reader, writer, swapped, beacons, pixels, permanent, changeable, volatile)

"""What a sign is made with, for the pages: its matrix, fonts, rows and permanent messages, from its description."""

import functools
from dataclasses import dataclass

from wisangub.process.coprocess import CoProcess
from wisangub.room.fleet import Sign, kind_of
from wisangub.snmp.names import Memory


@dataclass(frozen=True)
class Permanent:
    """A message that the sign is made with."""

    number: int
    text: bytes
    owner: bytes
    priority: int


@dataclass(frozen=True)
class Face:
    """`key` is the kind of the signs that have it, and tells faces apart in addresses of pictures."""

    key: str
    text: bytes
    width: int
    height: int
    fonts: tuple[tuple[int, int], ...]
    has_beacon: bool
    has_pixel: bool
    rows: tuple[int, int]
    permanent: tuple[Permanent, ...]
    writer: bytes

    def most(self, memory: int) -> int:
        """How many rows the memory has."""
        return self.rows[0] if memory == Memory.CHANGEABLE else self.rows[1] if memory == Memory.VOLATILE else 0


def _octets_of(word: bytes) -> bytes:
    """Octets as a description has them: pairs of digits, or `-` for none."""
    return b"" if word == b"-" else bytes.fromhex(word.decode())


def _lines_of(text: bytes) -> dict[bytes, list[list[bytes]]]:
    """The words of a description's lines, by their first word; comments are none."""
    found: dict[bytes, list[list[bytes]]] = {}
    for line in text.replace(b"\r\n", b"\n").split(b"\n"):
        if line and not line.startswith(b"#"):
            keyword, *words = line.split(b" ")
            found.setdefault(keyword, []).append(words)
    return found


@functools.lru_cache(maxsize=256)
def _face_of_text(text: bytes) -> Face:
    """The face of a description that is in order."""
    lines = _lines_of(text)
    width, height = map(int, lines[b"size"][0])
    beacons, pixels = lines[b"has"][0]
    changeable, volatile = map(int, lines[b"rows"][0])
    permanent = tuple(
        Permanent(number, _octets_of(words[0]), _octets_of(words[1]), int(words[4]))
        for number, words in enumerate(lines.get(b"permanent", []), 1)
    )
    return Face(
        kind_of(text),
        text,
        width,
        height,
        tuple(sorted((int(words[0]), int(words[2])) for words in lines.get(b"font", []))),
        int(beacons) == 1,
        int(pixels) == 1,
        (changeable, volatile),
        permanent,
        lines[b"communities"][0][1],
    )


def face_of(sign: Sign) -> Face:
    """A sign's face."""
    return _face_of_text(sign.text)


def check(sign: Sign, program: str) -> None:
    """Refuses a description that the program takes for none."""
    centre = CoProcess(program, ["centre"], sign.text)
    try:
        centre.begin(b"status last", sign.name)
    finally:
        centre.end()


def faces_of(signs: dict[int, Sign], program: str) -> dict[int, Face]:
    """The signs' faces; refused where a description is none."""
    seen: set[bytes] = set()
    for sign in signs.values():
        if sign.text not in seen:
            check(sign, program)
        seen.add(sign.text)
    return {sign_id: face_of(sign) for sign_id, sign in signs.items()}

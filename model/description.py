"""What a sign is made of: its face, its communities, its rows; and whether a sign is made of it."""

from dataclasses import dataclass

from . import layout
from .codes import checksum

NOT_USED, MODIFYING, VALIDATING, VALID, ERROR = 1, 2, 3, 4, 5


@dataclass
class Row:
    """A row of the message table."""

    text: bytes = b""
    owner: bytes = b""
    beacon: int = 0
    pixel: int = 0
    priority: int = 1
    status: int = NOT_USED

    def crc(self) -> int:
        """Its checksum, 0 where it is not valid."""
        return checksum(self.text, self.beacon, self.pixel) if self.status == VALID else 0


@dataclass
class Description:
    """All that a sign is made of, and the number of its centre's first request."""

    face: layout.Face
    reader: bytes
    writer: bytes
    swapped: bool
    beacons: bool
    pixels: bool
    permanent: list[Row]
    changeable: int
    volatile: int
    first: int


def is_refused(described: Description) -> bool:
    """Whether no sign is made of it: its face, its communities or its table are not in order."""
    face = described.face
    names = [font.number for font in face.fonts]
    if not (
        1 <= face.width <= 256 and 1 <= face.height <= 64 and 1 <= len(names) <= 4 and len(set(names)) == len(names)
    ):
        return True
    if not face.takes(face.defaults):
        return True
    communities = (described.reader, described.writer)
    if any(not 1 <= len(community) <= 32 for community in communities) or communities[0] == communities[1]:
        return True
    if len(described.permanent) > 16 or described.changeable > 64 or described.volatile > 16:
        return True
    for row in described.permanent:
        if (
            len(row.text) > 512
            or len(row.owner) > 127
            or row.beacon > described.beacons
            or row.pixel > described.pixels
            or not row.priority
        ):
            return True
        if layout.laid_out(face, face.defaults, row.text)[1]:
            return True
    return False

"""The pictures of docs/CONTROL.md: drawn anew, of the pages as they are, and those that are kept look like them."""

import pathlib
import re
import struct

from wisangub.process.places import TOP

from . import needs

needs.modules("aiohttp", "jinja2", "selenium")
needs.programs("chromium", "chromedriver")

from .pictures import MOST, taken

PAGE = TOP / "docs/CONTROL.md"
NEAR = 0.2  # the part of a picture's height that other fonts may change


def size(path: pathlib.Path) -> tuple[int, int]:
    """The width and the height of a PNG."""
    octets = path.read_bytes()
    assert octets[:8] == b"\x89PNG\r\n\x1a\n" and octets[12:16] == b"IHDR", path
    width, height = struct.unpack(">II", octets[16:24])
    return int(width), int(height)


def test_pictures_are_of_the_pages_as_they_are(tmp_path: pathlib.Path) -> None:
    shown = set(re.findall(r"\(pictures/(room-[\w-]+\.png)\)", PAGE.read_text(encoding="utf-8").replace("\n", "")))
    made = taken(tmp_path)
    assert {path.name for path in made} == shown == {path.name for path in (TOP / "docs/pictures").glob("room-*")}
    for path in made:
        kept = TOP / "docs/pictures" / path.name
        assert path.stat().st_size < MOST and kept.stat().st_size < MOST
        (width, height), (kept_width, kept_height) = size(path), size(kept)
        assert width == kept_width and abs(height - kept_height) <= NEAR * kept_height, path.name

"""Looks at the program's pictures with a browser: `trials/picture.sh [--program PATH] [--keep FOLDER]` prints `N
passed, N failed`.

    python3 -m trials.picture --read [--program PATH]      without a browser

Each picture of `signtool pages --svg` is drawn by headless Chromium at some moments. The middle of each lamp must have
the colour that the text's cell has then: a page is up for its time, a flash begins with its first time where the page
comes up (model lays the text out). With --keep the pictures stay as PNG files; docs/ has two of them. With --read the
document's own paths and animations are read, at each tenth of its first twenty seconds. A document that docs/pictures
has, too, must be what the program prints.
"""

import argparse
import functools
import pathlib
import re
import struct
import subprocess
import sys
import tempfile
import xml.etree.ElementTree
import zlib
from collections.abc import Iterator

from model import layout, text
from wisangub.process.places import SIGNTOOL, program

TOP = pathlib.Path(__file__).resolve().parent.parent
_SHADES = ["#000000", "#ff0000", "#ffff00", "#00ff00", "#00ffff", "#0000ff", "#ff00ff", "#ffffff", "#ff8000", "#ffbf00"]
_LAMP = 8
_READ_TENTHS = 200

# what the file is called, the sign, the text, the page alone or none, and the moments in tenths of a second
_PICTURES = [
    (
        "accident",
        "roadside",
        "[pt25o0][fo2][pb1][cf7][flt6o4]ACCIDENT[/fl][nl]AFTER 1 KM[np][pb5][cf2]LEFT LANE[nl]CLOSED",
        None,
        [2, 7, 27],
    ),
    ("lanes", "gantry", "[fo3][cf9]RIGHT LANE[nl][fo2]CLOSED 800 m[nl3][fo1][cf7]MERGE LEFT", None, [0]),
    ("fog", "roadside", "[pt20o5][fo2][flt5o5]FOG[/fl] AHEAD[np][fo1]SLOW DOWN[nl]MAX 60", None, [2, 7, 27]),
    ("alone", "roadside", "[pt20o5][fo2][flt5o5]FOG[/fl] AHEAD[np][fo1]SLOW DOWN[nl]MAX 60", 1, [0, 7]),
    ("timeless", "roadside", "[pt0o0][fl][cf3]FOG AHEAD[np][cf9]SLOW [flt2o3]DOWN[/fl] [flo1t0]NOW", None, [0, 2, 7]),
    ("one-timeless", "roadside", "[pt0o0][flt2o3]FOG[/fl] AHEAD [flt0o0]NOW", None, [0, 2, 7]),
    ("no-lit-time", "roadside", "[pt0o5]FOG[np][pt0o0]SLOW", None, [0, 3]),
    ("colours", "gantry", "[pb5][cf2]A[cf3]B[cf4]C[nl][flo3t7][cf1]D[/fl][cf6]E[cf8]F", None, [1, 5]),
]


def _pixels(path: pathlib.Path) -> Iterator[list[bytes]]:
    """The rows of a PNG file's pixels, each pixel as three octets."""
    octets = path.read_bytes()
    at, data = 8, b""
    while at < len(octets):
        size, kind = struct.unpack(">I4s", octets[at : at + 8])
        if kind == b"IHDR":
            width, height, depth, colours, _, _, interlaced = struct.unpack(">IIBBBBB", octets[at + 8 : at + 21])
        elif kind == b"IDAT":
            data += octets[at + 8 : at + 8 + size]
        at += 12 + size
    if depth != 8 or colours not in (2, 6) or interlaced:
        raise ValueError("a PNG of another kind")
    channels = 3 if colours == 2 else 4
    stride = width * channels
    raw, before = zlib.decompress(data), bytearray(stride)
    for y in range(height):
        kind, row = raw[y * (stride + 1)], bytearray(raw[y * (stride + 1) + 1 : (y + 1) * (stride + 1)])
        for x in range(stride):
            left = row[x - channels] if x >= channels else 0
            corner = before[x - channels] if x >= channels else 0
            row[x] = (row[x] + _predicted(kind, left, before[x], corner)) & 255
        before = row
        yield [bytes(row[x : x + 3]) for x in range(0, stride, channels)]


def _predicted(kind: int, left: int, above: int, corner: int) -> int:
    """What a PNG filter takes a sample for."""
    if kind == 4:
        guess = left + above - corner
        return min((left, above, corner), key=lambda sample: abs(guess - sample))
    return [0, left, above, (left + above) // 2][kind]


def wanted(face: layout.Face, pages: list[layout.Page], alone: int | None, tenth: int) -> list[list[str]]:
    """The shade of each lamp at a moment."""
    dark = [[_SHADES[0]] * face.width for _ in range(face.height)]
    page, since = up(pages, tenth) if alone is None else (pages[alone - 1], None)
    if page is None:
        return dark
    rows = []
    for row in layout.cells(face, page):
        shades = [page.back if cell is None or not is_lit(cell[1], since) else cell[0] for cell in row]
        rows.append([_SHADES[shade] for shade in shades])
    return rows


def up(pages: list[layout.Page], tenth: int) -> tuple[layout.Page | None, int]:
    """The page that is up, and for how long it has been. A message of one page without an off time stays, and so do
    pages without any time, the last above the others."""
    total = sum(page.on + page.off for page in pages)
    if total == 0 or (len(pages) == 1 and pages[0].off == 0):
        return pages[-1], tenth
    tenth %= total
    for page in pages:
        if tenth < page.on:
            return page, tenth
        tenth -= page.on
        if tenth < page.off:
            return None, 0
        tenth -= page.off
    raise AssertionError


def is_lit(flash: layout.Flash | None, since: int | None) -> bool:
    if flash is None or since is None:
        return True
    first, lit, dark = flash
    if lit + dark == 0:
        return True
    at = since % (lit + dark)
    return at < lit if first == "lit" else dark <= at


def _is_shown(element: xml.etree.ElementTree.Element, tenth: int) -> bool:
    """Whether an element is to be seen: its animation, if it has one, has a value for each tenth of a second."""
    animation = element.find("{*}animate")
    if animation is None:
        return True
    values = animation.attrib["values"].split(";")
    assert animation.attrib["dur"] == f"{len(values) // 10}.{len(values) % 10}s", animation.attrib
    return values[tenth % len(values)] == "1"


@functools.cache
def _lamps(path: str) -> list[tuple[int, int]]:
    """The lamps that a path draws: dots, or dashed lines over whole rows."""
    found = re.findall(r"M(\d+) (\d+)h(\d+)", path)
    return [(column, int(y)) for x, y, more in found for column in range(int(x), int(x) + int(more) + 1)]


def read(svg: xml.etree.ElementTree.Element, tenth: int, face: layout.Face) -> list[list[str]]:
    """The shade of each lamp in a document at a moment."""
    rows = [[""] * face.width for _ in range(face.height)]
    for part in svg:
        for path in (part, *part) if _is_shown(part, tenth) else ():
            if path.tag.endswith("path") and path.get("stroke") != "none" and _is_shown(path, tenth):
                for x, y in _lamps(path.attrib["d"]):
                    rows[y][x] = path.attrib["stroke"]
    return rows


def shot(svg: str, tenth: int, face: layout.Face, folder: pathlib.Path, name: str) -> pathlib.Path:
    """The picture at the middle of a tenth of a second."""
    page = folder / f"{name}.html"
    page.write_text(
        f"<body style='margin:0'>{svg}<script>const svg = document.querySelector('svg'); "
        "svg.style.display = 'block'; svg.pauseAnimations(); "
        f"svg.setCurrentTime({tenth / 10 + 0.05});</script>",
        encoding="ascii",
    )
    png = folder / f"{name}.png"
    size = f"{_LAMP * (face.width + 1)},{_LAMP * (face.height + 1)}"
    subprocess.run(
        [
            "chromium",
            "--headless",
            "--no-sandbox",
            "--disable-gpu",
            "--hide-scrollbars",
            "--force-device-scale-factor=1",
            f"--window-size={size}",
            f"--screenshot={png}",
            page.as_uri(),
        ],
        check=True,
        capture_output=True,
        timeout=120,
    )
    page.unlink()
    return png


def _compare(rows: list[list[bytes]], shades: list[list[str]]) -> int:
    """How many lamps have another colour in their middle."""
    wrong = 0
    for y, row in enumerate(shades):
        line = rows[(y + 1) * _LAMP]
        wrong += sum(line[(x + 1) * _LAMP] != bytes.fromhex(shade[1:]) for x, shade in enumerate(row))
    return wrong


def _document(program: str, sign: bytes, shown: str, alone: int | None) -> str:
    call = ["pages", "--sign", "--svg", *([] if alone is None else ["--page", str(alone)]), "--", shown]
    ended = subprocess.run([program, *call], input=sign, capture_output=True, timeout=60, check=True)
    return ended.stdout.decode("ascii")


def main() -> int:
    parser = argparse.ArgumentParser(description=__doc__, formatter_class=argparse.RawDescriptionHelpFormatter)
    parser.add_argument(
        "--program", type=program, default=str(SIGNTOOL), help="the program signtool, as tools/build.py makes it"
    )
    parser.add_argument("--keep", help="a folder for the PNG files")
    parser.add_argument("--read", action="store_true", help="without a browser")
    asked = parser.parse_args()
    passed = failed = 0
    with tempfile.TemporaryDirectory() as temporary:
        folder = pathlib.Path(asked.keep or temporary)
        for name, sign, shown, alone, moments in _PICTURES:
            description = (TOP / "signs" / f"{sign}.sign").read_bytes()
            face = text.World(text.described(description)).sign.state.face
            pages, _ = layout.laid_out(face, face.defaults, shown.encode())
            assert pages is not None
            svg = _document(asked.program, description, shown, alone)
            parts = xml.etree.ElementTree.fromstring(svg)
            if len(svg) >= 400_000:
                print(f"{name}: the document has {len(svg)} octets")
                failed += 1
            kept = TOP / f"docs/pictures/{name}.svg"
            if kept.is_file() and kept.read_text(encoding="ascii") != svg:
                print(f"{name}: the program prints another document than {kept} is")
                failed += 1
            for tenth in range(_READ_TENTHS) if asked.read else moments:
                shades = wanted(face, pages, alone, tenth)
                if asked.read:
                    wrong = sum(
                        one != other for rows in zip(read(parts, tenth, face), shades) for one, other in zip(*rows)
                    )
                else:
                    wrong = _compare(list(_pixels(shot(svg, tenth, face, folder, f"{name}-{tenth}"))), shades)
                passed, failed = (passed, failed + 1) if wrong else (passed + 1, failed)
                if wrong:
                    print(f"{name} at {tenth} tenths: {wrong} lamps have another colour")
    print(f"{passed} passed, {failed} failed")
    return 1 if failed else 0


if __name__ == "__main__":
    sys.exit(main())

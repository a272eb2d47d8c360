"""The picture of what is shown: the program's, where its pages are those of the live sign; else one that is drawn from
the lines of `show`."""

import re
import subprocess
import threading
from dataclasses import dataclass
from xml.sax.saxutils import quoteattr

from wisangub.endpoint.lack import MOST_TEXT, spelled
from wisangub.endpoint.text_of_picture import with_text
from wisangub.process import description

WAIT = 20.0  # seconds for a call of the program
DEFAULTS = re.compile(rb"^defaults [0-9 ]+", re.MULTILINE)
SHADES = ("#000000", "#ff0000", "#ffff00", "#00ff00", "#00ffff", "#0000ff", "#ff00ff", "#ffffff", "#ff8000", "#ffbf00")
PLATE = "#202020"
STILL = b' data-still="yes"'  # of the model's picture: what is drawn here is no less, and says what it is
GAP = 2  # rows between two pages that are drawn one below the other
Lines = tuple[bytes, ...]


@dataclass(frozen=True)
class Picture:
    """A document of SVG, and whether the program drew it."""

    svg: bytes
    is_of_program: bool


class Lamps:
    """Draws what is shown on the sign of a description; the last picture is kept. Threads wait for one another."""

    def __init__(self, program: str, text: bytes | None) -> None:
        self.program, self.text = program, text or description.BENCH
        self.lock = threading.Lock()
        self.key: object = None
        self.picture = Picture(b"", False)

    def of(self, text: bytes, lines: Lines, defaults: tuple[int, ...] | None) -> Picture:
        """The picture of a text whose pages are these lines of `show`, under its defaults where they are known."""
        with self.lock:
            if self.key != (text, lines, defaults):
                svg = self.by_program(text, lines, defaults)
                self.picture = Picture(with_text(svg or by_lines(lines), text), svg is not None)
                self.key = (text, lines, defaults)
            return self.picture

    def by_program(self, text: bytes, lines: Lines, defaults: tuple[int, ...] | None) -> bytes | None:
        """The program's picture; None where it has none, or where its pages are others than those that are shown."""
        word, _ = spelled(text)
        if len(word) > MOST_TEXT:
            return None
        sign = self.text if defaults is None else with_defaults(self.text, defaults)
        said = called([self.program.encode(), b"pages", b"--sign", b"--", word], sign)
        if said is None or tuple(said.splitlines()) != lines:
            return None
        svg = called([self.program.encode(), b"pages", b"--sign", b"--svg", b"--", word], sign)
        return None if svg is not None and STILL in svg else svg


def with_defaults(text: bytes, defaults: tuple[int, ...]) -> bytes:
    """A description with other defaults."""
    return DEFAULTS.sub(b"defaults " + b" ".join(b"%d" % number for number in defaults), text, count=1)


def called(words: list[bytes], text: bytes) -> bytes | None:
    """What a call of the program prints; None where it is refused."""
    try:
        ended = subprocess.run(words, input=text, capture_output=True, timeout=WAIT, check=False)
    except (OSError, subprocess.TimeoutExpired):
        return None
    return ended.stdout if ended.returncode == 0 else None


def pages_of(lines: Lines) -> list[tuple[int, list[str]]]:
    """Each page's background, and the rows of its cells."""
    pages: list[tuple[int, list[str]]] = []
    for line in lines:
        if line.startswith(b"page "):
            pages.append((int(line.split(b" ")[-1]), []))
        elif pages:
            pages[-1][1].append(line.decode("ascii"))
    return pages


def by_lines(lines: Lines) -> bytes:
    """Pages one below the other, in which nothing moves."""
    pages = pages_of(lines)
    width = max((len(row) for _, rows in pages for row in rows), default=1)
    height = max((len(rows) for _, rows in pages), default=1)
    whole = len(pages) * (height + 1 + GAP) - GAP
    paths = "".join(of_page(page, at * (height + 1 + GAP), width) for at, page in enumerate(pages))
    title = f"<title>A message sign of {width} by {height} lamps</title>"
    box = quoteattr(f"-1 -1 {width + 1} {whole}")
    return (
        f'<svg xmlns="http://www.w3.org/2000/svg" viewBox={box} fill="none" stroke-linecap="round" stroke-width="0.8">'
        f"{title}{paths}</svg>"
    ).encode("ascii")


def of_page(page: tuple[int, list[str]], top: int, width: int) -> str:
    """A plate, and the lamps of a page above it: those of one colour are one path."""
    back, rows = page
    dots: dict[int, str] = {}
    for y, row in enumerate(rows):
        for x, cell in enumerate(row):
            shade = back if cell == "." else int(cell)
            dots[shade] = dots.get(shade, "") + f"M{x} {top + y}h0"
    plate = f'<path fill="{PLATE}" d="M-1 {top - 1}h{width + 1}v{len(rows) + 1}h-{width + 1}z"/>'
    return plate + "".join(f'<path stroke="{SHADES[shade]}" d="{path}"/>' for shade, path in dots.items())

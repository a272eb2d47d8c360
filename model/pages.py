"""The pages of a text on a sign, as `signtool pages` prints them, or as a picture in which nothing moves: the model in
the program's place, where a page of the control room draws texts.

    model/signtool pages [--sign] [--svg] [--page N] [--] TEXT

With --sign a description comes first, up to its line `end`; else the sign is the bench sign. With --svg pages stand one
below the other, and what flashes is lit. A text that is refused ends with 1 and `fault CODE at OCTET`.
"""

import argparse
import os
from collections.abc import Callable

from . import layout
from .description import Description
from .layout import Face, Page

_COLOURS = (
    *("#000000", "#ff0000", "#ffff00", "#00ff00", "#00ffff"),
    *("#0000ff", "#ff00ff", "#ffffff", "#ff8000", "#ffbf00"),
)
_PLATE, _GAP = "#202020", 3  # what lamps stand on; the rows from one page's last lamps to the next one's first


def _row(colour: int, places: list[tuple[int, int]]) -> str:
    """The lamps of a colour as one path."""
    return f'<path stroke="{_COLOURS[colour]}" d="{"".join(f"M{x} {y}h0" for x, y in places)}"/>'


def _lamps(face: Face, page: Page, top: int) -> str:
    """A page's plate, and its lamps above it."""
    found: dict[int, list[tuple[int, int]]] = {}
    for y, row in enumerate(layout.cells(face, page)):
        for x, cell in enumerate(row):
            found.setdefault(page.back if cell is None else cell[0], []).append((x, top + y))
    plate = f'<path fill="{_PLATE}" d="M-1 {top - 1}h{face.width + 1}v{face.height + 1}h-{face.width + 1}z"/>'
    return plate + "".join(_row(colour, places) for colour, places in sorted(found.items()))


def picture(face: Face, pages: list[Page]) -> str:
    """A document of SVG."""
    every = face.height + _GAP
    box = f"-1 -1 {face.width + 1} {len(pages) * every - _GAP + 1}"
    lamps = "\n".join(_lamps(face, page, at * every) for at, page in enumerate(pages))
    head = f'<svg xmlns="http://www.w3.org/2000/svg" viewBox="{box}" role="img" fill="none"'
    title = f"<title>A message sign of {face.width} by {face.height} lamps</title>"
    return f'{head} stroke-linecap="round" stroke-width="0.8" data-still="yes">\n{title}\n{lamps}\n</svg>'


def main(words: list[str], described: Callable[[bool], Description], say: Callable[..., None]) -> int:
    """The call with these words; `described` reads the description, and `say` prints lines."""
    parser = argparse.ArgumentParser(description=__doc__, formatter_class=argparse.RawDescriptionHelpFormatter)
    parser.add_argument("--sign", action="store_true", help="a description comes first")
    parser.add_argument("--svg", action="store_true", help="a picture")
    parser.add_argument("--page", type=int, metavar="N", help="this page alone, from 1 on")
    parser.add_argument("text", metavar="TEXT", help="of MULTI")
    asked = parser.parse_args(words)
    face = described(asked.sign).face
    pages, fault = layout.laid_out(face, face.defaults, os.fsencode(asked.text))
    if pages is None:
        assert fault is not None
        say("fault {} at {}".format(*fault))
        return 1
    if asked.page is not None and not 1 <= asked.page <= len(pages):
        say("no such page")
        return 1
    first, last = (0, len(pages)) if asked.page is None else (asked.page - 1, asked.page)
    every = 1 + face.height  # lines of a page
    lines = layout.drawn(face, pages)[every * first : every * last]
    say(*([picture(face, pages[first:last])] if asked.svg else lines))
    return 0

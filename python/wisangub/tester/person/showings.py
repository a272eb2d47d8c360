"""What is shown to a person, one thing at a time: pages, fonts, colours, flashes and the beacon."""

from dataclasses import dataclass
from typing import Iterator

from wisangub.tester.context import Context
from wisangub.tester.requests.texts import tags_of
from wisangub.tester.sign.described import Font

_COLOURS = ("black", "red", "yellow", "green", "cyan", "blue", "magenta", "white", "orange", "amber")
_MOST_PAGES = 8  # of a font's characters, after which another text has the rest


@dataclass(frozen=True)
class Showing:
    """A text, what is to be asked of it, and whether the beacon goes with it."""

    name: str
    text: bytes
    question: str
    beacon: int = 0


def showings(context: Context) -> list[Showing]:
    """All that is shown, of what the sign claims to take; nothing where it has no row or no character that fits."""
    one = context.character()
    if not context.rows or not one:
        return []
    found = [Showing("a text", one, "Does the sign show this?"), *_pages(context)]
    for font in context.described.face.fonts:
        found += _characters(context, font)
    for number, colour in list(enumerate(_COLOURS))[1:]:
        found.append(Showing(f"colour {number}", b"[pb0][cf%d]" % number + one, f"Is this {colour}, on black?"))
        found.append(Showing(f"background {number}", b"[pb%d][cf0]" % number + one, f"Is this black, on {colour}?"))
    found.append(Showing("flashing", b"[fl]" + one + b"[/fl]", "Does this flash?"))
    if context.described.beacons:
        found.append(Showing("the beacon", one, "Does the beacon go with this?", 1))
    return [held for held in found if not tags_of(held.text) & context.claims.tags and context.fault(held.text) is None]


def _pages(context: Context) -> Iterator[Showing]:
    """Two pages, of which the second is to be told from the first by its place where the sign takes that."""
    forms = (b"[jp2][jl2]%s[np][jp4][jl4]%s", b"[jl2]%s[np][jl4]%s", b"%s[np]%s")
    texts = [form.replace(b"%s", context.character()) for form in forms]
    for text in [text for text in texts if not tags_of(text) & context.claims.tags][:1]:
        yield Showing("pages", text, "Do these pages come one after the other, over and over?")


def _characters(context: Context, font: Font) -> Iterator[Showing]:
    """Each character of a font that fits, as many as a page has room for, in texts of some pages."""
    front = b"[fo%d,%04x]" % (font.number, font.version)
    pages: list[bytes] = []

    def made() -> Showing:
        text = front + b"[np]".join(pages)
        return Showing(f"font {font.number}", text, "Are these the characters of this font, page after page?")

    for number in sorted(number for number in font.glyphs if number < 256):
        one = bytes([number]) * (2 if number in b"[]" else 1)
        if context.fault(front + one) is not None:
            continue
        if pages and context.fault(front + pages[-1] + one) is None:
            pages[-1] += one
            continue
        if len(pages) == _MOST_PAGES or context.fault(front + b"[np]".join([*pages, one])) is not None:
            yield made()
            pages = []
        pages.append(one)
    if pages:
        yield made()

"""The look of the pages: contrast as WCAG 2.2 counts it, and nothing inline."""

import pathlib
import re

import pytest

from wisangub.process.places import TOP

WEB = TOP / "python/wisangub/room/web"
STYLE = (WEB / "static/room.css").read_text()
TEXT, LARGE = 4.5, 3.0  # ratios of AA: of texts, and of parts of controls
# what stands on what: a name or a colour of the style
TEXTS = [
    (ink, ground)
    for ground in ("ground", "panel", "field")
    for ink in ("text", "soft", "link", "good", "bad", "wait", "busy", "amber")
] + [
    ("on-amber", "amber"),
    ("on-amber", "#ffd07a"),
    ("text", "#2a323b"),
    ("soft", "#2a323b"),
    ("#2a0500", "bad"),
    ("#06192c", "busy"),
    ("good", "#1c4a2d"),
]
EDGES = [("edge", ground) for ground in ("ground", "panel", "field")] + [
    ("amber", ground) for ground in ("ground", "panel", "field")
]


def colour(name: str) -> str:
    """The digits of a colour."""
    if name.startswith("#"):
        return name[1:]
    found = re.search(rf"--{name}: #([0-9a-f]{{6}});", STYLE)
    assert found is not None, name
    return found[1]


def luminance(digits: str) -> float:
    """The relative luminance of WCAG."""
    parts = [int(digits[at : at + 2], 16) / 255 for at in (0, 2, 4)]
    red, green, blue = (one / 12.92 if one <= 0.04045 else ((one + 0.055) / 1.055) ** 2.4 for one in parts)
    return 0.2126 * red + 0.7152 * green + 0.0722 * blue


def ratio(one: str, other: str) -> float:
    high, low = sorted((luminance(colour(one)), luminance(colour(other))), reverse=True)
    return (high + 0.05) / (low + 0.05)


def test_a_ratio_is_that_of_the_formula() -> None:
    assert round(ratio("#000000", "#ffffff"), 2) == 21.0 and round(ratio("#777777", "#ffffff"), 2) == 4.48


@pytest.mark.parametrize(("ink", "ground"), TEXTS)
def test_texts_are_legible(ink: str, ground: str) -> None:
    assert ratio(ink, ground) >= TEXT, f"{ink} on {ground}: {ratio(ink, ground):.2f}"


@pytest.mark.parametrize(("edge", "ground"), EDGES)
def test_edges_of_controls_are_seen(edge: str, ground: str) -> None:
    assert ratio(edge, ground) >= LARGE, f"{edge} on {ground}: {ratio(edge, ground):.2f}"


def test_every_colour_is_one_that_is_looked_at() -> None:
    """Colours that stand in rules are names, or pairs of the lists above."""
    rules = STYLE[STYLE.index("}") :]
    known = {name.lower() for pair in TEXTS + EDGES for name in pair if name.startswith("#")}
    plain = {"#000", "#fff"}  # behind pictures, and on paper
    assert {found.lower() for found in re.findall(r"#[0-9a-fA-F]{3,6}\b", rules)} <= known | plain


def templates() -> list[pathlib.Path]:
    return sorted((WEB / "templates").glob("*.html"))


@pytest.mark.parametrize("path", templates(), ids=lambda path: path.name)
def test_nothing_is_inline_or_unescaped(path: pathlib.Path) -> None:
    text = path.read_text()
    assert not re.search(r"<script(?! src=\"/static/)", text) and "<style" not in text
    assert not re.search(r"\s(style|on[a-z]+)=", text) and "| safe" not in text and "autoescape" not in text
    assert not re.search(r"(src|href|action)=\"(https?:)?//", text), "nothing comes from elsewhere"


def test_scripts_write_no_markup_of_their_own() -> None:
    for path in (WEB / "static").glob("*.js"):
        text = path.read_text()
        assert "eval(" not in text and "document.write" not in text and "Function(" not in text
        assert text.count("innerHTML") == (1 if path.name == "room.js" else 0), "the service's own parts alone"


def test_every_field_has_a_label() -> None:
    for path in templates():
        for found in re.finditer(r"<(input|select|textarea)\b[^>]*>", path.read_text()):
            tag, before = found[0], path.read_text()[: found.start()]
            is_labelled = before.rfind("<label") > before.rfind("</label") or "aria-label=" in tag
            named = re.search(r'id="(\w+)"', tag)
            is_for = named is not None and f'for="{named[1]}"' in path.read_text()
            assert 'type="hidden"' in tag or is_labelled or is_for, (path.name, tag)

"""Contrast as WCAG 2.2 counts it (AA), of each text of each page, by the colours that a browser computed."""

import json
import pathlib
from dataclasses import dataclass

from . import needs

needs.modules("aiohttp", "jinja2", "selenium")
needs.programs("chromium", "chromedriver")

from .browser import Browser, until
from .standing import in_trouble, standing
from .test_pages import PAGES, where_of
from .test_style import TEXT, luminance

SCRIPT = (pathlib.Path(__file__).parent / "contrast.js").read_text()
LARGE, LARGE_TEXT, LARGE_BOLD = 3.0, 24.0, 18.66  # the ratio for large texts, and from how many pixels they are
# what has colours of its own, each of which some page has to show
MARKS = (
    ".tag.good",
    ".tag.bad",
    ".tag.wait",
    ".tag.busy",
    ".tag.lit",
    ".steps li.done",
    ".steps li.now",
    ".steps li.failed",
    ".steps li.left",
    ".steps li.none",
    "mark",
    ".alert",
    ".field-fault",
    ".bad-word",
    ".facts",
    ".role",
    ".step-word",
    ".lamps .none",
    "button.main",
    "button.quiet",
    ".tabs a[aria-current]",
    ".log li.to",
    ".log li.from",
    ".marked",
    "button[aria-pressed=true]",
    "#nothing:not([hidden])",
)


@dataclass
class Looked:
    """A browser, and what it saw: the pairs of colours of texts with a place of each, and the marks."""

    one: Browser
    pairs: dict[str, str]
    marks: set[str]

    def look(self, what: str) -> None:
        found = self.one.driver.execute_script(SCRIPT)
        assert found, what
        self.pairs |= {key: f"{what}: {words}" for key, words in found}
        self.marks |= {mark for mark in MARKS if self.one.all(mark)}


def ratio(one: list[int], other: list[int]) -> float:
    high, low = sorted((luminance("".join(f"{part:02x}" for part in colour)) for colour in (one, other)), reverse=True)
    return (high + 0.05) / (low + 0.05)


def forms(looked: Looked, signs: str) -> None:
    """Forms that are not in order, as a script and as the service says it."""
    one = looked.one
    one.get(f"/compose?{signs}")
    one.find("#text").send_keys("FOG[fo9]")
    until(lambda: one.all("#looks mark"), "the fault is marked")
    looked.look("a fault as it is written")
    one.script("document.getElementById('purpose').value = ''; document.getElementById('run').value = '0'")
    one.script("document.getElementById('compose').noValidate = true")
    one.click("#check")
    until(lambda: one.all(".field-fault"), "the fields' faults")
    looked.look("faults of a form")
    one.get("/")
    one.find("#find").send_keys("no sign is named so")
    one.click("#still")
    looked.look("the wall, where nothing is found")


def test_each_text_is_legible(tmp_path: pathlib.Path) -> None:
    with standing(tmp_path) as (made, url), Browser(url) as one:
        looked = Looked(one, {}, set())
        one.get("/login")
        looked.look("/login")
        one.find("[name=name]").send_keys("nobody")
        one.find("[name=password]").send_keys("a wrong password")
        one.click("button.main")
        until(lambda: one.all(".alert"), "the log-in is refused")
        looked.look("a log-in that is refused")
        one.log_in("administrator")
        for change in (lambda: None, lambda: in_trouble(made)):
            change()
            for path in (*PAGES, "/signs/999"):
                one.get(where_of(made, path))
                looked.look(path)
        forms(looked, f"sign={made.one}&sign={made.gantry}")
    assert looked.marks == set(MARKS), set(MARKS) - looked.marks
    found = []
    for key, words in looked.pairs.items():
        ink, ground, size, weight = json.loads(key)
        is_large = size >= LARGE_TEXT or size >= LARGE_BOLD and weight >= 700
        if ratio(ink, ground) < (LARGE if is_large else TEXT):
            found.append(f"{words}: {ink} on {ground}, {ratio(ink, ground):.2f}")
    assert not found and len(looked.pairs) > 20, "\n".join(found)

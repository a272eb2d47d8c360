"""Pages on a small screen: the picture first, and nothing cut at the right; and small pictures that are bright."""

import pathlib

from . import needs

needs.modules("aiohttp", "jinja2", "selenium")
needs.programs("chromium", "chromedriver")

from .browser import Browser, until
from .standing import in_trouble, standing
from .test_pages import PAGES, where_of

PHONE = (360, 740)
# how far what is seen goes beyond what it stands in, at most
CUT = """
let most = document.documentElement.scrollWidth - innerWidth;
for (const one of document.querySelectorAll("main, .scroll, .panel, td, tbody th, input[placeholder]")) {
  most = Math.max(most, one.scrollWidth - one.clientWidth);
}
return most;
"""
# the greatest of the colours of the pixels of a picture, as it is shown
BRIGHT = """
const image = document.querySelector(arguments[0]), board = document.createElement("canvas");
board.width = image.clientWidth; board.height = image.clientHeight;
const pen = board.getContext("2d");
pen.filter = getComputedStyle(image).filter;
pen.drawImage(image, 0, 0, board.width, board.height);
const held = pen.getImageData(0, 0, board.width, board.height).data, found = [];
for (let at = 0; at < held.length; at += 4) found.push(held[at]);
return found.sort((a, b) => b - a)[Math.floor(found.length / 200)];
"""


def top_of(one: Browser, selector: str) -> float:
    """How far down it begins, in pixels."""
    found = one.script("return document.querySelector(arguments[0]).getBoundingClientRect().top", selector)
    assert isinstance(found, (int, float)), selector
    return found


def test_on_a_phone(tmp_path: pathlib.Path) -> None:
    with standing(tmp_path) as (bench, url), Browser(url, *PHONE) as one:
        in_trouble(bench)
        one.log_in("administrator")
        for path in PAGES:
            one.get(where_of(bench, path))
            until(lambda: one.script("return document.readyState") == "complete", path)
            cut = one.script(CUT)
            assert isinstance(cut, int) and cut <= 1, (path, cut)
        one.get(f"/signs/{bench.one}")
        assert top_of(one, "#shown .lamps") < top_of(one, ".tabs") < top_of(one, "#commands")
        assert top_of(one, "#shown .lamps") < PHONE[1] / 2
        one.get(f"/compose?sign={bench.one}&text=1")
        assert top_of(one, "#looks") < top_of(one, "#text")
        one.get("/")
        assert top_of(one, ".card .lamps") < PHONE[1] / 2
        assert one.script("return getComputedStyle(document.querySelector('.acts')).display") == "none"
        one.click(".card input[type=checkbox]")
        assert one.script("return getComputedStyle(document.querySelector('.acts')).position") == "fixed"
        one.get("/history")
        label = "return getComputedStyle(document.querySelector('td[data-label]'), '::before').content"
        assert "When" in str(one.script(label))


def test_small_pictures_of_wide_signs_are_bright(tmp_path: pathlib.Path) -> None:
    with standing(tmp_path) as (bench, url), Browser(url) as one:
        bench.read(bench.gantry, -9, text=b"[fo2]ROAD WORK AHEAD".hex())
        one.log_in("operator")
        assert bench.service.faces[bench.gantry].width == 256
        for path, picture in (
            (f"/signs/{bench.gantry}/shown", ".small-picture img"),
            (f"/blank?sign={bench.gantry}", ".before img"),
            ("/", f"#sign-{bench.gantry} img"),
        ):
            one.get(path)
            until(lambda: one.script(f"return document.querySelector('{picture}').complete"), path)
            until(lambda: int(str(one.script(BRIGHT, picture))) >= 200, f"{path} is bright")


def test_compose_finds_among_many_signs(tmp_path: pathlib.Path) -> None:
    with standing(tmp_path) as (bench, url), Browser(url) as one:
        one.log_in("operator")
        one.get(f"/compose?sign={bench.two}")
        one.script("document.querySelector('#narrowing').hidden = false")
        one.click("summary")
        one.find("#narrow").send_keys("GANT")
        seen = [item.text for item in one.all("#choice li") if item.is_displayed()]
        assert seen == ["<b>two</b>", "gantry"], "what is chosen stays"
        assert one.text("#found") == "1 of 3 signs"
        one.find("#narrow").send_keys("\n")
        assert "/compose" in one.driver.current_url and one.find("#narrow").is_displayed()

"""Headless Chromium for tests that look at pages, and the lamps that it draws."""

import shutil
import time
from typing import Callable

from selenium import webdriver
from selenium.common.exceptions import StaleElementReferenceException, WebDriverException
from selenium.webdriver.chrome.options import Options
from selenium.webdriver.chrome.service import Service
from selenium.webdriver.common.by import By
from selenium.webdriver.remote.webelement import WebElement

from model import layout
from model import text as described
from trials.room.ports import PATIENCE
from wisangub.process.places import TOP

from .visits import PASSWORD

WORDS = (
    "--headless=new",
    "--no-sandbox",
    "--disable-gpu",
    "--disable-dev-shm-usage",
    "--no-proxy-server",
    "--hide-scrollbars",
    "--disable-background-networking",
    "--disable-component-update",
    "--no-first-run",
)
BEGINNINGS = 3  # tries to begin a browser, which gives up by itself where the machine is busy
LOADED = "return document.readyState === 'complete'"
# the lamps of a picture: the colour in the middle of each, as drawn by the browser
LAMPS = """
const [image, columns, rows] = arguments, size = 8, board = document.createElement("canvas");
board.width = size * (columns + 1); board.height = size * (rows + 1);
const pen = board.getContext("2d");
pen.drawImage(image, 0, 0, board.width, board.height);
const held = pen.getImageData(0, 0, board.width, board.height).data, lit = [];
for (let y = 1; y <= rows; y++) for (let x = 1; x <= columns; x++) {
  const at = 4 * (y * size * board.width + x * size);
  if (held[at] + held[at + 1] + held[at + 2] > 200) lit.push([x - 1, y - 1]);
}
return lit;
"""
# the status of a request that is no form's, or why there was no answer
POST = """
const done = arguments[arguments.length - 1], fields = new URLSearchParams(arguments[1]);
fetch(arguments[0], {method: "POST", body: fields}).then((answer) => done(answer.status), (why) => done(String(why)));
"""


def until(is_so: Callable[[], object], what: str, seconds: float = PATIENCE) -> None:
    """Waits until it is so. What is looked for may not be on the page yet, so a look that fails is a no; the last
    failure is told where the time is over."""
    ends, fault = time.monotonic() + seconds, ""
    while time.monotonic() < ends:
        try:
            if is_so():
                return
            fault = ""
        except Exception as failed:
            fault = f": {type(failed).__name__}: {str(failed).splitlines()[0] if str(failed) else ''}"
        time.sleep(0.1)
    raise AssertionError(f"not within {seconds:g} s: {what}{fault}")


def description(face: str) -> bytes:
    return (TOP / f"signs/{face}.sign").read_bytes()


def lamps_of(face: str, text: str) -> list[list[int]]:
    """The lamps that a text of one page lights, as the model lays it out."""
    held = described.described(description(face)).face
    pages, fault = layout.laid_out(held, held.defaults, text.encode("latin-1"))
    assert fault is None and pages is not None and len(pages) == 1
    return [[x, y] for y, row in enumerate(layout.cells(held, pages[0])) for x, cell in enumerate(row) if cell]


def begun(options: Options) -> webdriver.Chrome:
    """A browser; one that did not begin is begun again."""
    for left in reversed(range(BEGINNINGS)):
        try:
            return webdriver.Chrome(service=Service(shutil.which("chromedriver") or ""), options=options)
        except WebDriverException:
            if not left:
                raise
    raise AssertionError("no browser")


class Browser:
    """A browser of its own. A page that was asked for is there when its document is; pictures may come later, and parts
    of the page are made anew by events at any time."""

    def __init__(self, url: str, width: int = 1280, height: int = 900, words: tuple[str, ...] = ()) -> None:
        options = webdriver.ChromeOptions()
        for word in (*WORDS, *words):
            options.add_argument(word)
        options.binary_location = shutil.which("chromium") or ""
        options.page_load_strategy = "eager"
        options.set_capability("goog:loggingPrefs", {"browser": "ALL"})
        self.driver = begun(options)
        self.driver.set_page_load_timeout(PATIENCE)
        self.driver.set_script_timeout(PATIENCE)
        self.driver.set_window_size(width, height)  # as an option it would be 500 wide at least
        self.url = url

    def __enter__(self) -> "Browser":
        return self

    def __exit__(self, *_: object) -> None:
        self.driver.quit()

    def get(self, path: str) -> None:
        self.driver.get(self.url + path)

    def find(self, selector: str) -> WebElement:
        return self.driver.find_element(By.CSS_SELECTOR, selector)

    def all(self, selector: str) -> list[WebElement]:
        return self.driver.find_elements(By.CSS_SELECTOR, selector)

    def text(self, selector: str = "body") -> str:
        """What a part of the page says; one that is made anew between the look for it and the look at it is looked for
        again."""
        while True:
            try:
                return str(self.find(selector).text)
            except StaleElementReferenceException:
                continue

    def click(self, selector: str) -> None:
        """Clicks where the part is when all pictures of the page have their place."""
        until(lambda: self.script(LOADED), "the page is loaded")
        self.find(selector).click()

    def says(self, words: str, selector: str = "main") -> None:
        """Waits until a part of the page says this."""
        until(lambda: words in self.text(selector), f"{selector} says {words!r}")

    def focus(self) -> str | None:
        """The name of what has the focus."""
        return self.driver.switch_to.active_element.get_attribute("id")

    def script(self, words: str, *values: object) -> object:
        return self.driver.execute_script(words, *values)

    def post(self, path: str, fields: dict[str, str]) -> object:
        """The status of a request that a script of the page makes."""
        return self.driver.execute_async_script(POST, path, fields)

    def log_in(self, name: str) -> None:
        self.get("/login")
        self.find("[name=name]").send_keys(name)
        self.find("[name=password]").send_keys(PASSWORD)
        self.click("button.main")
        self.says(name, "header .who")

    def write(self, text: str, signs: list[int]) -> None:
        """Writes a text for signs."""
        self.get("/compose?" + "&".join(f"sign={row}" for row in signs))
        self.find("#text").send_keys(text)

    def confirm(self) -> None:
        """From the text to the page that asks once more."""
        until(lambda: self.all("#looks img"), "the live picture")
        self.click("#check")
        until(lambda: self.find("#send"), "the confirmation")

    def publish(self, text: str, signs: list[int]) -> None:
        """Writes, looks, confirms, asks."""
        self.write(text, signs)
        self.confirm()
        self.send()

    def send(self) -> None:
        """From the page that asks once more to the one that follows the commands."""
        self.click("#send")
        until(lambda: "/batches/" in self.driver.current_url and self.find("#summary"), "it was asked for")

    def accepted(self, count: int) -> None:
        """Waits until all commands of such a page were accepted."""
        self.says(f"{count} of {count} accepted", "#summary")

    def lamps(self, selector: str, columns: int, rows: int) -> list[list[int]]:
        """The lamps that are lit in a picture of so many columns and rows, as the browser draws it."""
        held: list[list[int]] = self.driver.execute_script(LAMPS, self.find(selector), columns, rows)
        return held

    def shows(self, selector: str, face: str, text: str) -> None:
        """Waits until a picture's lamps are those of a text."""
        lamps, of = lamps_of(face, text), described.described(description(face)).face
        until(lambda: self.lamps(selector, of.width, of.height) == lamps, f"{selector} shows {text}")

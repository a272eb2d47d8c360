"""A sign's page in headless Chromium: lamps, words and buttons, as one who develops a central system has them."""

import http.server
import threading
from collections.abc import Iterator

import pytest

from tests.room import needs

needs.modules("selenium")
needs.programs("chromium", "chromedriver")

from tests.room.browser import Browser
from wisangub.snmp.names import scalar

from .bench import SIGN, Bench, bench

FOLLOWS = "The page follows what happens."
LOST = "The page has lost the sign, and tries again."
MODE = scalar("dmsMsgSourceMode")
FORM = """<form method="post" action="{0}"><input name="amount" value="5"><button>go</button></form>
<iframe src="{0}/../"></iframe>"""
# presses a button by scripts: one that sees no answer, and one with a token that it has guessed
SCRIPTS = """
const [url, done] = arguments;
const asks = (words) => fetch(url, {method: "POST", ...words}).then(() => "answered", () => "refused");
Promise.all([asks({body: "amount=5", mode: "no-cors"}), asks({headers: {"X-Token": "guess"}})]).then(done);
"""
# whether another site sees the page in a frame
FRAMED = "try { return !!frames[0].document.querySelector('[data-press]') } catch { return false }"


@pytest.fixture(scope="module")
def one() -> Iterator[Bench]:
    with bench() as made:
        yield made


@pytest.fixture(scope="module")
def browser(one: Bench) -> Iterator[Browser]:
    with Browser(f"http://127.0.0.1:{one.page}") as made:
        made.get("/")
        made.says(FOLLOWS, "header")
        yield made


def test_the_lamps_follow_without_a_reload(one: Bench, browser: Browser) -> None:
    browser.script("window.here = true")
    for text in (b"[fo2]FOG", b"ROAD WORK[nl]1 KM"):
        one.publish(text)
        browser.says(text.decode(), "#text")
        browser.shows("#lamps", "roadside", text.decode())
        browser.says(text.decode(), "#table")
    assert len(browser.all("#datagrams li")) > 5 and browser.script("return window.here") is True
    browser.says("dmsActivateMessage.0", "#datagrams")
    browser.says("central (8)", "#facts")
    browser.says("127.0.0.1", "#facts")


def test_buttons_do_what_they_say(one: Bench, browser: Browser) -> None:
    one.publish(b"FOG")
    browser.shows("#lamps", "roadside", "FOG")
    browser.click("[data-press=power-lost]")
    browser.says("power off", "#power")
    browser.says("powerLoss (13)", "#facts")
    browser.find("#away").send_keys("3")
    browser.click("[data-press=power-back]")
    browser.says("power on", "#power")
    browser.says("powerRecovery (10)", "#facts")
    browser.click("[data-press=power-back]")
    browser.says("Not done: the power is on already", "#done")
    browser.click("[data-press=seconds]")
    browser.says("Done: let pass", "#done")
    browser.click("[data-press=lose-request]")
    browser.says("Done: lose the next datagram", "#done")
    one.get_lost(MODE)
    browser.says("lost", "#datagrams .fate")
    assert one.get(MODE) == 10


class Elsewhere(http.server.BaseHTTPRequestHandler):
    """A site of somebody else on this machine: to a browser it is another one, since its port is."""

    def log_message(self, *_: object) -> None:
        pass

    def do_GET(self) -> None:
        self.send_response(200)
        self.send_header("Content-Type", "text/html")
        self.end_headers()
        self.wfile.write(FORM.format(self.path[1:]).encode())


@pytest.fixture
def elsewhere() -> Iterator[str]:
    with http.server.ThreadingHTTPServer(("127.0.0.1", 0), Elsewhere) as server:
        threading.Thread(target=server.serve_forever, daemon=True).start()
        yield f"http://127.0.0.1:{server.server_address[1]}/"
        server.shutdown()


def test_another_site_presses_nothing(one: Bench, browser: Browser, elsewhere: str) -> None:
    before, url = one.state(), f"http://127.0.0.1:{one.page}/power-lost"
    browser.driver.get(elsewhere + url)
    assert browser.driver.execute_async_script(SCRIPTS, url) == ["refused", "refused"]
    browser.find("button").click()
    browser.says("only the page itself presses its buttons", "body")
    browser.driver.get(elsewhere + url)
    assert browser.script("return frames.length") == 1 and not browser.script(FRAMED)
    assert one.state() == before
    browser.get("/")


def test_nothing_is_asked_of_other_hosts_and_no_script_fails(one: Bench) -> None:
    with Browser(f"http://127.0.0.1:{one.page}") as made:
        made.get("/")
        one.publish(b"[fo2]SLOW")
        made.shows("#lamps", "roadside", "[fo2]SLOW")
        made.click("[data-press=seconds]")
        made.says("Done", "#done")
        assert not [line for line in made.driver.get_log("browser") if line["level"] == "SEVERE"]
        asked = made.script("return performance.getEntriesByType('resource').map((found) => new URL(found.name).host)")
        assert isinstance(asked, list) and set(asked) == {f"127.0.0.1:{one.page}"}


def test_a_text_is_no_markup(one: Bench, browser: Browser) -> None:
    """A text with signs of markup that the font has, an owner and a community with all of them."""
    one.send_owner(b"<img src=x onerror=alert(1)>")
    browser.says("<img src=x onerror=alert(1)>", "#datagrams")
    browser.says("<img src=x onerror=alert(1)>", "#table")
    assert not browser.all("#table img") and not browser.all("#datagrams img")


def test_the_page_finds_the_sign_again() -> None:
    with bench() as first:
        port = first.page
        made = Browser(f"http://127.0.0.1:{port}")
        made.get("/")
        made.says(FOLLOWS, "header")
    with made:
        made.says(LOST, "header")
        with bench("--page", str(port)) as second:
            made.says(FOLLOWS, "header")
            second.publish(b"FOG")
            made.says("FOG", "#text")
            made.shows("#lamps", "roadside", "FOG")  # and all is in its place
            assert SIGN in made.text("h1")
            made.click("[data-press=seconds]")
            made.says("Done: let pass", "#done")

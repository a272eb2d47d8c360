"""Pages in headless Chromium, over live signs: what people do, and what they see."""

from typing import Iterator

import pytest

from . import needs

needs.modules("aiohttp", "jinja2", "selenium")
needs.programs("chromium", "chromedriver")

from .browser import lamps_of, until
from .browsing import FACES, FOLLOWS, NAMES, Place, away_and_back, place

SMALL = (320, 740)  # the narrowest screen that WCAG 2.2 names, in pixels of CSS (1.4.10, Reflow)
PAGES = (
    "/",
    "/signs/1",
    "/signs/1/table",
    "/signs/1/ledger",
    "/signs/1/shown",
    "/signs/1/log",
    "/history",
    "/compose?sign=1&sign=3",
    "/blank?sign=1&sign=3",
    "/batches/1",
    "/library",
    "/plans",
    "/users",
    "/groups",
    "/groups/1",
    "/rules",
    "/audit",
    "/account",
    "/alarms",
    "/login",
)
BLANK = {"kind": "blank", "sign": "1", "number": "1", "confirmation": "x" * 24}


@pytest.fixture(scope="module")
def at(tmp_path_factory: pytest.TempPathFactory) -> Iterator[Place]:
    with place(tmp_path_factory.mktemp("room")) as made:
        yield made


def acceptances(at: Place, *names: str) -> int:
    """How many activations these signs accepted; one that went out again counts once."""
    return sum(len(set(at.sign(name).accepted)) for name in names)


def test_a_text_from_the_first_key_to_lit_lamps(at: Place) -> None:
    text = "[fo2]ROAD WORK[nl]1 KM"
    before = acceptances(at, "B300 east")
    with at.browser("operator") as one:
        one.write("[fo2]ROAD WORK", [at.rows["B300 east"]])
        one.shows("#looks img", "roadside", "[fo2]ROAD WORK")
        one.find("#text").send_keys("[nl]1 KM")
        one.shows("#looks img", "roadside", text)
        one.confirm()
        one.shows("figure:not(.before) img", "roadside", text)
        assert "operator" in one.text(".facts-list") and acceptances(at, "B300 east") == before
        one.send()
        one.accepted(1)
        assert len(one.all(".steps li.done")) == 7 and len(one.all(".steps li.none")) == 1
        assert acceptances(at, "B300 east") == before + 1
        one.get("/")
        one.shows(at.card("B300 east"), "roadside", text)
        one.says("lit", at.card("B300 east", ""))
        assert len(lamps_of("roadside", text)) > 100
        one.get(at.path("B300 east"))
        for words in ("ROAD WORK", "central", "owner operator"):
            one.says(words, "#shown")


def test_the_wall_follows_without_a_reload(at: Place) -> None:
    with at.browser("reader") as one, at.browser("operator") as two:
        one.script("window.here = true")
        two.publish("FOLLOW", [at.rows["B300 west"]])
        one.shows(at.card("B300 west"), "roadside", "FOLLOW")
        assert one.script("return window.here") is True
        one.says(FOLLOWS, "footer")


def test_a_refused_text_has_its_place(at: Place) -> None:
    with at.browser("operator") as one:
        one.write("FOG[fo9]", [at.rows["B300 east"]])
        one.says("At character 4: the sign has no such font.", "#looks .alert")
        assert one.text("#looks mark") == "[fo9]"
        one.find("#looks button").click()
        place_ = one.script(
            "const t = document.getElementById('text');"
            "return [t.selectionStart, t.selectionEnd, document.activeElement.id]"
        )
        assert place_ == [3, 8, "text"]
        one.click("#check")
        until(lambda: one.driver.current_url.endswith("/compose"), "the form comes again")
        until(lambda: one.text("#looks mark") == "[fo9]", "with its fault")
        assert not one.all("#send"), "it is not confirmed"


def test_many_signs_of_two_kinds_at_once(at: Place) -> None:
    with at.browser("operator") as one:
        one.get("/")
        one.click("#all")
        assert one.text("#chosen") == "3 chosen"
        one.click(".bar button.main")
        until(lambda: one.all("#text"), "the form")
        one.find("#text").send_keys("[fo2]SLOW")
        until(lambda: len(one.all("#looks img")) == 2, "a picture for each kind")
        one.confirm()
        assert "Publish on 3 signs" in one.text("#send")
        one.send()
        one.accepted(3)
        one.get("/")
        for name, face in zip(NAMES, FACES):
            one.shows(at.card(name), face, "[fo2]SLOW")


def test_two_operators_at_the_same_time(at: Place) -> None:
    before = acceptances(at, "A9 gantry")
    with at.browser("operator") as one, at.browser("administrator") as two:
        for browser, text in ((one, "FIRST"), (two, "SECOND")):
            browser.write(text, [at.rows["A9 gantry"]])
            browser.confirm()
        for browser in (one, two):  # the second asks while the first one's is under way
            browser.send()
        for browser in (one, two):
            browser.accepted(1)
        assert acceptances(at, "A9 gantry") == before + 2, "both were carried out, one after the other"
        one.get(at.path("A9 gantry"))
        for words in ("SECOND", "owner administrator"):
            one.says(words, "#shown")
        assert "FIRST" in one.text("#commands") and "SECOND" in one.text("#commands")


def test_a_reader_may_not(at: Place) -> None:
    before = at.commands()
    with at.browser("reader") as one:
        assert "Compose" not in one.text("header") and not one.all("input[name=sign]")
        one.get("/compose?sign=1")
        one.says("This is for operators: you are logged in as a reader.")
        assert one.post("/send", BLANK) == 403
    assert at.commands() == before


def test_a_request_without_a_token(at: Place) -> None:
    before = at.commands()
    with at.browser("operator") as one:
        assert one.post("/send", BLANK) == 403
        assert one.post("/send", {**BLANK, "token": "0" * 64}) == 403
    assert at.commands() == before


def test_no_script_of_a_page_runs_inline(at: Place) -> None:
    with at.browser("operator") as one:
        one.script(
            "const image = '<img src=x onerror=\"window.bad=1\">';"
            "document.body.insertAdjacentHTML('beforeend', image);"
            "const s = document.createElement('script'); s.textContent = 'window.bad = 2';"
            "document.body.append(s);"
        )
        until(
            lambda: any("Content Security Policy" in line["message"] for line in one.driver.get_log("browser")),
            "the browser refuses it",
        )
        assert one.script("return window.bad === undefined") is True


def test_pages_fit_a_small_screen_and_say_nothing_wrong(at: Place) -> None:
    with at.browser("administrator", *SMALL) as one:
        one.driver.get_log("browser")
        assert one.script("return innerWidth") == SMALL[0]
        for path in PAGES:
            one.get(path)
            until(lambda: one.script("return document.readyState") == "complete", f"{path} and its pictures")
            wide = one.script("return document.documentElement.scrollWidth - innerWidth")
            assert isinstance(wide, int) and wide <= 0, (path, wide)
        wrong = [line for line in one.driver.get_log("browser") if line["level"] == "SEVERE"]
        assert wrong == []


def test_the_page_finds_a_service_that_was_away(at: Place) -> None:
    with at.browser("reader") as one, at.browser("operator") as two:
        away_and_back(at, one)
        two.publish("AGAIN", [at.rows["B300 west"]])
        one.shows(at.card("B300 west"), "roadside", "AGAIN")


def test_a_page_says_that_its_log_in_has_ended(at: Place) -> None:
    with at.browser("reader") as one:
        one.says(FOLLOWS, "footer")
        first = one.driver.current_window_handle
        one.driver.switch_to.new_window("tab")
        one.get("/account")
        one.click("form[action='/logout'] button")
        until(lambda: "/login" in one.driver.current_url, "logged out")
        one.driver.switch_to.window(first)
        one.says("Your log-in has ended.", "footer")

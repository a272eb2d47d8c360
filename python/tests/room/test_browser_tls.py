"""A browser before nginx and TLS, as the example nginx.conf has it: cookies that go nowhere else, pages that follow."""

import contextlib
import dataclasses
import re
from typing import Iterator

import pytest

from . import needs

needs.modules("aiohttp", "jinja2", "selenium")
needs.programs("chromium", "chromedriver", "nginx", "openssl")

from selenium.common.exceptions import WebDriverException

from .browser import until
from .browsing import Place, away_and_back, place
from .tls import NAME, nginx, words_of_browser

COOKIE = "__Host-login"


@pytest.fixture(scope="module")
def at(tmp_path_factory: pytest.TempPathFactory) -> Iterator[Place]:
    folder = tmp_path_factory.mktemp("room")
    with place(folder, "--behind-tls") as made, nginx(folder, made.port) as port:
        made.url, made.words = f"https://{NAME}:{port}", words_of_browser(folder)
        yield made


def test_a_log_in_over_tls(at: Place) -> None:
    with at.browser("operator") as one:
        assert one.script("return [isSecureContext, document.cookie]") == [True, ""]
        cookie = one.driver.get_cookie(COOKIE)
        assert cookie is not None and cookie["secure"] and cookie["httpOnly"] and cookie["sameSite"] == "Strict"
        assert cookie["path"] == "/" and cookie["domain"] == NAME
        one.publish("OVER TLS", [at.rows["B300 east"]])
        one.accepted(1)
        one.get("/")
        one.shows(at.card("B300 east"), "roadside", "OVER TLS")
        one.click("form[action='/logout'] button")
        until(lambda: one.find("[name=password]"), "the form to log in")
        assert one.driver.get_cookie(COOKIE) is None


def test_another_certificate_is_refused(at: Place) -> None:
    others = dataclasses.replace(at, words=at.words[:1])
    with others.browser() as one:
        with contextlib.suppress(WebDriverException):
            one.get("/login")
        until(lambda: "ERR_CERT_AUTHORITY_INVALID" in one.driver.page_source, "the browser says why it does not go on")
        assert not one.all("[name=password]")


def test_the_page_finds_a_service_that_was_away(at: Place) -> None:
    def refused() -> None:
        log = at.folder / "access"
        until(lambda: re.search(r'"GET /events\S* [^"]*" 502 ', log.read_text()), "the proxy says that nobody answers")

    with at.browser("reader") as one:
        away_and_back(at, one, refused)

"""Another web page cannot press the buttons of a sign's page, and to look at it changes nothing."""

import pathlib
import socket
from collections.abc import Iterator

import pytest

from wisangub.endpoint.page.presses import NAMES

from .bench import Bench, bench


@pytest.fixture(scope="module")
def one() -> Iterator[Bench]:
    with bench() as made:
        yield made


@pytest.mark.parametrize(
    "host", ["evil.example", "evil.example:{}", "127.0.0.1", "localhost:1", "127.0.0.1:{}.evil.example", ""]
)
def test_another_host_is_refused(one: Bench, host: str) -> None:
    headers = {"Host": host.format(one.page)}
    for path in ("/", "/state", "/lamps.svg", "/events", "/page.js"):
        assert one.asked("GET", path, headers)[0] == 403
    for name in NAMES:
        assert one.asked("POST", f"/{name}", {**headers, "X-Token": one.token()})[0] == 403


def test_both_names_of_this_machine_are_taken(one: Bench) -> None:
    for host in ("127.0.0.1", "localhost", "LOCALHOST"):
        assert one.asked("GET", "/", {"Host": f"{host}:{one.page}"})[0] == 200


@pytest.mark.parametrize("name", NAMES)
def test_a_button_wants_the_token(one: Bench, name: str) -> None:
    before, token = one.state(), one.token()
    wrong: tuple[dict[str, str], ...] = (
        {},
        {"X-Token": ""},
        {"X-Token": token[:-1]},
        {"X-Token": token.swapcase()},
        {"X-Token": "é"},
        {"Cookie": f"token={token}"},
        {"X-Token": token, "Origin": "http://evil.example"},
        {"X-Token": token, "Origin": "null"},
        {"X-Token": token, "Origin": f"https://127.0.0.1:{one.page}"},
        {"X-Token": token, "Sec-Fetch-Site": "cross-site"},
        {"X-Token": token, "Sec-Fetch-Site": "same-site"},
    )
    for headers in wrong:
        assert one.asked("POST", f"/{name}", headers, "amount=5")[0] == 403, headers
    assert one.asked("POST", f"/{name}", {}, f"token={token}")[0] == 403
    assert one.state() == before


def test_a_get_changes_nothing(one: Bench) -> None:
    before = one.state()
    for name in NAMES:
        assert one.asked("GET", f"/{name}?amount=5", {"X-Token": one.token()})[0] == 404
    for path in ("/", "/page.css", "/page.js", "/lamps.svg", "/state"):
        assert one.asked("GET", path, {})[0] == 200
    assert one.state() == before


def test_other_methods_and_other_names_are_refused(one: Bench) -> None:
    for method in ("PUT", "DELETE", "OPTIONS", "HEAD"):
        status, _, headers = one.asked(method, "/seconds", {"X-Token": one.token()})
        assert status == 501 and "access-control-allow-origin" not in headers
    for path in ("/nothing", "/../server.py", "/page.html", "/static/page.js", "/seconds/"):
        assert one.asked("GET", path, {})[0] == 404
        assert one.asked("POST", path, {"X-Token": one.token()})[0] == 404


@pytest.mark.parametrize("amount", ["-1", "+1", "1.0", "x", "86401", "٣", "1" * 90])
def test_what_is_no_number_of_seconds_is_refused(one: Bench, amount: str) -> None:
    assert one.press("seconds", amount) == 400


def test_every_answer_has_the_policy(one: Bench) -> None:
    for path in ("/", "/nothing", "/lamps.svg", "/state"):
        headers = one.asked("GET", path, {})[2]
        policy = headers["content-security-policy"]
        assert policy.startswith("default-src 'none'; script-src 'self';") and "unsafe" not in policy
        assert headers["x-content-type-options"] == "nosniff" and headers["cache-control"] == "no-store"


def test_nothing_but_loopback_is_listened_on(one: Bench) -> None:
    """By the kernel's list of sockets that listen: the address is 127.0.0.1, its octets from the low one."""
    lines = pathlib.Path("/proc/net/tcp").read_text(encoding="ascii").splitlines()[1:]
    places = [line.split()[1] for line in lines if line.split()[3] == "0A"]
    assert [place for place in places if place.endswith(f":{one.page:04X}")] == [f"0100007F:{one.page:04X}"]
    six = pathlib.Path("/proc/net/tcp6").read_text(encoding="ascii") if socket.has_ipv6 else ""
    assert f":{one.page:04X} 0" not in six


def test_a_page_holds_the_documents_words_apart(one: Bench) -> None:
    text = one.asked("GET", "/", {})[1]
    assert (
        "@TOKEN@" not in text
        and "@TITLE@" not in text
        and "@RUN@" not in text
        and "<script src=" in text
        and "http://" not in text
    )

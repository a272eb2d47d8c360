"""Logging in and out: cookies, tokens, limits, and what ends a log-in."""

import pathlib
import re
from typing import Callable

import pytest

from . import needs

needs.modules("aiohttp", "jinja2")

import multidict
from aiohttp.test_utils import make_mocked_request

from wisangub.refusal import Refusal
from wisangub.room import users as program
from wisangub.room.store import database, logins, passwords, tokens, users
from wisangub.room.store.database import Database
from wisangub.room.store.users import Role
from wisangub.room.web.security import address_of
from wisangub.room.web.sign_in import local

from .visits import PASSWORD, Bench, Visitors, run

ENDS = re.compile(r'action="/logins/([0-9a-f]{16})/end"')


def test_who_is_not_logged_in_sees_the_form_alone(tmp_path: pathlib.Path, where: str) -> None:
    async def act(bench: Bench, visitor: Visitors) -> None:
        nobody = visitor()
        for path in ("/", "/signs/1", "/history", "/audit", "/compose?sign=1"):
            answer = await nobody.answered(path)
            assert answer.status == 303 and answer.headers["Location"].startswith("/login"), path
        assert (await nobody.get("/events?view=wall"))[0] == 401
        assert (await nobody.answered("/send", {"kind": "blank"})).status == 401
        assert (await nobody.get("/login"))[0] == 200

    run(tmp_path, where, act)


def test_a_log_in_leads_where_the_visitor_was_going(tmp_path: pathlib.Path, where: str) -> None:
    async def act(bench: Bench, visitor: Visitors) -> None:
        assert await visitor().log_in("reader", then="/history?who=me") == (303, "/history?who=me")
        for elsewhere in ("https://example.org/", "//example.org", "/\\example.org", ""):
            assert await visitor().log_in("reader", then=elsewhere) == (303, "/")
        assert local("/signs/1") == "/signs/1"

    run(tmp_path, where, act)


def test_cookies_are_signed_and_kept_from_scripts(tmp_path: pathlib.Path, where: str) -> None:
    async def act(bench: Bench, visitor: Visitors) -> None:
        one = visitor()
        token = await one.token("/login")
        answer = await one.answered("/login", {"token": token, "name": "reader", "password": PASSWORD})
        said = answer.headers.getall("Set-Cookie")
        cookie = next(line for line in said if line.startswith("login="))
        assert "HttpOnly" in cookie and "SameSite=Strict" in cookie and "Path=/" in cookie and "Secure" not in cookie
        value = cookie.split("=", 1)[1].split(";")[0]
        for wrong in (value[:-1] + ("0" if value[-1] != "0" else "1"), value.split(".")[0], "x." + value.split(".")[1]):
            assert (await visitor().answered("/", headers={"Cookie": f"login={wrong}"})).status == 303
        assert (await visitor().answered("/", headers={"Cookie": f"login={value}"})).status == 200

    run(tmp_path, where, act)


def test_behind_tls_cookies_are_secure(tmp_path: pathlib.Path) -> None:
    async def act(bench: Bench, visitor: Visitors) -> None:
        answer = await visitor().answered("/login")
        cookie = answer.headers.getall("Set-Cookie")[0]
        assert cookie.startswith("__Host-before=") and "Secure" in cookie and "HttpOnly" in cookie

    run(tmp_path, str(tmp_path / "database"), act, is_behind_tls=True)


def test_an_address_is_the_proxys_word_on_whichever_line_it_stands() -> None:
    """A proxy adds to the client's line, or a line of its own after it: what it adds comes last in either."""
    for lines in (["203.0.113.9", "192.0.2.7"], ["203.0.113.9, 192.0.2.7"], ["192.0.2.7"], ["a", "b, 192.0.2.7"]):
        headers = multidict.CIMultiDict([("X-Forwarded-For", line) for line in lines])
        request = make_mocked_request("GET", "/", headers)
        assert address_of(request, is_behind_tls=True) == "192.0.2.7", lines
        assert address_of(request, is_behind_tls=False) not in lines, lines


def test_a_form_without_its_token_logs_nobody_in(tmp_path: pathlib.Path) -> None:
    async def act(bench: Bench, visitor: Visitors) -> None:
        one = visitor()
        await one.get("/login")
        for token in ("", "0" * 64):
            answer = await one.answered("/login", {"token": token, "name": "reader", "password": PASSWORD})
            assert answer.status == 403
        other = await visitor().token("/login")
        assert (await one.answered("/login", {"token": other, "name": "reader", "password": PASSWORD})).status == 403

    run(tmp_path, str(tmp_path / "database"), act)


@pytest.fixture(name="slowly")
def _slowly(monkeypatch: pytest.MonkeyPatch) -> None:
    """Who failed waits a minute at least, so that no wait is over while a busy machine answers some requests."""
    monkeypatch.setattr(logins, "_FIRST_WAIT", 60.0)


def later(bench: Bench, seconds: float) -> None:
    """Log-ins that failed are so much longer ago."""
    bench.store.database.run("UPDATE failed_logins SET at = at - ?", seconds)


def audit(bench: Bench, who: str) -> list[str]:
    rows = bench.store.database.run("SELECT what FROM audit WHERE who = ? ORDER BY id", who)
    return [re.sub(r" [0-9]+ failed", " N failed", str(row[0])) for row in rows]


@pytest.mark.usefixtures("slowly")
def test_who_fails_to_log_in_waits_longer_and_longer(tmp_path: pathlib.Path, where: str) -> None:
    async def act(bench: Bench, visitor: Visitors) -> None:
        one = visitor()
        for _ in range(logins.FREE):
            assert (await one.log_in("reader", "wrong"))[0] == 403
        for _ in range(2):
            assert (await one.log_in("reader"))[0] == 429, "the right password is no way around"
        assert (await one.log_in("operator"))[0] == 303, "another user does not wait"
        failed, refused = (
            "a log-in failed, from 127.0.0.1",
            "a log-in is refused for a while, since N failed, from 127.0.0.1",
        )
        assert audit(bench, "reader") == [failed] * logins.FREE + [refused], "a refusal is noted once"
        later(bench, logins.wait_after(logins.FREE))
        assert (await one.log_in("reader", "wrong"))[0] == 403
        later(bench, logins.wait_after(logins.FREE))
        assert (await one.log_in("reader"))[0] == 429, "it takes longer now"
        later(bench, logins.wait_after(logins.FREE + 1))
        assert (await one.log_in("reader"))[0] == 303
        assert audit(bench, "reader")[-4:-1] == [refused, failed, refused]
        held = [str(bench.store.database.run(f"SELECT * FROM {table}")) for table in ("failed_logins", "audit")]
        for _ in range(logins.FREE + 1):
            await one.log_in("nobody1", "my secret")
        held += [str(bench.store.database.run(f"SELECT * FROM {table}")) for table in ("failed_logins", "audit")]
        assert "nobody1" not in str(held) and "my secret" not in str(held)
        assert audit(bench, logins.NOBODY) == [refused]

    run(tmp_path, where, act)


def test_nobody_waits_for_what_others_fail(where: str) -> None:
    held = database.opened(where)
    for _ in range(40):
        logins.attempt(held, "reader", "192.0.2.1")
        later_by = logins.wait_after(40)
        held.run("UPDATE failed_logins SET at = at - ?", later_by)
    held.run("UPDATE failed_logins SET at = {clock}")
    assert 290 < logins.attempt(held, "reader", "192.0.2.1") <= 300, "and no longer than five minutes"
    assert logins.attempt(held, "reader", "192.0.2.2") == 0 == logins.attempt(held, "operator", "192.0.2.1")


STRANGER, SAME_NET, NEIGHBOUR = "2001:db8:1:2::1", "2001:db8:1:2:ffff::9", "2001:db8:1:3::1"


def test_another_address_of_the_same_machine_is_no_way_around(where: str, monkeypatch: pytest.MonkeyPatch) -> None:
    held = database.opened(where)
    monkeypatch.setattr(passwords, "COST", 2**4)
    users.add(held, "ann", Role.OPERATOR, PASSWORD, "a test")
    waits = [logins.attempt(held, "ann", f"2001:db8:1:2::{at:x}") for at in range(logins.FREE + 1)]
    assert not any(waits[: logins.FREE]) and waits[-1] > 1, "each guess comes from another address"
    assert logins.attempt(held, "ann", NEIGHBOUR) == 0 == logins.attempt(held, "bob", STRANGER)
    logins.begin(held, "ann", STRANGER)
    assert not any(logins.attempt(held, "ann", SAME_NET) for _ in range(logins.FREE)), "a success forgets them all"


def test_who_fails_under_many_names_waits_whatever_name_comes_next(where: str, monkeypatch: pytest.MonkeyPatch) -> None:
    held = database.opened(where)
    monkeypatch.setattr(passwords, "COST", 2**4)
    for name in ("ann", "bob", "eve"):
        users.add(held, name, Role.OPERATOR, PASSWORD, "a test")
    assert logins.attempt(held, "ann", STRANGER) == 0
    logins.begin(held, "ann", STRANGER)
    waits = []
    for at in range(logins.FREE_NAMES + 8):
        waits.append(logins.attempt(held, f"guess{at}", STRANGER if at % 2 else SAME_NET))
        held.run("UPDATE failed_logins SET at = at - ?", 2 * waits[-1])
        assert not waits[-1] or logins.attempt(held, f"guess{at}", STRANGER) == 0, "the wait is over by itself"
    later_ones = [round(wait) for wait in waits[logins.FREE_NAMES :]]
    assert not any(waits[: logins.FREE_NAMES]) and later_ones == sorted(later_ones) and later_ones[-1] == 60
    assert 50 < logins.attempt(held, "bob", STRANGER) <= 60, "whoever it is, and no longer than a minute"
    assert logins.attempt(held, "ann", STRANGER) == 0, "but for who logged in from there before"
    assert logins.attempt(held, "bob", NEIGHBOUR) == 0 == logins.attempt(held, "bob", "192.0.2.1")
    logins.unlock(held, "bob", "a test")
    assert logins.attempt(held, "bob", STRANGER) == 0 < logins.attempt(held, "eve", STRANGER), "let in on the machine"
    refused = held.run("SELECT who, what FROM audit WHERE what LIKE 'a log-in is refused%' ORDER BY id")
    assert {row[0] for row in refused} <= {logins.NOBODY, "bob", "eve"} and " names failed, from 2001:" in str(refused)


def test_failed_log_ins_are_so_many_and_no_more(where: str, monkeypatch: pytest.MonkeyPatch) -> None:
    held = database.opened(where)
    monkeypatch.setattr(logins, "MOST_FAILED", 20)
    for at in range(50):
        assert logins.attempt(held, f"guess{at}", f"192.0.2.{at}") == 0
    assert held.run("SELECT count(*) FROM failed_logins") == [(20,)]
    assert logins.network_of("::ffff:192.0.2.1") == "192.0.2.1" and logins.network_of("-") == "-"


def test_an_administrator_lets_somebody_in_from_the_machine(
    where: str, monkeypatch: pytest.MonkeyPatch, capsys: pytest.CaptureFixture[str]
) -> None:
    held = database.opened(where)
    monkeypatch.setattr(passwords, "COST", 2**4)
    users.add(held, "ann", Role.ADMINISTRATOR, PASSWORD, "a test")
    while not logins.attempt(held, "ann", "192.0.2.1"):
        pass
    monkeypatch.setattr("sys.argv", ["users", "--database", where, "unlock", "ann"])
    assert program.main() == 0 and logins.attempt(held, "ann", "192.0.2.1") == 0
    assert held.run("SELECT what FROM audit ORDER BY id DESC LIMIT 1") == [
        ("failed log-ins of user ann are forgotten",)
    ]
    monkeypatch.setattr("sys.argv", ["users", "--database", where, "unlock", "eve"])
    with pytest.raises(Refusal, match="there is no user eve"):
        program.main()


def test_a_success_forgets_what_failed(tmp_path: pathlib.Path) -> None:
    async def act(bench: Bench, visitor: Visitors) -> None:
        one = visitor()
        for _ in range(3):
            for _ in range(logins.FREE - 1):
                await one.log_in("reader", "wrong")
            assert (await one.log_in("reader"))[0] == 303
            assert (await one.post("/logout", {}))[2] == "/login"

    run(tmp_path, str(tmp_path / "database"), act)


@pytest.mark.usefixtures("slowly")
def test_guesses_at_the_present_password_wait_too(tmp_path: pathlib.Path, where: str) -> None:
    async def act(bench: Bench, visitor: Visitors) -> None:
        one = await bench.logged_in(visitor, "operator")
        wrong = {"old": "a guess of mine", "new": "another password", "again": "another password"}
        for status in [403] * logins.FREE + [429]:
            assert (await one.post("/account", wrong))[0] == status
        assert (await one.post("/account", {**wrong, "old": PASSWORD}))[0] == 429
        guess = "a wrong present password was given, from 127.0.0.1"
        assert audit(bench, "operator")[1 : 1 + logins.FREE] == [guess] * logins.FREE
        later(bench, logins.wait_after(logins.FREE))
        assert (await one.post("/account", {**wrong, "old": PASSWORD}))[::2] == (303, "/login")

    run(tmp_path, where, act)


def test_refusals_are_in_the_audit(tmp_path: pathlib.Path, where: str) -> None:
    async def act(bench: Bench, visitor: Visitors) -> None:
        one = await bench.logged_in(visitor, "reader")
        assert (await one.get("/users"))[0] == 403
        assert (await one.answered("/account", {"old": "x"})).status == 403
        assert audit(bench, "reader")[1:] == [
            "was refused GET /users, since it is for administrators, from 127.0.0.1",
            "was refused POST /account, since it came from no page of this service, from 127.0.0.1",
        ]

    run(tmp_path, where, act)


@pytest.mark.parametrize(
    "kind", ("application/x-www-form-urlencoded", "multipart/form-data", "application/json", "text/plain")
)
def test_a_body_that_spells_nothing_is_a_bad_request(tmp_path: pathlib.Path, where: str, kind: str) -> None:
    async def act(bench: Bench, visitor: Visitors) -> None:
        one = await bench.logged_in(visitor, "operator")
        bodies = [
            b"name=%00",
            b"\xff\xfe\x00=\x00",
            b'{"text": ',
            b"--x\r\nContent-Disposition: none\r\n\r\n",
            b"[" * 60000,
        ]
        for path in ("/login", "/send", "/compose", "/look", "/account", "/nowhere"):
            for body in bodies:
                found = await one.answered(path, body, {"Content-Type": f"{kind}; boundary=x; charset=utf-8"})
                assert found.status == 400 or kind.endswith("urlencoded") and found.status in (403, 404), (path, body)
            odd = {"Content-Type": "application/x-www-form-urlencoded; charset=none-such"}
            assert (await one.answered(path, b"name=x", odd)).status == 400

    run(tmp_path, where, act)


def test_what_ends_a_log_in(tmp_path: pathlib.Path, where: str) -> None:
    async def act(bench: Bench, visitor: Visitors) -> None:
        held = bench.store.database
        one = await bench.logged_in(visitor, "operator")
        cookie = one.client.session.cookie_jar.filter_cookies(one.client.make_url("/"))["login"].value
        assert (await one.post("/logout", {}))[0] == 303
        assert (await visitor().answered("/", headers={"Cookie": f"login={cookie}"})).status == 303, "a stolen cookie"
        for end in (
            lambda: users.change_role(held, "operator", Role.READER, "a test"),
            lambda: users.change_password(held, "operator", PASSWORD, "a test"),
            lambda: users.disable(held, "operator", True, "a test"),
        ):
            two = await bench.logged_in(visitor, "operator")
            end()
            assert (await two.get("/"))[0] == 303
        assert (await visitor().log_in("operator"))[0] == 403, "who is disabled does not log in"
        held.run("UPDATE logins SET begun = begun - ?", logins.LASTS)
        users.disable(held, "operator", False, "a test")
        three = await bench.logged_in(visitor, "operator")
        held.run("UPDATE logins SET begun = begun - ?", logins.LASTS)
        assert (await three.get("/"))[0] == 303, "a log-in lasts a shift"

    run(tmp_path, where, act)


def ending(held: Database, does: str) -> Callable[[str, str], bool]:
    """A look at the operator's password; before it says what it found, somebody ends all his log-ins."""
    is_password = passwords.is_password

    def found(password: str, secret: str) -> bool:
        is_his = is_password(password, secret)
        if does == "password":
            users.change_password(held, "operator", "another password", "a test")
        else:
            users.disable(held, "operator", True, "a test")
        return is_his

    return found


@pytest.mark.parametrize("does", ("password", "disable"))
def test_what_ends_all_log_ins_ends_the_one_that_begins(
    tmp_path: pathlib.Path, where: str, monkeypatch: pytest.MonkeyPatch, does: str
) -> None:
    """The old password was looked at before, and the log-in stands in the database after."""

    async def act(bench: Bench, visitor: Visitors) -> None:
        held = bench.store.database
        one = visitor()
        with monkeypatch.context() as patched:
            patched.setattr(passwords, "is_password", ending(held, does))
            assert (await one.log_in("operator"))[0] == 403
        assert held.run("SELECT count(*) FROM logins WHERE name = 'operator' AND ended IS NULL") == [(0,)]
        assert (await one.answered("/")).status == 303
        if does == "password":
            assert await visitor().log_in("operator", "another password") == (303, "/")

    run(tmp_path, where, act)


@pytest.mark.parametrize("does", ("password", "disable"))
@pytest.mark.parametrize("path", ("/account", "/account/tokens"))
def test_what_ends_all_log_ins_ends_what_the_present_password_begins(
    tmp_path: pathlib.Path, where: str, monkeypatch: pytest.MonkeyPatch, path: str, does: str
) -> None:
    """No token stands after it, and no password that was chosen by who knew the old one."""

    async def act(bench: Bench, visitor: Visitors) -> None:
        held = bench.store.database
        one = await bench.logged_in(visitor, "operator")
        fields = {"do": "add", "name": "map", "days": "9", "old": PASSWORD, "new": PASSWORD[::-1]}
        with monkeypatch.context() as patched:
            patched.setattr(passwords, "is_password", ending(held, does))
            assert (await one.post(path, {**fields, "again": fields["new"]}))[0] == 422
        assert tokens.listed(held) == [] and (await one.answered("/account")).status == 303
        assert (await visitor().log_in("operator", fields["new"]))[0] == 403
        if does == "password":
            assert await visitor().log_in("operator", "another password") == (303, "/")

    run(tmp_path, where, act)


def test_a_log_in_ends_where_nobody_is_there(tmp_path: pathlib.Path, where: str) -> None:
    async def act(bench: Bench, visitor: Visitors) -> None:
        held, one = bench.store.database, await bench.logged_in(visitor, "reader")
        held.run("UPDATE logins SET begun = begun - 1700")
        assert (await one.get("/"))[0] == 200
        held.run("UPDATE logins SET begun = begun - 1700, seen = seen - 1700")
        assert (await one.get("/history"))[0] == 200, "something was asked for meanwhile"
        held.run("UPDATE logins SET seen = seen - 1700")
        async with one.client.get("/events?view=wall") as answer:
            assert answer.status == 200, "it stands still"
        face = next(iter(bench.service.by_key))
        assert (await one.get(f"/pictures/{face}/464f47.svg"))[0] == 200
        held.run("UPDATE logins SET seen = seen - 200")
        assert (await one.get("/"))[0] == 303, "what pages ask for by themselves counts for nothing"

    run(tmp_path, where, act)


def test_who_is_logged_in_twice_ends_the_other_one(tmp_path: pathlib.Path, where: str) -> None:
    async def act(bench: Bench, visitor: Visitors) -> None:
        one, two, other = [await bench.logged_in(visitor, name) for name in ("reader", "reader", "operator")]
        page = (await one.get("/account"))[1]
        assert page.count("this one") == 1 and len(keys := ENDS.findall(page)) == 1 and "127.0.0.1" in page
        assert (await other.post(f"/logins/{keys[0]}/end", {}))[0] == 303 and (await two.get("/"))[0] == 200
        assert (await one.post(f"/logins/{keys[0]}/end", {}))[::2] == (303, "/account")
        assert (await two.get("/"))[0] == 303 and (await one.get("/"))[0] == 200 == (await other.get("/"))[0]
        assert (
            audit(bench, "reader")[-1] == "ended a log-in from 127.0.0.1"
            and "ended" not in audit(bench, "operator")[-1]
        )
        assert not ENDS.findall((await one.get("/account"))[1])

    run(tmp_path, where, act)


def test_of_a_password_its_salted_sum_is_kept(monkeypatch: pytest.MonkeyPatch) -> None:
    monkeypatch.setattr(passwords, "COST", 2**4)
    kept = passwords.secret_of("correct horse")
    assert kept.startswith("scrypt 16 8 3 ") and "correct" not in kept
    assert passwords.is_password("correct horse", kept) and not passwords.is_password("correct Horse", kept)
    assert passwords.secret_of("correct horse") != kept, "each has a salt of its own"
    assert not passwords.is_password("x" * 1000, kept)
    for bad in ("short", "a" * 20, "x" * 300):
        assert passwords.fault_of(bad)


def test_users_from_the_command_line(
    tmp_path: pathlib.Path, monkeypatch: pytest.MonkeyPatch, capsys: pytest.CaptureFixture[str]
) -> None:
    monkeypatch.setattr(passwords, "COST", 2**4)
    monkeypatch.setattr(program, "asked_password", lambda: "a long password")

    def call(*words: str) -> int:
        monkeypatch.setattr("sys.argv", ["users", "--database", str(tmp_path / "database"), *words])
        return program.main()

    assert call("--create", "add", "ann", "administrator") == 0 and call("add", "bob", "reader") == 0
    assert call("role", "bob", "operator") == 0 and call("disable", "bob") == 0 and call("list") == 0
    assert capsys.readouterr().out == "ann administrator\nbob operator disabled\n"
    for words, why in (
        (("add", "ann", "reader"), "already"),
        (("add", "Ann", "reader"), "small letters"),
        (("add", "eve", "king"), "no role"),
        (("role", "eve", "reader"), "no user"),
        (("disable", "ann"), "no administrator would be left"),
        (("role", "ann", "reader"), "no administrator would be left"),
    ):
        with pytest.raises(Refusal, match=why):
            call(*words)

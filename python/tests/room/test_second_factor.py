"""The second factor: codes as RFC 6238 has them, and pages that ask for them."""

import base64
import pathlib
import re

import pytest

from . import needs

needs.modules("aiohttp", "jinja2")

from wisangub.room import users as program
from wisangub.room.store import factors, history, logins, queries, totp
from wisangub.room.store.database import Database

from .visits import PASSWORD, Bench, Visitor, Visitors, run

SEED = b"1234567890"
VECTORS = {  # RFC 6238, appendix B: the codes of eight digits at these times, by kinds and the length of their seeds
    ("sha1", 20): "94287082 07081804 14050471 89005924 69279037 65353130",
    ("sha256", 32): "46119246 68084774 67062674 91819424 90698825 77737706",
    ("sha512", 64): "90693936 25091201 99943326 93441116 38618901 47863826",
}
TIMES = (59, 1111111109, 1111111111, 1234567890, 2000000000, 20000000000)
COUNTS = "755224 287082 359152 969429 338314 254676 287922 162583 399871 520489"  # RFC 4226, appendix D: counts 0 to 9
HIDDEN = re.compile(r'name="(secret|shown)" value="([^"]*)"')


@pytest.mark.parametrize(("kind", "size"), VECTORS)
def test_codes_are_those_of_the_rfc(kind: str, size: int) -> None:
    seed = (SEED * 7)[:size]
    assert [totp.code(seed, time // 30, 8, kind) for time in TIMES] == VECTORS[kind, size].split(" ")
    assert [totp.code(SEED * 2, count) for count in range(10)] == COUNTS.split(" ")


def test_a_code_counts_around_its_time_and_once() -> None:
    secret, now = base64.b32encode(SEED * 2).decode(), 1234567890.0
    codes = {step: totp.code(SEED * 2, int(now // 30) + step) for step in range(-2, 3)}
    for step, code in codes.items():
        assert (totp.step_of(secret, code, now, 0) is not None) is (abs(step) < 2), step
    taken = totp.step_of(secret, f" {codes[0][:3]} {codes[0][3:]} ", now, 0)
    assert taken == now // 30 and totp.step_of(secret, codes[0], now, taken) is None
    assert (
        totp.step_of(secret, codes[-1], now, taken) is None and totp.step_of(secret, codes[1], now, taken) == taken + 1
    )
    assert totp.step_of(secret, "", now, 0) is None and len(totp.new_secret()) == 32
    assert totp.address_of("ann", "ABC").startswith("otpauth://totp/Control%20room:ann?secret=ABC&")


def code_of(held: Database, secret: str) -> str:
    """The code of the next step, so that each call has another one than what was used as it began."""
    held.run("UPDATE second_factors SET used = 0")
    return totp.code(base64.b32decode(secret), int(queries.now(held) // totp.STEP))


async def shown(one: Visitor) -> dict[str, str]:
    """The secret that the page offers."""
    return dict(HIDDEN.findall((await one.get("/account"))[1]))


async def log_in(one: Visitor, code: str) -> int:
    fields = {"token": await one.token("/login"), "name": "operator", "password": PASSWORD, "code": code}
    return (await one.answered("/login", fields)).status


def test_who_has_a_second_factor_gives_its_code(tmp_path: pathlib.Path, where: str) -> None:
    async def act(bench: Bench, visitor: Visitors) -> None:
        held, one = bench.store.database, await bench.logged_in(visitor, "operator")
        offered = await shown(one)
        offered["old"] = PASSWORD
        wrong = {**offered, "do": "begin", "code": "000000", "secret": totp.new_secret()}
        assert (await one.post("/account/factor", wrong))[0] == 403, "another secret than was shown"
        begun = {**offered, "do": "begin", "code": code_of(held, offered["secret"])}
        assert (await one.post("/account/factor", begun))[::2] == (303, "/account")
        assert await log_in(visitor(), "") == 403 == await log_in(visitor(), "000000")
        code = code_of(held, offered["secret"])
        logins.forgive(held, "operator")
        assert await log_in(visitor(), code) == 303 and await log_in(visitor(), code) == 403, "it counts once"
        lines = [str(row[0]) for row in held.run("SELECT what FROM audit WHERE who = 'operator'")]
        assert "has a second factor" in lines and "a log-in failed by its code, from 127.0.0.1" in lines
        assert offered["secret"] not in str(lines)
        assert (await one.post("/account/factor", {"do": "end", "code": "000000"}))[0] == 403
        logins.forgive(held, "operator")
        ended = {"do": "end", "code": code_of(held, offered["secret"])}
        assert (await one.post("/account/factor", ended))[0] == 303 and (await one.get("/"))[0] == 303
        assert await log_in(visitor(), "") == 303

    run(tmp_path, where, act)


def test_whoever_finds_a_log_in_open_begins_no_second_factor(tmp_path: pathlib.Path, where: str) -> None:
    """With a secret of his own he would keep its user out, who could not even change the password."""

    async def act(bench: Bench, visitor: Visitors) -> None:
        held, one = bench.store.database, await bench.logged_in(visitor, "operator")
        offered = await shown(one)
        for old in (None, "", "another password"):
            begun = {**offered, "do": "begin", "code": code_of(held, offered["secret"])}
            begun |= {} if old is None else {"old": old}
            status, page, _ = await one.post("/account/factor", begun)
            assert status == 403 and "the present password is another one" in page
            logins.forgive(held, "operator")
        assert factors.since(held, "operator") is None and await log_in(visitor(), "") == 303
        said = [what for _, _, who, what in history.audit(held, None) if who == "operator"]
        assert said.count("a wrong present password was given, from 127.0.0.1") == 3

    run(tmp_path, where, act)


def test_an_administrator_lets_in_who_lost_it(
    tmp_path: pathlib.Path, where: str, monkeypatch: pytest.MonkeyPatch, capsys: pytest.CaptureFixture[str]
) -> None:
    async def act(bench: Bench, visitor: Visitors) -> None:
        held, secret = bench.store.database, totp.new_secret()
        for by_page in (True, False):
            factors.enter(held, "operator", secret, code_of(held, secret))
            assert await log_in(visitor(), "") == 403
            if by_page:
                one = await bench.logged_in(visitor, "administrator")
                assert "with a code" in (await one.get("/users"))[1]
                status, page, _ = await one.post("/users", {"do": "one-factor", "name": "operator"})
                assert status == 200 and "operator gives no code any more" in page
            else:
                monkeypatch.setattr("sys.argv", ["users", "--database", where, "one-factor", "operator"])
                assert program.main() == 0
            assert await log_in(visitor(), "") == 303

    run(tmp_path, where, act)

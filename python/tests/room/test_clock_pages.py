"""What pages say, and who is logged in, where the database's clock jumps ahead and back again."""

import pathlib
import re
import time

import pytest

from . import needs

needs.modules("aiohttp", "jinja2")

from wisangub.room.store import logins
from wisangub.room.store.sqlite import Sqlite
from wisangub.room.web.words import age_word

from .test_clock import AHEAD, jump
from .test_events import listened, told
from .visits import Bench, Visitors, run

TIME = r"nothing is known since \d{4}-\d\d-\d\d \d\d:\d\d:\d\d CES?T, <time [^>]*>"


def test_a_log_in_that_begins_at_a_time_to_come_is_over(tmp_path: pathlib.Path, where: str) -> None:
    async def act(bench: Bench, visitor: Visitors) -> None:
        held = bench.store.database
        jump(held, AHEAD)
        cookie = logins.begin(held, "operator", "192.0.2.1")
        assert logins.find(held, cookie) is not None
        for seconds in (0.0, AHEAD - 60):
            jump(held, seconds)
            assert logins.find(held, cookie) is None, "it would last longer than it may"

    run(tmp_path, where, act)


def test_log_ins_that_failed_at_a_time_to_come_shut_nobody_out(
    tmp_path: pathlib.Path, where: str, monkeypatch: pytest.MonkeyPatch
) -> None:
    monkeypatch.setattr(logins, "_FIRST_WAIT", 60.0)  # longer than a busy machine takes for these

    async def act(bench: Bench, visitor: Visitors) -> None:
        held = bench.store.database
        jump(held, AHEAD)
        tries = [logins.attempt(held, "operator", "192.0.2.1") for _ in range(logins.FREE + 1)]
        assert tries[-1] > 0 and not any(tries[:-1])
        jump(held, 0.0)
        assert logins.attempt(held, "operator", "192.0.2.1") == 0

    run(tmp_path, where, act)


def test_the_wall_says_since_when_nothing_is_known(tmp_path: pathlib.Path, where: str) -> None:
    async def act(bench: Bench, visitor: Visitors) -> None:
        one = await bench.logged_in(visitor, "reader")
        bench.read(bench.one)
        assert "heard <time" in (await one.get("/"))[1]
        jump(bench.store.database, AHEAD)
        bench.read(bench.one, number=-2, minutes=4)
        wall = (await one.get("/"))[1]
        assert re.search(TIME + "by a clock that was ahead</time>", wall), "the clock is back, and the sign is dead"
        assert "heard <time" not in wall and "3 signs, 0 lit, 3 silent" in wall and "0 s ago" not in wall
        jump(bench.store.database, -3600.0)
        bench.read(bench.one, number=-3, minutes=3)
        assert re.search(TIME + "60 min ago</time>", (await one.get("/"))[1])

    run(tmp_path, where, act)


def test_open_pages_are_told_of_a_jump(tmp_path: pathlib.Path, monkeypatch: pytest.MonkeyPatch) -> None:
    async def act(bench: Bench, visitor: Visitors) -> None:
        one = await bench.logged_in(visitor, "reader")
        stream = await listened(one, "wall")
        assert "counts" in await told(stream)
        monkeypatch.setattr(Sqlite, "clock", f"({Sqlite.clock} + {AHEAD})")
        assert float((await told(stream))["now"]) > time.time() + AHEAD - 60
        stream.close()

    run(tmp_path, str(tmp_path / "database"), act)


def test_an_age_below_nothing_is_none() -> None:
    assert [age_word(seconds) for seconds in (-0.5, -1.5, -AHEAD)] == [
        "0 s ago",
        "by a clock that was ahead",
        "by a clock that was ahead",
    ]

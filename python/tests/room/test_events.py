"""Server-sent events: what has changed, to those who listen, as long as their log-in stands."""

import asyncio
import json
import pathlib
from typing import Any

import pytest

from . import needs

needs.modules("aiohttp", "jinja2")

from jinja2 import TemplateNotFound

from wisangub.room.store import users
from wisangub.room.store.users import Role
from wisangub.room.web import events, wall

from .visits import Bench, Visitor, Visitors, run


async def listened(one: Visitor, view: str) -> Any:
    answer = await one.client.get(f"/events?view={view}")
    assert answer.status == 200 and answer.headers["Content-Type"] == "text/event-stream"
    return answer


async def told(answer: Any) -> dict[str, str]:
    """The next event."""
    while True:
        line = await asyncio.wait_for(answer.content.readline(), 20)
        assert line, "the stream has ended"
        if line.startswith(b"data: "):
            held: dict[str, str] = json.loads(line[6:])
            return held


def test_what_has_changed_is_told(tmp_path: pathlib.Path, where: str) -> None:
    async def act(bench: Bench, visitor: Visitors) -> None:
        bench.read(bench.one)
        one, two = [await bench.logged_in(visitor, name) for name in ("reader", "operator")]
        streams = [await listened(one, "wall"), await listened(two, "wall")]
        for stream in streams:
            all_parts = {"counts"} | {f"sign-{row}" for row in bench.rows.values()}
            assert set(await told(stream)) == all_parts, "all at first"
        bench.read(bench.two, text=b"NEW".hex())
        for stream in streams:
            parts = await told(stream)
            assert set(parts) == {"counts", f"sign-{bench.two}"} and "shows NEW" in parts[f"sign-{bench.two}"]
        sign = await listened(one, f"sign/{bench.one}")
        assert set(await told(sign)) == {"shown", "device", "brightness", "commands"}
        bench.store.commands.ask(bench.one, "operator", "blank 1 65535 255 127.0.0.1")
        parts = await told(sign)
        assert set(parts) == {"commands"} and "waits for its turn" in parts["commands"]
        for stream in (*streams, sign):
            stream.close()

    run(tmp_path, where, act)


def test_a_fault_of_a_view_ends_its_streams_and_no_other(
    tmp_path: pathlib.Path, monkeypatch: pytest.MonkeyPatch, capfd: pytest.CaptureFixture[str]
) -> None:
    """As where a template is away while the service is installed anew; afterwards all is told as before."""
    faults: list[Exception] = []

    def parts(*values: Any) -> dict[str, str]:
        if faults:
            raise faults[0]
        return made(*values)

    made = wall.parts
    monkeypatch.setattr(wall, "parts", parts)

    async def act(bench: Bench, visitor: Visitors) -> None:
        one = await bench.logged_in(visitor, "reader")
        walls, sign = await listened(one, "wall"), await listened(one, f"sign/{bench.one}")
        assert "counts" in await told(walls) and "shown" in await told(sign)
        faults.append(TemplateNotFound("parts.html"))
        bench.read(bench.one, text=b"NEW".hex())
        assert "NEW" in (await told(sign))["shown"]
        assert not (await asyncio.wait_for(walls.content.read(), 20)).startswith(b"data"), "it ends"
        await asyncio.sleep(20 * bench.settings.look)
        faults.clear()
        walls = await listened(one, "wall")
        assert "shows NEW" in (await told(walls))[f"sign-{bench.one}"]
        for stream in (walls, sign):
            stream.close()

    run(tmp_path, str(tmp_path / "database"), act)
    assert capfd.readouterr().err.count("what has changed cannot be told: TemplateNotFound") == 1


def test_a_card_is_made_anew_where_its_sign_says_something_new(tmp_path: pathlib.Path, where: str) -> None:
    async def act(bench: Bench, visitor: Visitors) -> None:
        room, held = bench.service, bench.store.database

        def parts() -> dict[str, str]:
            return wall.parts(room, wall.cards(room, held, frozenset(room.signs))[0])

        def made() -> int:
            before = room.card.cache_info().misses
            parts()
            return room.card.cache_info().misses - before

        assert [made(), made()] == [len(bench.rows), 0]
        bench.read(bench.two, text=b"NEW".hex())
        assert [made(), made()] == [1, 0] and "shows NEW" in parts()[f"sign-{bench.two}"]
        bench.store.commands.ask(bench.one, "operator", "blank 1 65535 255 127.0.0.1")
        assert [made(), made()] == [1, 0] and "1 waiting" in parts()[f"sign-{bench.one}"]

    run(tmp_path, where, act)


@pytest.mark.parametrize("is_busy", (False, True), ids=("a silent view", "a view that tells all the time"))
def test_a_stream_ends_with_its_log_in(tmp_path: pathlib.Path, monkeypatch: pytest.MonkeyPatch, is_busy: bool) -> None:
    monkeypatch.setattr(events, "SILENCE", 0.5)
    monkeypatch.setattr(events, "AGES", 60.0)

    async def act(bench: Bench, visitor: Visitors) -> None:
        one = await bench.logged_in(visitor, "operator")
        stream = await listened(one, f"sign/{bench.one}")
        await told(stream)
        users.change_role(bench.store.database, "operator", Role.READER, "a test")
        end = asyncio.ensure_future(stream.content.read())
        for number in range(100):
            if is_busy:
                bench.read(bench.one, -2 - number, text=f"{number}".encode().hex())
            if (await asyncio.wait([end], timeout=0.2))[0]:
                break
        assert end.done(), "the stream has ended"

    run(tmp_path, str(tmp_path / "database"), act)


def test_streams_are_counted(tmp_path: pathlib.Path, monkeypatch: pytest.MonkeyPatch) -> None:
    monkeypatch.setattr(events, "MOST_OF_ONE", 2)

    async def act(bench: Bench, visitor: Visitors) -> None:
        one = await bench.logged_in(visitor, "reader")
        streams = [await listened(one, "wall") for _ in range(2)]
        assert (await one.answered("/events?view=wall")).status == 503
        for wrong in ("", "walls", "sign/999", "sign/x"):
            assert (await one.answered(f"/events?view={wrong}")).status == 404
        streams.pop().close()
        ends = asyncio.get_running_loop().time() + 20
        while (found := await one.client.get("/events?view=wall")).status == 503:
            found.close()
            assert asyncio.get_running_loop().time() < ends, "one that was let go makes room for another"
            await asyncio.sleep(0.05)
        for stream in (*streams, found):
            stream.close()

    run(tmp_path, str(tmp_path / "database"), act)

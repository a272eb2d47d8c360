"""What watches the service: /health for everybody, and metrics as Prometheus reads them."""

import asyncio
import importlib.util
import pathlib
import re
import time

import pytest

from . import needs

needs.modules("aiohttp", "jinja2")

from wisangub.room.store import gauges
from wisangub.room.store.database import Database, Failed
from wisangub.room.web import health

from .test_api import System
from .visits import Bench, Visitors, run

SAMPLE = re.compile(r"^(\w+)(?:\{([^}]*)\})? (\S+)$", re.MULTILINE)


def test_health_is_ok_while_a_worker_looks(tmp_path: pathlib.Path, where: str, monkeypatch: pytest.MonkeyPatch) -> None:
    monkeypatch.setattr(health, "_KEPT", 0.0)

    async def act(bench: Bench, visitor: Visitors) -> None:
        one = visitor()
        assert await one.get("/health") == (200, '{"status": "no worker"}')
        bench.store.alarms.look()
        assert await one.get("/health") == (200, '{"status": "ok"}')
        for jump in ("- 120", "+ 3600"):
            bench.store.database.run(f"UPDATE alarm_looks SET at = {{clock}} {jump}")
            assert await one.get("/health") == (200, '{"status": "no worker"}')

        def away(_: Database) -> float:
            raise Failed("it is away")

        monkeypatch.setattr(gauges, "worker_age", away)
        assert await one.get("/health") == (503, '{"status": "no database"}')

    run(tmp_path, where, act)


def test_health_asks_the_database_once_a_second(tmp_path: pathlib.Path, monkeypatch: pytest.MonkeyPatch) -> None:
    asked = []
    monkeypatch.setattr(gauges, "worker_age", lambda database: asked.append(database))

    async def act(bench: Bench, visitor: Visitors) -> None:
        for _ in range(20):
            await visitor().get("/health")
        assert 1 <= len(asked) < 10

    run(tmp_path, str(tmp_path / "database"), act)


def test_who_asks_while_the_database_is_asked_waits_for_its_answer(
    tmp_path: pathlib.Path, monkeypatch: pytest.MonkeyPatch
) -> None:
    """At the first look too: a database that answers is not away."""

    def slowly(_: Database) -> float:
        time.sleep(0.3)
        return 1.0

    monkeypatch.setattr(gauges, "worker_age", slowly)

    async def act(bench: Bench, visitor: Visitors) -> None:
        found = await asyncio.gather(*(visitor().get("/health") for _ in range(4)))
        assert set(found) == {(200, '{"status": "ok"}')}

    run(tmp_path, str(tmp_path / "database"), act)


def samples(text: str) -> dict[str, float]:
    """The samples of an exposition, by name and labels."""
    assert all(not line or line.startswith("# ") or SAMPLE.match(line) for line in text.split("\n")), text
    return {f"{name}{{{labels}}}" if labels else name: float(value) for name, labels, value in SAMPLE.findall(text)}


def test_metrics_want_the_word_of_a_system(tmp_path: pathlib.Path, where: str) -> None:
    needs.modules("prometheus_client")

    async def act(bench: Bench, visitor: Visitors) -> None:
        bench.read(bench.one)
        bench.silent(bench.gantry)
        bench.store.commands.ask(bench.two, "operator", "blank 1 65535 255 127.0.0.1")
        bench.store.alarms.look()
        assert (await visitor().get("/metrics"))[0] == 401
        system = System(bench, visitor, "reader", reads_only=True)
        sent = {"Authorization": f"Bearer {system.word}"}
        await system.get("/signs")
        answer = await system.client.get("/metrics", headers=sent)
        assert answer.status == 200 and answer.content_type == "text/plain"
        found = samples(await answer.text())
        assert found['wisangub_signs{state="lit"}'] == 1 and found['wisangub_signs{state="silent"}'] == 2
        assert found['wisangub_alarms{kind="silent"}'] == 1 and found["wisangub_commands_waiting"] == 1
        assert found["wisangub_commands_asked_total"] == 1 and found["wisangub_worker_look_age_seconds"] < 30
        assert found['wisangub_requests_total{kind="api",status="200"}'] == 1
        assert found['wisangub_requests_total{kind="page",status="401"}'] == 1
        assert found['wisangub_request_seconds_count{kind="api"}'] == 1
        bench.store.database.run("DELETE FROM rights WHERE name = 'reader'")
        assert (await system.client.get("/metrics", headers=sent)).status == 403, "they are of all signs"

    run(tmp_path, where, act)


def test_without_the_package(tmp_path: pathlib.Path, monkeypatch: pytest.MonkeyPatch) -> None:
    monkeypatch.setattr(importlib.util, "find_spec", lambda name: None)

    async def act(bench: Bench, visitor: Visitors) -> None:
        system = System(bench, visitor, "reader")
        answer = await system.client.get("/metrics", headers={"Authorization": f"Bearer {system.word}"})
        assert answer.status == 501 and "python3-prometheus-client" in (await answer.json())["error"]
        assert (await visitor().get("/health"))[0] == 200

    run(tmp_path, str(tmp_path / "database"), act)

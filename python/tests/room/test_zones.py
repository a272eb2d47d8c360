"""By which zone times go where no --zone says it: its name stands on pages, in schedules and at the start."""

import os
import pathlib
import time
from typing import Iterator

import pytest

from . import needs

needs.modules("aiohttp", "jinja2")

from wisangub.room import times as room_times
from wisangub.room.store import plans
from wisangub.room.times import Times, machine_zone
from wisangub.room.web.settings import zone_of

from .test_database import two_stores
from .test_plans import LINE, always, look, planned, second, times
from .visits import Bench, Visitors, run

TOKYO = "Asia/Tokyo"


@pytest.fixture(name="tokyo")
def of_tokyo(monkeypatch: pytest.MonkeyPatch) -> Iterator[None]:
    """A machine whose zone this is."""
    monkeypatch.setenv("TZ", TOKYO)
    time.tzset()
    yield
    monkeypatch.undo()
    time.tzset()


@pytest.mark.parametrize(
    ("zone", "link", "name", "found"),
    (
        (":Asia/Tokyo", "", "", TOKYO),
        ("/usr/share/zoneinfo/Asia/Tokyo", "", "", TOKYO),
        ("CET-1CEST", "/usr/share/zoneinfo/Asia/Tokyo", "Asia/Tokyo", "UTC"),
        ("", "/usr/share/zoneinfo/Asia/Tokyo", "Europe/Berlin", TOKYO),
        ("", "../usr/share/zoneinfo/Etc/UTC", "", "Etc/UTC"),
        ("", "", "Asia/Tokyo\n", TOKYO),
        ("", "", "Nowhere/Town", "UTC"),
        ("", "", "", "UTC"),
    ),
)
def test_the_name_of_the_machines_zone(
    zone: str, link: str, name: str, found: str, tmp_path: pathlib.Path, monkeypatch: pytest.MonkeyPatch
) -> None:
    """Of TZ, of the link that /etc/localtime is, or of /etc/timezone; UTC where it has none."""
    monkeypatch.setattr(room_times, "MACHINE", tmp_path)
    if zone:
        monkeypatch.setenv("TZ", zone)
    else:
        monkeypatch.delenv("TZ", raising=False)
    if link:
        os.symlink(link, tmp_path / "localtime")
    if name:
        (tmp_path / "timezone").write_text(name, encoding="utf-8")
    assert machine_zone() == found and str(zone_of(None)) == found


@pytest.mark.usefixtures("tokyo")
def test_times_without_a_zone_go_by_the_machines() -> None:
    night = times("2026-11-30", "2026-11-30", "", "20:00", "21:00", "")
    assert night.next(0.0) == second("2026-11-30T11:00")
    words = plans.told(night)
    assert words == "from 2026-11-30 20:00 until 2026-11-30 21:00 by the zone of the worker's machine, without a break"
    assert plans.told(times("2026-11-30", "2026-11-30", "", "20:00", "21:00", TOKYO)).endswith(
        f" {TOKYO}, without a break"
    )


@pytest.mark.usefixtures("tokyo")
def test_a_worker_says_once_by_which_zone_it_goes(where: str, capfd: pytest.CaptureFixture[str]) -> None:
    store, _, one = two_stores(where)
    number = planned(store, one)
    plans.add_schedule(store.database, number, always(""), "me")
    plans.add_schedule(store.database, number, always("UTC"), "me")
    for _ in range(2):
        look(store)
    assert capfd.readouterr().err.splitlines() == [
        f"plan Road works: a schedule names no zone, and goes by that of this machine: {TOKYO}"
    ]


@pytest.mark.usefixtures("tokyo")
def test_a_schedule_of_pages_without_a_zone_has_the_machines(tmp_path: pathlib.Path) -> None:
    """It does not change where a worker's machine has another one."""

    async def act(bench: Bench, visitor: Visitors) -> None:
        one, held = await bench.logged_in(visitor, "operator"), bench.store.database
        then = f"/plans/{plans.keep(held, 'Night', [(bench.one, LINE)], 'operator')}"
        assert f"Times of {TOKYO}." in (await one.get(then))[1]
        fields = {"first_day": "2026-11-30", "last_day": "2026-11-30", "begins": "20:00", "ends": "21:00"}
        assert (await one.post(then, {"do": "schedule", **fields}))[0] == 303
        (kept,) = plans.listed(held)[0].schedules
        assert kept.times == Times.of("2026-11-30", "2026-11-30", "", "20:00", "21:00", TOKYO)
        assert f"20:00 until 2026-11-30 21:00 {TOKYO}, without a break" in (await one.get(then))[1]

    run(tmp_path, str(tmp_path / "database"), act, zone=None)

"""A sign: what it shows and why, its commands, and its message table."""

from dataclasses import dataclass

from aiohttp import web

from wisangub.room import device as of_itself
from wisangub.room.store import alarms, brightness, devices, queries
from wisangub.room.store.alarms import Alarm
from wisangub.room.store.brightness import Asked
from wisangub.room.store.database import Database
from wisangub.room.store.devices import DeviceView
from wisangub.room.store.messages import Messages
from wisangub.room.store.queries import CommandView, SignView, TableView, Wanted

from .service import Service, rights_of, service_of, sign_of

_FEW, _FEW_SETTINGS = 8, 3


@dataclass(frozen=True)
class Overview:
    """What the page of a sign says."""

    sign: SignView
    picture: str | None
    is_stale: bool
    commands: list[CommandView]
    alarms: list[Alarm]
    device: DeviceView | None
    brightness: list[Asked]
    now: float


def _overviewed(service: Service, database: Database, sign_id: int) -> Overview:
    sign = queries.sign(database, sign_id)
    assert sign is not None
    now = queries.now(database)
    commands = queries.commands(database, Wanted(sign=sign_id, most=_FEW))
    picture = service.picture(sign_id, sign.shown.text) if sign.shown else None
    stands, device = alarms.listed(database, sign_id), devices.view(database, sign_id)
    asked = brightness.listed(database, sign_id, _FEW_SETTINGS)
    return Overview(sign, picture, sign.is_stale(now), commands, stands, device, asked, now)


async def overview(request: web.Request) -> web.Response:
    service, sign_id = service_of(request), sign_of(request)
    found = await service.connections.run(lambda database: _overviewed(service, database, sign_id))
    return service.page(
        request,
        "sign.html",
        it=found,
        sign=found.sign,
        now=found.now,
        face=service.faces[sign_id],
        tab="overview",
        most_level=brightness.most_level(found.device),
        controls=of_itself.CONTROLS,
        control_word=of_itself.control,
        may_command=rights_of(request).may_command(sign_id),
        view=f"sign/{sign_id}",
    )


def parts(service: Service, database: Database, sign_id: int) -> dict[str, str]:
    """What an event may replace."""
    found = _overviewed(service, database, sign_id)
    return {
        "shown": service.part("parts.html", "shown", found),
        "commands": service.part("parts.html", "commands", found),
        "device": service.part("parts.html", "device", found),
        "brightness": service.part("parts.html", "brightness", found),
    }


async def table(request: web.Request) -> web.Response:
    service, sign_id = service_of(request), sign_of(request)

    def found(database: Database) -> tuple[SignView | None, TableView, float]:
        return queries.sign(database, sign_id), queries.table(database, sign_id), queries.now(database)

    sign, held, now = await service.connections.run(found)
    return service.page(
        request,
        "table.html",
        sign=sign,
        table=held,
        now=now,
        tab="table",
        may_command=rights_of(request).may_command(sign_id),
        view=f"table/{sign_id}",
    )


def table_parts(service: Service, database: Database, sign_id: int) -> dict[str, str]:
    """What an event may replace."""
    sign = queries.sign(database, sign_id)
    return {"table": service.part("parts.html", "table", sign, queries.table(database, sign_id))}


async def read_table(request: web.Request) -> web.StreamResponse:
    """Has a worker read the table before its time."""
    service, sign_id = service_of(request), sign_of(request)
    await service.connections.run(lambda database: Messages(database).want(sign_id))
    raise web.HTTPSeeOther(f"/signs/{sign_id}/table")

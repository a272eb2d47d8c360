"""The list of alarms, and acknowledging them."""

from aiohttp import web

from wisangub.refusal import Refusal
from wisangub.room.store import alarms, queries
from wisangub.room.store.alarms import Alarm
from wisangub.room.store.database import Database

from .service import rights_of, service_of, visitor_of


async def listed(request: web.Request) -> web.Response:
    service, may = service_of(request), rights_of(request)

    def found(database: Database) -> tuple[list[Alarm], float]:
        rows = alarms.listed(database, may_see=None if may.sees_all else may.may_see)
        return rows, queries.now(database)

    rows, now = await service.connections.run(found)
    return service.page(request, "alarms.html", alarms=rows, now=now)


async def acknowledge(request: web.Request) -> web.StreamResponse:
    """Somebody has seen an alarm; one of a sign that may not be seen is none."""
    service, visitor, number = service_of(request), visitor_of(request), int(request.match_info["alarm"])
    may_see = rights_of(request).may_see

    def done(database: Database) -> bool | None:
        sign = alarms.sign_of(database, number)
        return None if sign is None or not may_see(sign) else alarms.see(database, number, visitor.name)

    try:
        is_done = await service.connections.run(done)
    except Refusal as refused:
        raise web.HTTPForbidden(text=f"Nothing was done: {refused}.") from None
    if is_done is None:
        raise web.HTTPNotFound(text="There is no such alarm.")
    if not is_done:
        raise web.HTTPConflict(text="Somebody has acknowledged this alarm before.")
    raise web.HTTPSeeOther("/alarms")

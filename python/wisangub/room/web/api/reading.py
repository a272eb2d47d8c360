"""What other systems read."""

import json
from typing import Any, Callable

from aiohttp import web

from wisangub.room.store import alarms, brightness, devices, groups, history, library, plans, queries, rules
from wisangub.room.store.database import Database
from wisangub.room.store.queries import Wanted
from wisangub.room.web import wall
from wisangub.room.web.service import Service, rights_of, service_of, sign_of

from . import views
from .asked import Wrong, parameters

_MOST = 50
LIST = ("find", "state", "group")
PAGE = ("before", "most")
COMMANDS = ("sign", "who", "outcome", *PAGE)


async def _made(request: web.Request, make: Callable[[Database], Any]) -> web.Response:
    """An answer that is made and spelled in a thread; none where there is nothing."""

    def spelled(database: Database) -> str | None:
        found = make(database)
        return None if found is None else json.dumps(found)

    text = await service_of(request).connections.run(spelled)
    if text is None:
        raise Wrong(404, "There is nothing of this number.")
    return web.Response(text=text, content_type="application/json")


def sign_values(service: Service, database: Database, seen: frozenset[int]) -> list[tuple[wall.Card, views.Value]]:
    """Signs in the fleet's order."""
    names = groups.names_of_signs(database)
    cards, _ = wall.cards(service, database, seen)
    return [(card, views.sign(card, service.faces[card.sign.id], names.get(card.sign.id, []))) for card in cards]


async def signs(request: web.Request) -> web.Response:
    service, asked = service_of(request), parameters(request, LIST)
    wanted = wall.Wanted(asked.get("find", "").strip(), asked.get("state", ""))
    seen, group = rights_of(request).seen(service.signs), asked.get("group")

    def made(database: Database) -> views.Value:
        found = [
            value
            for card, value in sign_values(service, database, seen)
            if wanted.takes(card, value["groups"]) and group in (None, *value["groups"])
        ]
        return {"signs": found, "now": views.time(queries.now(database))}

    return await _made(request, made)


async def sign(request: web.Request) -> web.Response:
    service, sign_id = service_of(request), sign_of(request)
    return await _made(request, lambda database: sign_values(service, database, frozenset([sign_id]))[0][1])


async def table(request: web.Request) -> web.Response:
    sign_id = sign_of(request)

    def made(database: Database) -> views.Value:
        found = queries.table(database, sign_id)
        return {"rows": list(map(views.row, found.rows)), "read": views.time(found.asked)}

    return await _made(request, made)


async def device(request: web.Request) -> web.Response:
    sign_id = sign_of(request)

    def made(database: Database) -> views.Value | None:
        found = devices.view(database, sign_id)
        return views.device(found) if found else None

    return await _made(request, made)


async def brightness_list(request: web.Request) -> web.Response:
    sign_id = sign_of(request)
    return await _made(
        request, lambda database: {"settings": list(map(views.setting, brightness.listed(database, sign_id)))}
    )


async def readings(request: web.Request) -> web.Response:
    sign_id, asked = sign_of(request), parameters(request, PAGE)
    most, after = asked.get("most", _MOST), -asked["before"] if "before" in asked else None
    return await _made(
        request,
        lambda database: {"readings": list(map(views.reading, history.readings(database, sign_id, most, after)))},
    )


async def picture(request: web.Request) -> web.Response:
    """What a sign shows, as it was last heard, under the defaults of its description."""
    service, sign_id = service_of(request), sign_of(request)
    found = await service.connections.run(lambda database: queries.sign(database, sign_id))
    if found is None or found.shown is None:
        raise Wrong(404, "This sign has not said yet what it shows.")
    drawn = await service.pictures.of(service.faces[sign_id], found.shown.text)
    if not drawn.is_good:
        raise Wrong(404, f"There is no picture of what this sign shows: {drawn.why}.")
    return web.Response(body=drawn.plain(), content_type="image/svg+xml")


async def commands(request: web.Request) -> web.Response:
    asked, rights, service = parameters(request, COMMANDS), rights_of(request), service_of(request)
    wanted = Wanted(
        asked.get("sign"),
        asked.get("who", ""),
        asked.get("outcome", ""),
        asked.get("before"),
        asked.get("most", _MOST),
        None if rights.sees_all else rights.seen(service.signs),
    )
    return await _made(
        request, lambda database: {"commands": list(map(views.command, queries.commands(database, wanted)))}
    )


async def command(request: web.Request) -> web.Response:
    number, may_see = int(request.match_info["command"]), rights_of(request).may_see

    def made(database: Database) -> views.Value | None:
        found = queries.command(database, number)
        return views.command(found) if found and may_see(found.sign) else None

    return await _made(request, made)


async def batch(request: web.Request) -> web.Response:
    number, may_see = int(request.match_info["batch"]), rights_of(request).may_see

    def made(database: Database) -> views.Value | None:
        found = history.batch_seen(database, number, may_see)
        return views.batch(found) if found else None

    return await _made(request, made)


async def alarm_list(request: web.Request) -> web.Response:
    may = rights_of(request)
    may_see = None if may.sees_all else may.may_see
    return await _made(
        request, lambda database: {"alarms": list(map(views.alarm, alarms.listed(database, may_see=may_see)))}
    )


async def texts(request: web.Request) -> web.Response:
    service, rights = service_of(request), rights_of(request)
    faces = {sign_id: face for sign_id, face in service.faces.items() if rights.may_see(sign_id)}
    return await _made(
        request, lambda database: {"texts": [views.text(one, faces) for one in library.listed(database)]}
    )


async def purposes(request: web.Request) -> web.Response:
    return await _made(request, lambda database: {"purposes": list(map(views.purpose, rules.purposes(database)))})


async def plan_list(request: web.Request) -> web.Response:
    may_see = rights_of(request).may_see

    def made(database: Database) -> views.Value:
        return {"plans": [views.plan(one) for one in plans.listed(database) if all(map(may_see, one.signs))]}

    return await _made(request, made)


async def audit(request: web.Request) -> web.Response:
    asked = parameters(request, PAGE)
    before, most = asked.get("before"), asked.get("most", _MOST)
    return await _made(
        request, lambda database: {"entries": list(map(views.entry, history.audit(database, before, most)))}
    )

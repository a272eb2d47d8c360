"""Groups of signs, and who may what in each; for administrators."""

from aiohttp import web

from wisangub.refusal import Refusal
from wisangub.room.store import groups, users
from wisangub.room.store.database import Database
from wisangub.room.store.groups import Group
from wisangub.room.store.rights import Level
from wisangub.room.store.users import Role, User

from .service import service_of, visitor_of


async def _list(request: web.Request, said: str = "", status: int = 200) -> web.Response:
    service = service_of(request)
    found = await service.connections.run(groups.listed)
    return service.page(request, "groups.html", status=status, groups=found, kinds=groups.KINDS, said=said)


async def listed(request: web.Request) -> web.Response:
    return await _list(request)


async def add(request: web.Request) -> web.StreamResponse:
    """A new group."""
    service, who = service_of(request), visitor_of(request).name
    fields = {key: str(value) for key, value in (await request.post()).items()}
    name, kind = fields.get("name", ""), fields.get("kind", "")
    try:
        number = await service.connections.run(lambda database: groups.add(database, name, kind, who))
    except Refusal as refused:
        return await _list(request, f"Nothing was changed: {refused}.", 422)
    raise web.HTTPSeeOther(f"/groups/{number}")


def _number_of(request: web.Request) -> int:
    return int(request.match_info["group"])


async def _page(request: web.Request, said: str = "", status: int = 200) -> web.Response:
    """A group with its signs, and what each user may in it."""
    service, number = service_of(request), _number_of(request)

    def found(database: Database) -> tuple[Group | None, list[User]]:
        every = groups.listed(database)
        return next((one for one in every if one.id == number), None), users.users(database)

    group, people = await service.connections.run(found)
    if group is None:
        raise web.HTTPNotFound(text="There is no such group.")
    return service.page(
        request,
        "group.html",
        status=status,
        group=group,
        signs=sorted((sign.name, sign_id) for sign_id, sign in service.signs.items()),
        users=[user for user in people if user.role is not Role.ADMINISTRATOR],
        rights_here=dict(group.rights),
        levels=list(Level),
        said=said,
    )


async def group(request: web.Request) -> web.Response:
    return await _page(request)


def _level(word: str) -> Level:
    """A level as a form names it."""
    try:
        return Level(int(word))
    except ValueError:
        raise Refusal("this is nothing that a user may") from None


async def change(request: web.Request) -> web.StreamResponse:
    """Changes the signs of a group or what a user may in it, or removes it."""
    service, who, number = service_of(request), visitor_of(request).name, _number_of(request)
    fields = await request.post()
    do, name, level = (str(fields.get(key, "")) for key in ("do", "name", "level"))
    shown = str(fields["shown"]) if "shown" in fields else None
    chosen = frozenset(int(word) for word in map(str, fields.getall("sign", [])) if word.isdecimal() and len(word) < 10)

    def done(database: Database) -> str:
        if do == "signs":
            groups.change_signs(database, number, chosen, frozenset(service.signs), who, shown)
            return "The group has these signs."
        if do == "right":
            groups.give(database, number, name, _level(level), who)
            return f"What {name} may here was changed."
        if do == "remove":
            groups.remove(database, number, who)
            return ""
        raise Refusal("nothing was asked for")

    try:
        said = await service.connections.run(done)
    except Refusal as refused:
        return await _page(request, f"Nothing was changed: {refused}.", 422)
    if do == "remove":
        raise web.HTTPSeeOther("/groups")
    return await _page(request, said)

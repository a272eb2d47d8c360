"""The rules of the agency: purposes with their priorities and rows, and words that may not be shown."""

from aiohttp import web

from wisangub.refusal import Refusal
from wisangub.room.store import rules
from wisangub.room.store.database import Database
from wisangub.room.store.rules import Purpose

from .service import service_of, visitor_of


async def _page(request: web.Request, said: str = "", status: int = 200) -> web.Response:
    service = service_of(request)

    def found(database: Database) -> tuple[list[Purpose], list[str]]:
        return rules.purposes(database), rules.words(database)

    purposes, forbidden = await service.connections.run(found)
    return service.page(
        request, "rules.html", status=status, purposes=purposes, forbidden=forbidden, said=said, most=rules.MOST
    )


async def listed(request: web.Request) -> web.Response:
    return await _page(request)


def _number(word: str) -> int:
    """A number of a form; one that is out of every range where it is none."""
    return int(word) if word.isascii() and word.isdecimal() and len(word) < 10 else 0


async def change(request: web.Request) -> web.Response:
    """Adds, changes or removes a purpose, or a word."""
    service, who = service_of(request), visitor_of(request).name
    fields = {key: str(value).strip() for key, value in (await request.post()).items()}
    do, name = fields.get("do", ""), fields.get("name", "")
    row, priority, number = (_number(fields.get(key, "")) for key in ("row", "priority", "number"))

    def done(database: Database) -> str:
        if do == "add":
            rules.add_purpose(database, name, priority, number, who)
            return f"The purpose {name} was added."
        if do == "change":
            rules.change_purpose(database, row, name, priority, number, who)
            return f"The purpose {name} has other rules."
        if do == "remove":
            rules.remove_purpose(database, row, who)
            return "The purpose was removed."
        if do == "forbid":
            rules.forbid(database, fields.get("word", ""), who)
            return "No sign shows the word from now on."
        if do == "allow":
            rules.allow(database, fields.get("word", ""), who)
            return "The word may be shown again."
        raise Refusal("nothing was asked for")

    try:
        return await _page(request, await service.connections.run(done))
    except Refusal as refused:
        return await _page(request, f"Nothing was changed: {refused}.", 422)

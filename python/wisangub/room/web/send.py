"""Asking for what was confirmed, and how it goes on."""

import socket
from dataclasses import dataclass
from typing import Callable

from aiohttp import web

from wisangub.endpoint.sockets import connected
from wisangub.refusal import Refusal
from wisangub.room.fleet import Sign
from wisangub.room.store import history, queries
from wisangub.room.store.commands import Commands, Meanwhile
from wisangub.room.store.database import Database
from wisangub.room.store.history import Batch
from wisangub.room.store.shown_by import text_of

from . import compose
from . import draft as drafts
from .draft import KINDS, Draft
from .service import Service, commanded, rights_of, service_of, visitor_of
from .words import asked

_NOWHERE = "0.0.0.0"
_NOTHING = "Nothing of this number was asked for."


def _own_address(service: Service, sign: Sign) -> str:
    """This machine's address towards a sign, as an activation names it; 0.0.0.0 where it is of IPv6, or where it is not
    known where the sign is. No name is looked up for it: that takes long where no server of names answers."""
    host = service.addresses.of((sign.host, sign.port)).host
    if not host:
        return _NOWHERE
    try:
        with connected(host, sign.port) as udp_socket:
            return str(udp_socket.getsockname()[0]) if udp_socket.family == socket.AF_INET else _NOWHERE
    except (Refusal, OSError):
        return _NOWHERE


async def _is_drawn(service: Service, draft: Draft) -> bool:
    """Whether the text of a publication fits on all its signs."""
    if draft.kind != "publish":
        return True
    return all(one.src is not None for one in await compose.looks(service, draft.signs, draft.text))


@dataclass(frozen=True)
class Confirmed:
    """What somebody confirmed as it was shown to him, and the word that it counts by."""

    draft: Draft
    word: str
    newest: int  # the newest command of the signs that the page knew of


async def confirmed(request: web.Request) -> Confirmed | web.Response:
    """What a form confirms; or the form again, where the text does not fit any more."""
    service, visitor = service_of(request), visitor_of(request)
    fields = await request.post()
    kind, confirmation = str(fields.get("kind", "")), str(fields.get("confirmation", ""))
    if kind not in KINDS or not confirmation:
        raise web.HTTPBadRequest(text="This was not confirmed.")
    draft = drafts.read(fields, commanded(request), kind)
    if draft.faults:
        raise web.HTTPUnprocessableEntity(text=" ".join(draft.faults.values()))
    if not await _is_drawn(service, draft):
        return await compose.answer(request, draft, 422)
    newest = compose.row_in(fields, "newest")
    if newest is None or not service.seal.is_confirmation(confirmation, visitor.login, draft.confirmed_at(newest)):
        raise web.HTTPBadRequest(
            text="This is not what was confirmed here, so nothing was done. Please look at it again."
        )
    return Confirmed(draft, confirmation, newest)


def lines_of(service: Service, draft: Draft, owner: str) -> list[tuple[int, str]]:
    """The line of each sign."""
    return [(sign_id, draft.line(owner, _own_address(service, service.signs[sign_id]))) for sign_id in draft.signs]


async def send(request: web.Request) -> web.StreamResponse:
    """Asks for what was confirmed."""
    service, visitor, found = service_of(request), visitor_of(request), await confirmed(request)
    if isinstance(found, web.Response):
        return found
    draft, confirmation, newest = found.draft, found.word, found.newest

    def done(database: Database) -> int:
        lines = lines_of(service, draft, visitor.name)
        what = asked(lines[0][1]).what
        return Commands(database).ask_all(lines, visitor.name, what, confirmation, newest=newest)

    def text(database: Database) -> bytes:
        sign, line = lines_of(service, draft, visitor.name)[0]
        return text_of(database, sign, line)

    try:
        number = await service.connections.run(done)
    except Meanwhile as refused:
        shown = await service.connections.run(text)
        return await compose.confirmation(request, draft, shown, f"Nothing was done: {refused}. Look at it again.")
    except Refusal as refused:
        raise web.HTTPUnprocessableEntity(text=f"Nothing was done: {refused}.") from None
    raise web.HTTPSeeOther(f"/batches/{number}")


@dataclass(frozen=True)
class Part:
    """A command of what was asked, and the picture of what it is to show."""

    command: queries.CommandView
    picture: str | None


_Seen = Callable[[int], bool]  # whether who asks may see a sign


def _parts_of(
    service: Service, database: Database, number: int, may_see: _Seen
) -> tuple[Batch | None, list[Part], float]:
    """What was asked for of the signs that may be seen; nothing, where none of them may be."""
    found = history.batch_seen(database, number, may_see)
    made = []
    for command in found.commands if found else []:
        line = asked(command.line)
        picture = service.picture(command.sign, line.text) if line.kind in ("publish", "blank") else None
        made.append(Part(command, picture))
    return found, made, queries.now(database)


async def batch(request: web.Request) -> web.Response:
    service, number = service_of(request), int(request.match_info["batch"])
    may_see = rights_of(request).may_see
    found, made, now = await service.connections.run(lambda database: _parts_of(service, database, number, may_see))
    if found is None:
        raise web.HTTPNotFound(text=_NOTHING)
    return service.page(request, "batch.html", batch=found, parts=made, now=now, view=f"batch/{number}")


def parts(service: Service, database: Database, number: int, may_see: _Seen) -> dict[str, str]:
    """What an event may replace."""
    _, made, _ = _parts_of(service, database, number, may_see)
    return {f"command-{one.command.id}": service.part("parts.html", "part", one) for one in made} | {
        "summary": service.part("parts.html", "summary", made)
    }


async def withdraw(request: web.Request) -> web.StreamResponse:
    """Ends a command that waits for its turn; one that was begun goes on, and one of a sign that may not be seen is
    none."""
    service, visitor, number = service_of(request), visitor_of(request), int(request.match_info["command"])
    may_see = rights_of(request).may_see

    def done(database: Database) -> bool | None:
        found = queries.command(database, number)
        return Commands(database).withdraw(number, visitor.name) if found and may_see(found.sign) else None

    try:
        is_done = await service.connections.run(done)
    except Refusal as refused:
        raise web.HTTPForbidden(text=f"Nothing was done: {refused}.") from None
    if is_done is None:
        raise web.HTTPNotFound(text=_NOTHING)
    if not is_done:
        raise web.HTTPConflict(text="This command was begun, or has ended: it cannot be withdrawn.")
    raise web.HTTPSeeOther("/history?outcome=open")

"""The brightness of a sign: its confirmation, and asking for it."""

from typing import Any, Mapping

from aiohttp import web

from wisangub.refusal import Refusal
from wisangub.room.device import BY_HAND
from wisangub.room.store import brightness, devices, queries
from wisangub.room.store.brightness import Wish
from wisangub.room.store.database import Database
from wisangub.room.store.devices import DeviceView
from wisangub.room.store.queries import SignView

from .service import rights_of, service_of, sign_of, visitor_of


def _wish(fields: Mapping[str, Any]) -> Wish:
    """What a form says; a level counts where it is set by hand."""
    words = [str(fields.get(key, "")).strip() for key in ("control", "level")]
    control, level = (int(word) if word.isascii() and word.isdecimal() and len(word) < 6 else -1 for word in words)
    return Wish(control, level if control in BY_HAND else None)


def _confirmed(sign: int, wish: Wish) -> str:
    """What the page that confirms it shows, in one line."""
    return repr(("brightness", sign, wish.control, wish.level))


def _commanded(request: web.Request) -> int:
    """The sign, of one who may command it."""
    sign_id = sign_of(request)
    if not rights_of(request).may_command(sign_id):
        raise web.HTTPForbidden(text="You may not command this sign.")
    return sign_id


async def confirm(request: web.Request) -> web.Response:
    """The last page before it is asked for."""
    service, sign_id, wish = service_of(request), _commanded(request), _wish(request.query)

    def found(database: Database) -> tuple[SignView | None, DeviceView | None, float]:
        return queries.sign(database, sign_id), devices.view(database, sign_id), queries.now(database)

    sign, device, now = await service.connections.run(found)
    if fault := brightness.fault_of(wish, device):
        raise web.HTTPUnprocessableEntity(text=f"Nothing was done: {fault}.")
    word = service.seal.confirmation(visitor_of(request).login, _confirmed(sign_id, wish))
    return service.page(request, "brightness.html", sign=sign, device=device, wish=wish, now=now, confirmation=word)


async def ask(request: web.Request) -> web.StreamResponse:
    """Asks for what was confirmed."""
    service, visitor, sign_id = service_of(request), visitor_of(request), _commanded(request)
    fields = await request.post()
    wish, word = _wish(fields), str(fields.get("confirmation", ""))
    if not service.seal.is_confirmation(word, visitor.login, _confirmed(sign_id, wish)):
        raise web.HTTPBadRequest(
            text="This is not what was confirmed here, so nothing was done. Please look at it again."
        )
    try:
        await service.connections.run(lambda database: brightness.ask(database, sign_id, visitor.name, wish, word))
    except Refusal as refused:
        raise web.HTTPUnprocessableEntity(text=f"Nothing was done: {refused}.") from None
    raise web.HTTPSeeOther(f"/signs/{sign_id}")

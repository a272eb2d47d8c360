"""Who may ask for an operation: the holder of a token, within the role and the rights of the token's user. A cookie
counts for nothing here, so no other site's page can ask in a browser's name."""

from dataclasses import replace

from aiohttp import web

from wisangub.room.store import rights, tokens
from wisangub.room.store.audit import note
from wisangub.room.store.database import Database
from wisangub.room.store.logins import Visitor
from wisangub.room.store.rights import Level, Rights
from wisangub.room.store.tokens import Holder
from wisangub.room.store.users import Role
from wisangub.room.web.security import address_of
from wisangub.room.web.service import service_of

from .asked import Wrong

_WORD = "Bearer "


def _visitor(holder: Holder) -> Visitor:
    return Visitor(holder.user, holder.role, f"token {holder.token}")


def _holding(database: Database, word: str, address: str) -> tuple[Holder, Rights] | None:
    """Who sends a token, and what he may."""
    holder = tokens.find(database, word, address)
    if holder is None:
        return None
    may = rights.of_user(database, holder.user)
    return holder, replace(may, most=min(may.most, Level.SEE)) if holder.role is Role.READER else may


async def enter(request: web.Request, least: Role) -> None:
    """Lets the holder of a token through who may; whatever else is refused."""
    service = service_of(request)
    word = request.headers.get("Authorization", "")
    address = address_of(request, service.settings.is_behind_tls)
    if not word.startswith(_WORD) or not word.isascii():
        raise Wrong(401, "A request has a header Authorization: Bearer, with a token.")
    sent = word.removeprefix(_WORD).strip()
    found = await service.connections.run(lambda database: _holding(database, sent, address))
    if found is None:
        raise Wrong(401, "This token is none, or it has ended.")
    holder, request["rights"] = found
    request["holder"], request["visitor"] = holder, _visitor(holder)
    request["again"] = lambda database: _again(database, sent, address)
    if holder.role < least:
        route = request.match_info.route.resource
        what = f"was refused {request.method} {route.canonical if route else '-'}"
        why = f"since it is for {least.word}s, through token “{holder.name}”, from {address}"
        await service.connections.run(lambda database: note(database, holder.user, f"{what}, {why}"))
        raise Wrong(403, f"This is for {least.word}s, and the token is good for a {holder.role.word}'s requests.")


def _again(database: Database, sent: str, address: str) -> Visitor | None:
    """Who holds the token, where it still stands."""
    holder = tokens.find(database, sent, address)
    return None if holder is None else _visitor(holder)

"""The library: its texts, each on every kind of signs of the fleet, and for which it is approved."""

from dataclasses import dataclass

from aiohttp import web

from wisangub.refusal import Refusal
from wisangub.room.store import library, queries, rules
from wisangub.room.store.database import Database
from wisangub.room.store.library import Approval, Text, Written
from wisangub.room.store.rules import Purpose

from . import compose
from .compose import Look
from .draft import joined
from .service import Service, rights_of, service_of, visitor_of
from .words import text_of

_MOST_NAMED = 3  # signs of a kind that are named


@dataclass(frozen=True)
class Kind:
    """A kind of signs, by names of some; how a text looks there, and whether it is approved for it."""

    look: Look
    approval: Approval | None

    @property
    def names(self) -> str:
        more = len(self.look.names) - _MOST_NAMED
        return ", ".join(self.look.names[:_MOST_NAMED]) + (f" and {more} more" if more > 0 else "")


async def _list(
    request: web.Request, said: str = "", status: int = 200, written: Written | None = None
) -> web.Response:
    """All texts, and the form for another one, with what was written where that was refused."""
    service = service_of(request)

    def found(database: Database) -> tuple[list[Text], list[Purpose], float]:
        return library.listed(database), rules.purposes(database), queries.now(database)

    texts, purposes, now = await service.connections.run(found)
    kinds = {service.faces[sign_id].key for sign_id in rights_of(request).seen(service.signs)}
    return service.page(
        request,
        "library.html",
        status=status,
        texts=texts,
        approved={one.id: len(one.kinds & kinds) for one in texts},
        kinds=len(kinds),
        purposes=purposes,
        written=written or Written("", "", b"", 0),
        now=now,
        said=said,
    )


async def listed(request: web.Request) -> web.Response:
    return await _list(request)


async def _written(request: web.Request) -> Written:
    """What the form of a text says."""
    fields = {key: str(value) for key, value in (await request.post()).items()}
    word, purpose = joined(fields.get("text", "")), fields.get("purpose", "")
    try:
        text = word.encode("latin-1")
    except UnicodeEncodeError:
        raise Refusal("a sign's characters are U+0000 to U+00FF") from None
    number = int(purpose) if purpose.isascii() and purpose.isdecimal() and len(purpose) < 10 else 0
    return Written(fields.get("folder", ""), fields.get("name", ""), text, number)


async def add(request: web.Request) -> web.StreamResponse:
    """A new text."""
    service, who = service_of(request), visitor_of(request).name
    written = None
    try:
        held = written = await _written(request)
        number = await service.connections.run(lambda database: library.add(database, held, who))
    except Refusal as refused:
        return await _list(request, f"Nothing was written: {refused}.", 422, written)
    raise web.HTTPSeeOther(f"/library/{number}")


def _number_of(request: web.Request) -> int:
    return int(request.match_info["text"])


async def _page(
    request: web.Request, said: str = "", status: int = 200, written: Written | None = None
) -> web.Response:
    """A text on every kind of signs, with what was written anew where that was refused."""
    service, number = service_of(request), _number_of(request)

    def found(database: Database) -> tuple[Text | None, list[Purpose], float]:
        return library.found(database, number), rules.purposes(database), queries.now(database)

    text, purposes, now = await service.connections.run(found)
    if text is None:
        raise web.HTTPNotFound(text="There is no such text in the library.")
    by_kind = {one.kind: one for one in text.approvals}
    seen = tuple(sorted(rights_of(request).seen(service.signs)))
    looks = await compose.looks(service, seen, text_of(text.text))
    return service.page(
        request,
        "text.html",
        status=status,
        text=text,
        written=written or text,
        kinds=[Kind(look, by_kind.get(look.face.key)) for look in looks],
        may_change=visitor_of(request).may_administer or not text.approvals,
        purposes=purposes,
        now=now,
        said=said,
    )


async def text(request: web.Request) -> web.Response:
    return await _page(request)


async def change(request: web.Request) -> web.StreamResponse:
    """Writes a text anew, or removes it."""
    service, visitor, number = service_of(request), visitor_of(request), _number_of(request)
    fields = await request.post()
    shown = str(fields["shown"]) if "shown" in fields else None
    may_approve, written = visitor.may_administer, None
    try:
        if fields.get("do") == "remove":
            await service.connections.run(
                lambda database: library.remove(database, number, visitor.name, may_approve, shown)
            )
            raise web.HTTPSeeOther("/library")
        held = written = await _written(request)
        await service.connections.run(
            lambda database: library.change(database, number, held, visitor.name, may_approve, shown)
        )
    except Refusal as refused:
        return await _page(request, f"Nothing was changed: {refused}.", 422, written)
    raise web.HTTPSeeOther(f"/library/{number}")


async def _fits(service: Service, kind: str, octets: bytes) -> None:
    """Refuses a text that the program finds at fault on a kind of signs."""
    face = service.by_key.get(kind)
    if face is None:
        raise Refusal("the fleet has no such signs")
    found = await service.pictures.of(face, octets)
    if not found.is_good:
        raise Refusal(f"the text does not fit these signs: {found.why}")


async def approve(request: web.Request) -> web.StreamResponse:
    """Approves the text that was shown for a kind of signs, where the program finds no fault; or ends an approval."""
    service, who, number = service_of(request), visitor_of(request).name, _number_of(request)
    fields = {key: str(value) for key, value in (await request.post()).items()}
    kind = fields.get("kind", "")
    try:
        if fields.get("do") == "withdraw":
            await service.connections.run(lambda database: library.withdraw(database, number, kind, who))
        else:
            octets = _shown(fields.get("shown", ""))
            await _fits(service, kind, octets)
            await service.connections.run(lambda database: library.approve(database, number, octets, kind, who))
    except Refusal as refused:
        return await _page(request, f"Nothing was changed: {refused}.", 422)
    raise web.HTTPSeeOther(f"/library/{number}")


def _shown(digits: str) -> bytes:
    """The text that the page showed."""
    try:
        return bytes.fromhex(digits)
    except ValueError:
        raise Refusal("this is no text") from None

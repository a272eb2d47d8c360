"""The log of a sign's datagrams, decoded, without communities."""

from dataclasses import dataclass
from typing import Any

from aiohttp import web

from wisangub.refusal import Refusal
from wisangub.room.fleet import Sign
from wisangub.room.store import history, queries
from wisangub.room.store.database import Database
from wisangub.room.store.history import Line
from wisangub.room.store.queries import SignView
from wisangub.snmp.datagrams import fields_of
from wisangub.snmp.mib import Mib

from .faces import Face
from .record_pages import number_of
from .replay import Handed, head_of, replayed
from .service import Service, service_of, sign_of
from .words import Asked, asked

_MOST = 60  # lines of a page
_HIDDEN = "(a community)"


@dataclass(frozen=True)
class Entry:
    """An event of a sign's centre: a command, a tick, a datagram that came, or one that went out for it."""

    number: int
    at: float
    kind: str
    asked: Asked | None = None
    fields: dict[str, Any] | None = None
    size: int = 0


def _told(mib: Mib, octets: bytes, communities: tuple[bytes, ...]) -> dict[str, Any]:
    """What a datagram says; its community, and whatever else spells one, is left out."""
    fields = fields_of(mib, octets)
    fields.pop("community", None)
    words = {word for community in communities for word in (community.decode("latin-1"), community.hex())}
    bindings = fields.get("bindings")
    if isinstance(bindings, list):
        for one in bindings:
            if any(word in str(one["value"]) for word in words):
                one["value"] = _HIDDEN
    return fields


def entries(service: Service, sign_id: int, lines: list[Line]) -> list[Entry]:
    """The events of a centre's last lines."""
    sign = service.signs[sign_id]
    try:
        handed = replayed(service.settings.program, sign, lines)
    except (Refusal, OSError) as fault:
        raise web.HTTPServiceUnavailable(text=f"What went out cannot be told now: {fault}") from fault
    return [one for line in handed[-_MOST:] for one in _events_of(service.mib, sign, service.faces[sign_id], line)]


def _events_of(mib: Mib, sign: Sign, face: Face, handed: Handed) -> list[Entry]:
    """The events of a line."""
    words = handed.line.split(" ")
    communities = (sign.reader, face.writer)
    made = []
    if words[0] == "datagram":
        octets = bytes.fromhex(words[1]) if words[1] != "-" else b""
        made.append(Entry(handed.number, handed.at, "from", fields=_told(mib, octets, communities), size=len(octets)))
    elif words[0] in ("tick", "journal"):
        made.append(Entry(handed.number, handed.at, words[0]))
    else:
        made.append(Entry(handed.number, handed.at, "command", asked=asked(handed.line)))
    if handed.sent is not None:
        made.append(
            Entry(handed.number, handed.at, "to", fields=_told(mib, handed.sent, communities), size=len(handed.sent))
        )
    return made


async def log(request: web.Request) -> web.Response:
    service, sign_id, before = service_of(request), sign_of(request), number_of(request, "before")

    def found(database: Database) -> tuple[SignView | None, list[Line], float]:
        return queries.sign(database, sign_id), history.centre_lines(database, sign_id, before), queries.now(database)

    sign, lines, now = await service.connections.run(found)
    said = await service.connections.work(lambda: entries(service, sign_id, lines))
    first = said[0].number if said else 1
    return service.page(
        request,
        "log.html",
        sign=sign,
        entries=list(reversed(said)),
        is_told=not lines or head_of(service.signs[sign_id], lines) is not None,
        now=now,
        tab="log",
        before=first if first > 1 else None,
    )

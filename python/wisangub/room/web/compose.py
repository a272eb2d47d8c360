"""Composing: a text with its picture on each face, its fault at its place, and the confirmation."""

import dataclasses
import json
from dataclasses import dataclass
from functools import partial
from typing import Any

from aiohttp import web

from wisangub.room.plain import forbidden_in, plain_of
from wisangub.room.store import groups, library, plans, queries, rules
from wisangub.room.store.commands import Commands
from wisangub.room.store.database import Database
from wisangub.room.store.library import Text
from wisangub.room.store.plan_runs import Plan
from wisangub.room.store.queries import CommandView, SignView
from wisangub.room.store.rules import Purpose
from wisangub.snmp.names import Memory, RowStatus

from . import draft as drafts
from .draft import Draft
from .faces import Face
from .pictures import Picture
from .record_pages import number_of
from .service import Service, commanded, rights_of, service_of, visitor_of
from .words import asked, text_of

_MOST_SIGNS = 1000


@dataclass(frozen=True)
class Look:
    """A text on the signs of one face: where its picture is, or its fault; before, at and after the fault's place."""

    face: Face
    names: tuple[str, ...]
    src: str | None
    why: str = ""
    offset: int | None = None
    marked: tuple[str, str, str] = ("", "", "")


def marked(text: str, offset: int) -> tuple[str, str, str]:
    """The text before, at and after a place: a whole tag, or one character."""
    end = text.find("]", offset) + 1 if text[offset : offset + 1] == "[" else offset + 1
    if text[offset : offset + 2] == "[[" or not end:
        end = offset + 1
    return text[:offset], text[offset:end], text[end:]


def _fault_of(text: str, forbidden: list[str]) -> tuple[int, str] | None:
    """What no sign takes or may show: its place, and why."""
    if fault := drafts.text_fault(text):
        return fault
    found = forbidden_in(text.encode("latin-1"), forbidden)
    return None if found is None else (found[0], rules.refused(found[1]))


async def looks(service: Service, signs: tuple[int, ...], text: str) -> list[Look]:
    """The text on each face of the signs."""
    of: dict[str, list[int]] = {}
    for sign_id in signs:
        of.setdefault(service.faces[sign_id].key, []).append(sign_id)
    fault = _fault_of(text, await service.connections.run(rules.words))
    made = []
    for key, rows in of.items():
        face, names = service.by_key[key], tuple(service.signs[sign_id].name for sign_id in rows)
        octets = text.encode("latin-1", "replace")
        found = Picture(None, fault[1], fault[0]) if fault else await service.pictures.of(face, octets)
        if found.is_good:
            made.append(Look(face, names, f"/pictures/{key}/{octets.hex() or '-'}.svg"))
        else:
            offset = found.offset
            made.append(
                Look(face, names, None, found.why, offset, marked(text, offset) if offset is not None else ("", "", ""))
            )
    return made


async def look(request: web.Request) -> web.Response:
    """What the page asks for while a text is written."""
    service = service_of(request)
    try:
        held: Any = json.loads(await request.text())
        text = drafts.joined(str(held["text"]))[:4096]
        may = commanded(request)
        signs = tuple(sign_id for sign_id in map(int, held["signs"][:_MOST_SIGNS]) if sign_id in may)
    except (ValueError, KeyError, TypeError, OverflowError):  # OverflowError: of a number that is none, 1e999
        raise web.HTTPBadRequest(text="This is no text and list of signs.") from None
    found = await looks(service, signs, text)
    return web.json_response(
        {
            "octets": len(text),
            "looks": [
                {
                    "face": one.face.key,
                    "names": list(one.names),
                    "src": one.src,
                    "why": one.why,
                    "offset": one.offset,
                    "marked": one.marked,
                    "alt": plain_of(text.encode("latin-1", "replace")),
                    "width": one.face.width,
                    "height": one.face.height,
                }
                for one in found
            ],
        }
    )


async def answer(request: web.Request, draft: Draft, status: int = 200) -> web.Response:
    """The form, with the looks that the text has now, for the signs that who asks may command."""
    service, may = service_of(request), commanded(request)
    if not may:
        raise web.HTTPForbidden(text="There is no sign that you may command.")
    found = await looks(service, draft.signs, draft.text) if draft.text and draft.signs else []

    def held(database: Database) -> tuple[list[Purpose], list[Text], dict[int, list[str]], float]:
        names = groups.names_of_signs(database)
        return rules.purposes(database), library.listed(database), names, queries.now(database)

    purposes, texts, names, now = await service.connections.run(held)
    faces = [service.faces[sign_id] for sign_id in draft.signs] or list(may.values())
    chosen = [service.faces[sign_id] for sign_id in draft.signs]
    kinds = {face.key for face in chosen}
    return service.page(
        request,
        "compose.html",
        status=status,
        draft=draft,
        looks=found,
        signs=[(service.signs[sign_id].name, sign_id) for sign_id in may],
        places={sign_id: " ".join([service.signs[sign_id].place, *names.get(sign_id, [])]) for sign_id in may},
        now=now,
        purposes=purposes,
        purpose=next((one for one in purposes if draft.is_of(one, chosen)), None),
        texts=[one for one in texts if one.approvals and kinds <= one.kinds],
        most={memory: min(face.most(memory) for face in faces) for memory in (Memory.CHANGEABLE, Memory.VOLATILE)},
        has_beacon=all(face.has_beacon for face in faces),
        has_pixel=all(face.has_pixel for face in faces),
        fonts=sorted(set.intersection(*(set(face.fonts) for face in faces))),
        permanent=faces[0].permanent if len({face.key for face in faces}) == 1 else (),
    )


async def form(request: web.Request) -> web.Response:
    """The form, for the signs of the address; with the text of an earlier command, where it names one."""
    service = service_of(request)
    may = commanded(request)
    draft = drafts.read(request.query, may)
    again, number = number_of(request, "again"), number_of(request, "text")
    command = await service.connections.run(partial(queries.command, number=again)) if again is not None else None
    if number is not None:
        draft = await _with_text(service, draft, number)
    is_seen = command is not None and rights_of(request).may_see(command.sign)
    if command is not None and is_seen and (old := asked(command.line)).kind == "publish":
        draft = dataclasses.replace(
            draft,
            signs=draft.signs or tuple({command.sign} & set(may)),
            text=text_of(old.text),
            memory=old.memory,
            number=old.number,
            beacon=old.beacon,
            pixel=old.pixel,
            run=old.run,
            priority=old.priority,
            minutes=old.minutes,
        )
    return await answer(request, dataclasses.replace(draft, faults={}))


async def _with_text(service: Service, draft: Draft, number: int) -> Draft:
    """The draft with a text of the library, and with the row and the priority of what that one is for."""
    text = await service.connections.run(lambda database: library.found(database, number))
    if text is None:
        raise web.HTTPNotFound(text="There is no such text in the library.")
    return await _of_purpose(service, dataclasses.replace(draft, text=text_of(text.text)), text.purpose)


async def _of_purpose(service: Service, draft: Draft, number: int) -> Draft:
    """The draft with the row and the priority of a purpose, where there is one."""
    purpose = await service.connections.run(lambda database: rules.purpose(database, number))
    of = [service.faces[sign_id] for sign_id in draft.signs]
    return draft if purpose is None else draft.of_purpose(purpose, of)


@dataclass(frozen=True)
class Line:
    """A sign of a confirmation: what it is to show, what it showed last, why it may refuse, and what of others has not
    ended there."""

    sign: SignView
    picture: str | None
    before: str | None
    warning: str
    pending: str


def warning(sign: SignView, draft: Draft, now: float) -> str:
    """Why a sign may not do it."""
    if sign.still:
        return f"It stands still: {sign.still}."
    if sign.fault or sign.is_stale(now):
        return "It does not answer at present."
    shown = sign.shown.priority if sign.shown else None
    if shown is not None and draft.priority < shown:
        return f"It will refuse this: what it shows has priority {shown}, and the activation has {draft.priority}."
    return ""


def _pending(command: CommandView | None) -> str:
    """What this comes after."""
    if command is None:
        return ""
    line = asked(command.line)
    text = f" “{plain_of(line.text)}”" if line.kind == "publish" else ""
    return f"{command.who} asked for “{line.what}”{text} before, which has not ended: this comes after it."


def lines(service: Service, database: Database, draft: Draft, text: bytes) -> tuple[list[Line], float]:
    under_way = {command.sign: command for command in queries.under_way(database)}
    found = [queries.sign(database, sign_id) for sign_id in draft.signs]
    now = queries.now(database)
    return [
        Line(
            sign,
            service.picture(sign.id, text),
            service.picture(sign.id, sign.shown.text) if sign.shown else None,
            warning(sign, draft, now),
            _pending(under_way.get(sign.id)),
        )
        for sign in found
        if sign is not None
    ], now


async def confirmation(request: web.Request, draft: Draft, text: bytes, said: str = "") -> web.Response:
    """The last page before it is asked for; `said` is why it was not done as it was shown before."""
    service = service_of(request)

    def held(database: Database) -> tuple[int, list[Line], float, set[str], list[Plan]]:
        newest = Commands(database).newest(draft.signs)  # before what is shown
        made, now = lines(service, database, draft, text)
        return newest, made, now, library.kinds_of(database, text), plans.listed(database)

    newest, found, now, kinds, known = await service.connections.run(held)
    may = rights_of(request).may_command
    return service.page(
        request,
        "confirm.html",
        status=409 if said else 200,
        said=said,
        newest=newest,
        draft=draft,
        lines=found,
        now=now,
        unapproved=[one.sign.name for one in found if service.faces[one.sign.id].key not in kinds],
        plans=[plan.name for plan in known if all(map(may, plan.signs))],
        shown_text=text_of(text),
        confirmation=service.seal.confirmation(visitor_of(request).login, draft.confirmed_at(newest)),
    )


def row_in(fields: Any, key: str) -> int | None:
    """The number of a row that a form names."""
    word = str(fields.get(key, ""))
    return int(word) if word.isascii() and word.isdecimal() and len(word) < 10 else None


async def confirm(request: web.Request) -> web.Response:
    """The confirmation of a text, or the form again with what is wrong."""
    service = service_of(request)
    fields = await request.post()
    draft = drafts.read(fields, commanded(request))
    purpose = row_in(fields, "purpose")
    if purpose is not None:
        draft = await _of_purpose(service, draft, purpose)
    if draft.faults or fields.get("do") == "back":
        return await answer(request, draft, 422 if draft.faults else 200)
    if any(one.src is None for one in await looks(service, draft.signs, draft.text)):
        return await answer(request, draft, 422)
    return await confirmation(request, draft, draft.octets)


async def blank(request: web.Request) -> web.Response:
    """The confirmation of showing nothing."""
    draft = drafts.read(request.query, commanded(request), "blank")
    if "sign" in draft.faults:
        raise web.HTTPBadRequest(text=draft.faults["sign"])
    shown = await service_of(request).connections.run(lambda database: shown_priorities(database, draft.signs))
    return await confirmation(request, dataclasses.replace(draft, priority=max(shown)), b"")


def shown_priorities(database: Database, signs: tuple[int, ...]) -> list[int]:
    """The priority of what each sign shows, which taking it away needs; of one that never said it, that of no purpose
    is above it."""
    found = [queries.sign(database, sign_id) for sign_id in signs]
    said = [sign.shown.priority if sign is not None and sign.shown else None for sign in found]
    return [rules.MOST if priority is None else priority for priority in said]


async def row(request: web.Request) -> web.Response:
    """The confirmation of showing a row that the sign has, as its table was last read."""
    service = service_of(request)
    draft = drafts.read(request.query, commanded(request), "activate")
    if draft.faults or len(draft.signs) != 1:
        raise web.HTTPBadRequest(text="This is no row of one sign.")
    last = await service.connections.run(lambda database: queries.table(database, draft.signs[0]))
    found = [one for one in last.rows if (one.memory, one.number) == (draft.memory, draft.number)]
    if not found or found[0].status != RowStatus.VALID:
        raise web.HTTPNotFound(text="The sign's table, as it was last read, has no valid message there.")
    draft = dataclasses.replace(draft, checksum=found[0].checksum, priority=found[0].priority or rules.MOST)
    return await confirmation(request, draft, found[0].text)

"""What other systems ask for: the same commands as pages ask for, with the same rights and the same audit."""

import dataclasses
from typing import Any, Callable

from aiohttp import web

from wisangub.refusal import Refusal
from wisangub.room import device
from wisangub.room.store import alarms, brightness, history, library, plans, queries, rules
from wisangub.room.store.brightness import Wish
from wisangub.room.store.commands import Commands
from wisangub.room.store.database import Database
from wisangub.room.store.rules import Purpose
from wisangub.room.web import compose
from wisangub.room.web import draft as drafts
from wisangub.room.web import send
from wisangub.room.web.draft import Draft
from wisangub.room.web.service import rights_of, service_of, visitor_of
from wisangub.room.web.words import asked as line_of
from wisangub.room.web.words import text_of
from wisangub.snmp.names import Memory, RowStatus

from . import views
from .asked import Wrong, answered, body, key_of, signs_of

_MEMORIES = {"permanent": Memory.PERMANENT, "changeable": Memory.CHANGEABLE, "volatile": Memory.VOLATILE}
_FIELDS = {
    "text": "text",
    "row": "number",
    "priority_while_shown": "run",
    "activation_priority": "priority",
    "minutes": "minutes",
    "beacon": "beacon",
    "pixel_service": "pixel",
}  # properties by the names that forms have for them
_CONTROLS = {device.control(number): number for number in device.CONTROLS}
_RULED = ("memory", "row", "priority_while_shown", "activation_priority")  # what a purpose chooses


class _Fields(dict[str, str]):
    """The fields of a form: signs, and one of each other."""

    def __init__(self, signs: list[int]) -> None:
        super().__init__()
        self.signs = signs

    def getall(self, _: str, __: list[str]) -> list[str]:
        return list(map(str, self.signs))


def _wrong(at: str, why: str) -> Wrong:
    """A part of a request that cannot be done."""
    return Wrong(422, "This cannot be done.", [{"at": at, "why": why}])


def _draft(request: web.Request, kind: str, asked: dict[str, Any], signs: list[int]) -> Draft:
    """What is asked for, as a form would say it."""
    fields = _Fields(signs)
    for key, name in _FIELDS.items():
        if key in asked:
            fields[name] = str(int(asked[key])) if isinstance(asked[key], bool) else str(asked[key])
    if "memory" in asked:
        fields["memory"] = str(int(_MEMORIES[asked["memory"]]))
    fields["lasts"] = "minutes" if "minutes" in asked else "forever"
    draft = drafts.read(fields, service_of(request).faces, kind)
    if draft.faults:
        names = {name: key for key, name in _FIELDS.items()} | {"sign": "signs"}
        faults = [{"at": f"/{names.get(name, name)}", "why": why} for name, why in draft.faults.items()]
        raise Wrong(422, "This cannot be done.", faults)
    return draft


async def _ruled(request: web.Request, asked: dict[str, Any]) -> tuple[dict[str, Any], Purpose | None]:
    """What is asked for with the text that it names, and its purpose."""
    service = service_of(request)
    if ("text" in asked) == ("library" in asked):
        raise _wrong("/text", "one of text and library is given")
    named = asked.get("purpose")

    def found(database: Database) -> tuple[library.Text | None, list[Purpose]]:
        number = asked.get("library")
        return None if number is None else library.found(database, number), rules.purposes(database)

    text, purposes = await service.connections.run(found)
    if "library" in asked and text is None:
        raise _wrong("/library", "there is no such text in the library")
    if named is None and text is None:
        return asked, None
    number = None if named or text is None else text.purpose
    purpose = next((one for one in purposes if number in (one.id, None) and named in (one.name, None)), None)
    if purpose is None:
        raise _wrong("/purpose", "there is no such purpose")
    for key in _RULED:
        if key in asked:
            raise _wrong(f"/{key}", "the purpose chooses this")
    return {**asked, **({"text": text_of(text.text)} if text else {})}, purpose


async def publish(request: web.Request) -> web.Response:
    """A text for signs. It has to fit on each of them."""
    service, key = service_of(request), key_of(request)
    given = await body(request, "Publish")
    signs = signs_of(request, given["signs"])
    asked, purpose = await _ruled(request, given)
    draft = _draft(request, "publish", asked, signs)
    if purpose is not None:
        draft = draft.of_purpose(purpose, [service.faces[sign_id] for sign_id in draft.signs])
    faults = []
    for one in await compose.looks(service, draft.signs, draft.text):
        if one.src is None:
            rows = [sign_id for sign_id in draft.signs if service.faces[sign_id].key == one.face.key]
            faults.append({"at": "/text", "why": one.why, "signs": rows} | views.known(offset=one.offset))
    if faults:
        raise Wrong(422, "This text does not fit.", faults)
    return await _send(request, draft, key)


async def blank(request: web.Request) -> web.Response:
    """Signs that are to show nothing."""
    key, asked = key_of(request), await body(request, "Blank")
    draft = _draft(request, "blank", asked, signs_of(request, asked["signs"]))
    has_priority = "activation_priority" in asked
    if not has_priority:
        shown = await service_of(request).connections.run(
            lambda database: compose.shown_priorities(database, draft.signs)
        )
        draft = dataclasses.replace(draft, priority=max(shown))
    return await _send(request, draft, key, has_priority)


async def show(request: web.Request) -> web.Response:
    """A row that a sign has, with the checksum that was read."""
    key, asked = key_of(request), await body(request, "Show")
    draft = _draft(request, "activate", asked, signs_of(request, [asked["sign"]], "/sign"))
    last = await service_of(request).connections.run(lambda database: queries.table(database, draft.signs[0]))
    found = [one for one in last.rows if (one.memory, one.number) == (draft.memory, draft.number)]
    if not found or found[0].status != RowStatus.VALID:
        raise _wrong("/row", "the sign's table, as it was last read, has no valid message there")
    priority = asked.get("activation_priority", found[0].priority or rules.MOST)
    draft = dataclasses.replace(draft, checksum=found[0].checksum, priority=priority)
    return await _send(request, draft, key, "activation_priority" in asked)


def _content(sign: int, line: str, has_priority: bool) -> tuple[int, list[str]]:
    """A command without what may be another one when it is asked for again: this machine's address, the checksum of a
    sign's row, and the priority where it is that of what is shown or of the row."""
    words = line.split(" ")
    if words[0] == "activate":
        code = words[1]
        words = ["activate", code[:4], code[6:12], code[4:6], ""]
    return sign, words[:-1] if has_priority or words[0] == "publish" else words[:-2]


async def _send(request: web.Request, draft: Draft, key: str, has_priority: bool = True) -> web.Response:
    """Asks for it, once: a key that came before gets what was asked for with it then. `has_priority`: its priority was
    said, and is not what a sign says."""
    service, visitor = service_of(request), visitor_of(request)

    def done(database: Database) -> views.Value:
        lines = send.lines_of(service, draft, visitor.name)
        what, through = line_of(lines[0][1]).what, f"token “{request['holder'].name}”"
        number = Commands(database).ask_all(lines, visitor.name, what, f"{visitor.login} {key}", through)
        found = history.batch(database, number)
        assert found is not None
        asked = sorted(_content(one.sign, one.line, has_priority) for one in found.commands)
        if asked != sorted(_content(*one, has_priority) for one in lines):
            raise Wrong(409, "Nothing was done: this key was used for something else.")
        return views.batch(found)

    try:
        return answered(await service.connections.run(done), 202)
    except Refusal as refused:
        raise Wrong(422, f"Nothing was done: {refused}.") from None


async def dim(request: web.Request) -> web.Response:
    """What sets a sign's brightness from now on."""
    service, visitor, key = service_of(request), visitor_of(request), key_of(request)
    asked, sign_id = await body(request, "Dim"), int(request.match_info["sign"])
    signs_of(request, [sign_id], "/sign")
    wish = Wish(_CONTROLS[asked["control"]], asked.get("level"))

    def done(database: Database) -> views.Value:
        through = f"token “{request['holder'].name}”"
        number = brightness.ask(database, sign_id, visitor.name, wish, f"{visitor.login} {key}", through)
        found = brightness.found(database, number)
        if found is None or (found.sign, found.wish) != (sign_id, wish):
            raise Wrong(409, "Nothing was done: this key was used for something else.")
        return views.setting(found)

    try:
        return answered(await service.connections.run(done), 202)
    except Refusal as refused:
        raise Wrong(422, f"Nothing was done: {refused}.") from None


async def withdraw(request: web.Request) -> web.Response:
    """Ends a command that waits for its turn."""
    visitor, number = visitor_of(request), int(request.match_info["command"])
    may_see = rights_of(request).may_see

    def done(database: Database) -> views.Value:
        found = queries.command(database, number)
        if found is None or not may_see(found.sign):
            raise Wrong(404, "There is nothing of this number.")
        if not Commands(database).withdraw(number, visitor.name):
            raise Wrong(409, "This command was begun, or has ended: it cannot be withdrawn.")
        found = queries.command(database, number)
        assert found is not None
        return views.command(found)

    return await _done(request, done)


async def acknowledge(request: web.Request) -> web.Response:
    """Somebody has seen an alarm."""
    visitor, number = visitor_of(request), int(request.match_info["alarm"])
    may_see = rights_of(request).may_see

    def done(database: Database) -> views.Value:
        sign = alarms.sign_of(database, number)
        if sign is None or not may_see(sign):
            raise Wrong(404, "There is nothing of this number.")
        if not alarms.see(database, number, visitor.name):
            raise Wrong(409, "Somebody has acknowledged this alarm before.")
        return {}

    return await _done(request, done)


async def begin_plan(request: web.Request) -> web.Response:
    """Puts the texts of a plan on its signs."""
    return await _planned(request, plans.begin)


async def end_plan(request: web.Request) -> web.Response:
    """Takes them off."""
    return await _planned(request, plans.end)


async def _planned(request: web.Request, do: Callable[[Database, int, str], Any]) -> web.Response:
    """A plan, once something was done with it; one that may not be seen is none."""
    visitor, number = visitor_of(request), int(request.match_info["plan"])
    may_see = rights_of(request).may_see

    def done(database: Database) -> views.Value:
        found = plans.found(database, number)
        if found is None or not all(map(may_see, found.signs)):
            raise Wrong(404, "There is nothing of this number.")
        do(database, number, visitor.name)
        found = plans.found(database, number)
        assert found is not None
        return views.plan(found)

    return await _done(request, done)


async def _done(request: web.Request, do: Callable[[Database], views.Value]) -> web.Response:
    """What was done, or why it was not."""
    try:
        return answered(await service_of(request).connections.run(do))
    except Refusal as refused:
        raise Wrong(403, f"Nothing was done: {refused}.") from None

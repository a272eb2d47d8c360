"""History, audit, alarms and what a sign showed as CSV (RFC 4180, in UTF-8): all that a page of them looks for, however
much it is."""

import csv
import io
import re
import socket
import struct
from dataclasses import replace
from typing import Any, Callable, Sequence

from aiohttp import web

from wisangub.room.store import alarms, history, queries
from wisangub.room.store.alarms import Alarm
from wisangub.room.store.audit import note
from wisangub.room.store.database import Database
from wisangub.room.store.history import AuditWanted, Entry, ReadingView
from wisangub.room.store.queries import CommandView
from wisangub.room.store.search import SLICE

from . import words
from .progress import because
from .record_pages import Asked, archived_words, wanted_of
from .service import Service, rights_of, service_of, sign_of, visitor_of

_COMMANDS = ("number", "asked", "sign", "who", "what", "text", "how", "outcome", "why", "ended")
_ENTRIES = ("number", "at", "who", "what")
_ALARMS = ("number", "sign", "kind", "what", "begun", "ended", "acknowledged_by", "acknowledged")
_SHOWN = (
    *("number", "from", "until", "sign", "text", "mode", "row", "priority", "owner"),
    *("activated_from", "beacon", "pixel_service", "fault"),
)
_FORMULA = re.compile(r"(^|[;\t\r\n])(?=[=+\-@\t\r])")  # where some spreadsheet would see the beginning of one
_AT_ONCE = struct.pack("ii", 1, 0)  # what waits to go out is thrown away
_Slice = Callable[[Database, int | None], tuple[list[Sequence[Any]], int | None]]


def _cell(value: Any) -> str:
    """A cell. What a spreadsheet would take for a formula has an apostrophe before it, also where that one takes a cell
    apart at semicolons and at ends of lines."""
    return "" if value is None else _FORMULA.sub(r"\1'", str(value))


def _lines(rows: Sequence[Sequence[Any]]) -> bytes:
    made = io.StringIO()
    csv.writer(made).writerows([list(map(_cell, row)) for row in rows])
    return made.getvalue().encode()


def _command(service: Service, one: CommandView) -> Sequence[Any]:
    line, time = words.asked(one.line), service.clock.iso
    ended = None if one.ended is None else time(one.ended)
    text = words.text_of(line.text)
    how, why = one.how or "", because(one) if one.how else ""
    return one.id, time(one.at), one.sign_name, one.who, line.what, text, line.how, how, why, ended


def _said(columns: tuple[str, ...], what: str) -> Sequence[Any]:
    """A row that is none of what is exported, and says something of all of it."""
    at = columns.index("what" if "what" in columns else "fault")
    return [what if number == at else None for number in range(len(columns))]


async def _exported(
    request: web.Request,
    name: str,
    columns: tuple[str, ...],
    slice_of: _Slice,
    of: str = "",
    since: float | None = None,
    is_archived: bool = True,
) -> web.StreamResponse:
    """Slice after slice, each in a thread; that somebody took it stands in the audit, with `of` what it is in words.
    Where an archive may have more of it, from `since` on, a last row without a number says so."""
    service, visitor, query = service_of(request), visitor_of(request), request.query_string[:200]
    what = f"exported {of or f'the {name}'}" + (f", {query}" if query else "")
    await service.connections.run(lambda database: note(database, visitor.name, what))
    answer = web.StreamResponse(headers={"Content-Type": "text/csv; charset=utf-8"})
    answer.headers["Content-Disposition"] = f'attachment; filename="{name}.csv"'
    await answer.prepare(request)
    await answer.write(_lines([columns]))
    before: int | None = None
    try:
        while True:
            after = before
            rows, before = await service.connections.run(lambda database: slice_of(database, after))
            await answer.write(_lines(rows))
            if before is None:
                break
        if is_archived and (gone := await service.connections.run(lambda held: archived_words(service, held, since))):
            await answer.write(_lines([_said(columns, gone)]))
        return answer
    except Exception:
        _break_off(request)
        raise


def _break_off(request: web.Request) -> None:
    """Resets the connection, so that the file does not seem to be whole; else what says why would stand in it."""
    if request.transport is not None and not request.transport.is_closing():
        request.transport.get_extra_info("socket").setsockopt(socket.SOL_SOCKET, socket.SO_LINGER, _AT_ONCE)
        request.transport.abort()


async def history_csv(request: web.Request) -> web.StreamResponse:
    """The commands that the history looks for."""
    service, asked = service_of(request), Asked.of(request)
    wanted = replace(wanted_of(request, asked), most=SLICE)

    def slice_of(database: Database, before: int | None) -> tuple[list[Sequence[Any]], int | None]:
        found = queries.commands(database, replace(wanted, before=before))
        rows = [_command(service, one) for one in found if asked.takes_command(one)]
        return rows, found[-1].id if len(found) == SLICE else None

    return await _exported(request, "history", _COMMANDS, slice_of, since=asked.since)


async def audit_csv(request: web.Request) -> web.StreamResponse:
    """The lines that the page of the audit looks for."""
    service, asked = service_of(request), Asked.of(request)
    wanted = AuditWanted(asked.who, asked.since, asked.until, most=SLICE)

    def row(entry: Entry) -> Sequence[Any]:
        number, at, who, what = entry
        return number, service.clock.iso(at), who, words.audit_words(what)

    def slice_of(database: Database, before: int | None) -> tuple[list[Sequence[Any]], int | None]:
        found = history.audited(database, replace(wanted, before=before))
        return [row(one) for one in found if asked.takes_entry(one)], found[-1][0] if len(found) == SLICE else None

    return await _exported(request, "audit", _ENTRIES, slice_of, since=asked.since)


def _reading(service: Service, sign: str, one: ReadingView) -> Sequence[Any]:
    time = service.clock.iso
    head = -one.number, time(one.at), time(one.heard), sign
    if one.shown is None:
        return *head, *[None] * 8, one.fault
    it = one.shown
    return (
        *head,
        words.text_of(it.text),
        words.mode_word(it.mode),
        words.source_word(it.source),
        it.priority,
        words.text_of(it.owner),
        words.address_word(it.requester),
        it.beacon,
        it.pixel,
        None,
    )


async def shown_csv(request: web.Request) -> web.StreamResponse:
    """All that a sign said that it showed."""
    service, sign_id = service_of(request), sign_of(request)
    name = service.signs[sign_id].name

    def slice_of(database: Database, after: int | None) -> tuple[list[Sequence[Any]], int | None]:
        found = history.readings(database, sign_id, SLICE, after)
        rows = [_reading(service, name, one) for one in found]
        return rows, found[-1].number if len(found) == SLICE else None

    return await _exported(request, "shown", _SHOWN, slice_of, f"what {name} showed")


def _alarm(service: Service, one: Alarm) -> Sequence[Any]:
    begun, ended, seen = (None if at is None else service.clock.iso(at) for at in (one.begun, one.ended, one.seen_at))
    return one.id, one.sign_name, words.ALARMS[one.kind], one.what, begun, ended, one.seen_by, seen


async def alarms_csv(request: web.Request) -> web.StreamResponse:
    """All alarms that ever were, of the signs that who asks may see."""
    service, may_see = service_of(request), rights_of(request).may_see

    def slice_of(database: Database, before: int | None) -> tuple[list[Sequence[Any]], int | None]:
        found = alarms.every(database, before, SLICE)
        rows = [_alarm(service, one) for one in found if may_see(one.sign)]
        return rows, found[-1].id if len(found) == SLICE else None

    return await _exported(request, "alarms", _ALARMS, slice_of, is_archived=False)

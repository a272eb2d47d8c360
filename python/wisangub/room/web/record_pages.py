"""What was: commands, the ledger, what a sign showed, the audit."""

import datetime
from dataclasses import dataclass, replace
from urllib.parse import urlencode

from aiohttp import web

from wisangub.endpoint.texts import ended
from wisangub.room.plain import plain_of
from wisangub.room.store import archived, history, queries
from wisangub.room.store import words as find_words
from wisangub.room.store.database import Database
from wisangub.room.store.history import Activation, AuditWanted, Entry
from wisangub.room.store.queries import CommandView, SignView, Wanted
from wisangub.room.store.search import search

from . import words
from .service import Service, rights_of, service_of, sign_of

_OUTCOMES = ("accepted", "failed", "open")
_MOST, _MOST_LINES = 50, 100
_MOST_ACTIVATIONS, _MOST_READINGS = 200, 100
_MOST_FIND = 100


def number_of(request: web.Request, key: str) -> int | None:
    """A number of the query."""
    word = request.query.get(key, "")
    return int(word) if word.isascii() and word.isdecimal() and len(word) < 12 else None


@dataclass(frozen=True)
class Asked:
    """What is looked for: words, who, and days from one to another, which count; with the query that says so."""

    find: str
    who: str
    first: str
    last: str
    since: float | None
    until: float | None

    @staticmethod
    def of(request: web.Request) -> "Asked":
        """The query of a page; one that names no day is refused."""
        clock, query = service_of(request).clock, request.query
        days: dict[str, datetime.date] = {}
        for key in ("first", "last"):
            if word := query.get(key, ""):
                try:
                    days[key] = datetime.date.fromisoformat(word)
                    for day in (days[key], days[key] + _DAY):
                        clock.begins(day)
                except (ValueError, OverflowError, OSError):
                    raise web.HTTPBadRequest(text="A day is written as 2026-11-28.") from None
        who, first, last = query.get("who", ""), days.get("first"), days.get("last")
        return Asked(
            query.get("find", "").strip()[:_MOST_FIND],
            who if who.isprintable() else "",
            str(first or ""),
            str(last or ""),
            None if first is None else clock.begins(first),
            None if last is None else clock.begins(last + _DAY),
        )

    def query(self, **more: str | int | None) -> str:
        """The address of this, with more."""
        named: dict[str, str | int | None] = {
            "find": self.find,
            "who": self.who,
            "first": self.first,
            "last": self.last,
        }
        named.update(more)
        return urlencode({key: value for key, value in named.items() if value})

    def takes(self, *said: str) -> bool:
        """Whether the words stand in what is said."""
        return self.find.lower() in " ".join(said).lower()

    def takes_command(self, command: CommandView) -> bool:
        line = words.asked(command.line)
        text = words.text_of(line.text)
        return not self.find or self.takes(command.sign_name, text, plain_of(line.text), line.what, command.how or "")

    def takes_entry(self, entry: Entry) -> bool:
        return not self.find or self.takes(words.audit_words(entry[3]))


_DAY = datetime.timedelta(days=1)


def _number_of_command(command: CommandView) -> int:
    return command.id


def _number_of_entry(entry: Entry) -> int:
    return entry[0]


def wanted_of(request: web.Request, asked: Asked) -> Wanted:
    """The commands that the query names, of the signs that who asks may see."""
    rights, outcome = rights_of(request), request.query.get("outcome", "")
    return Wanted(
        number_of(request, "sign"),
        asked.who,
        outcome if outcome in _OUTCOMES else "",
        number_of(request, "before"),
        _MOST,
        None if rights.sees_all else rights.seen(service_of(request).signs),
        asked.since,
        asked.until,
    )


def archived_words(service: Service, database: Database, since: float | None = None) -> str:
    """What is said at the end of a list where an archive may have what is not in it."""
    found = archived.last(database, since)
    if found is None:
        return ""
    return (
        f"An archive took out what was old, {found.file} on {service.clock.full(found.at)}: it may have more of this."
    )


async def history_page(request: web.Request) -> web.Response:
    service, asked = service_of(request), Asked.of(request)
    wanted = wanted_of(request, asked)

    def found(database: Database) -> tuple[list[CommandView], int | None, str, list[str], float]:
        rows, before = search(
            lambda before, most: queries.commands(database, replace(wanted, before=before, most=most)),
            _number_of_command,
            asked.takes_command,
            wanted.before,
            _MOST,
            lambda before: find_words.slices(database, wanted, asked.find, before),
        )
        gone = "" if before else archived_words(service, database, asked.since)
        return rows, before, gone, history.people(database), queries.now(database)

    rows, before, gone, people, now = await service.connections.run(found)
    signs = sorted((service.signs[sign_id].name, sign_id) for sign_id in rights_of(request).seen(service.signs))
    of = {"sign": wanted.sign, "outcome": wanted.outcome}
    return service.page(
        request,
        "history.html",
        rows=rows,
        archived=gone,
        people=people,
        now=now,
        wanted=wanted,
        asked_for=asked,
        signs=signs,
        earlier=None if before is None else asked.query(**of, before=before),
        query=asked.query(**of),
    )


def _code_words(code: str) -> dict[str, str]:
    """What an activation code says."""
    octets = bytes.fromhex(code)
    return {
        "row": words.source_word(octets[3:8]),
        "minutes": words.minutes_word(int.from_bytes(octets[:2], "big")),
        "priority": str(octets[2]),
        "by": words.address_word(octets[8:]),
    }


def _outcome_word(service: Service, outcome: str) -> str:
    """An outcome, its error-status with its word."""
    return ended(service.mib, f"ledger 0 - {outcome}").removeprefix("ledger 0 - ")


@dataclass(frozen=True)
class Activated:
    """An entry of the ledger in words."""

    number: int
    code: dict[str, str]
    outcome: str
    at: float
    who: str
    text: str


def _activated(service: Service, one: Activation) -> Activated:
    text = words.text_of(words.asked(one.line).text) if one.line else ""
    outcome = _outcome_word(service, one.outcome)
    return Activated(one.number, _code_words(one.code), outcome, one.at, one.who or "", text)


async def ledger(request: web.Request) -> web.Response:
    service, sign_id, before = service_of(request), sign_of(request), number_of(request, "before")

    def found(database: Database) -> tuple[SignView | None, list[Activation], float]:
        rows = history.ledger(database, sign_id, _MOST_ACTIVATIONS + 1, before)
        return queries.sign(database, sign_id), rows, queries.now(database)

    sign, rows, now = await service.connections.run(found)
    entries = [_activated(service, one) for one in rows[:_MOST_ACTIVATIONS]]
    earlier = entries[-1].number if len(rows) > len(entries) else None
    return service.page(
        request, "ledger.html", sign=sign, entries=entries, now=now, tab="ledger", before=before, earlier=earlier
    )


async def shown(request: web.Request) -> web.Response:
    """Numbers of readings are below 0, and stand in addresses without their sign."""
    service, sign_id, before = service_of(request), sign_of(request), number_of(request, "before")
    after = None if before is None else -before

    def found(database: Database) -> tuple[SignView | None, list[history.ReadingView], str, float]:
        rows = history.readings(database, sign_id, _MOST_READINGS + 1, after)
        gone = "" if len(rows) > _MOST_READINGS else archived_words(service, database)
        return queries.sign(database, sign_id), rows, gone, queries.now(database)

    sign, rows, gone, now = await service.connections.run(found)
    said = [(one, service.picture(sign_id, one.shown.text) if one.shown else None) for one in rows[:_MOST_READINGS]]
    earlier = -said[-1][0].number if len(rows) > len(said) else None
    return service.page(
        request,
        "shown.html",
        sign=sign,
        rows=said,
        archived=gone,
        now=now,
        tab="shown",
        before=before,
        earlier=earlier,
    )


async def audit(request: web.Request) -> web.Response:
    service, asked = service_of(request), Asked.of(request)
    wanted = AuditWanted(asked.who, asked.since, asked.until)

    def found(database: Database) -> tuple[list[Entry], int | None, str, list[str], float]:
        lines, before = search(
            lambda before, most: history.audited(database, replace(wanted, before=before, most=most)),
            _number_of_entry,
            asked.takes_entry,
            number_of(request, "before"),
            _MOST_LINES,
            lambda before: find_words.audit_slices(database, wanted, asked.find, before),
        )
        gone = "" if before else archived_words(service, database, asked.since)
        return lines, before, gone, history.audit_people(database), queries.now(database)

    rows, before, gone, people, now = await service.connections.run(found)
    lines = [(number, at, who, words.audit_words(what)) for number, at, who, what in rows]
    return service.page(
        request,
        "audit.html",
        lines=lines,
        archived=gone,
        people=people,
        now=now,
        asked_for=asked,
        earlier=None if before is None else asked.query(before=before),
        query=asked.query(),
    )

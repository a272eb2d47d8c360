"""Each operation that other systems have: its address, who may, what it takes and what it answers."""

import re
from dataclasses import dataclass
from typing import Awaitable, Callable

from aiohttp import web

from wisangub.room.store.users import Role

from . import asking, reading, stream

BASE = "/api/1"
SVG, EVENTS, JSON = "image/svg+xml", "text/event-stream", "application/json"
_READER, _OPERATOR, _ADMINISTRATOR = Role.READER, Role.OPERATOR, Role.ADMINISTRATOR
_NAME = re.compile(r"\{(\w+)\}")


@dataclass(frozen=True)
class Operation:
    """`answer` is the name of a schema, `body` that of what is sent, `query` are names of parameters; `counts` says
    that it wants a key by which it counts once."""

    method: str
    path: str
    handler: Callable[[web.Request], Awaitable[web.StreamResponse]]
    summary: str
    answer: str = ""
    role: Role = _READER
    query: tuple[str, ...] = ()
    body: str = ""
    counts: bool = False
    kind: str = JSON

    @property
    def status(self) -> int:
        """Of a request that was done."""
        return 202 if self.counts else 200

    @property
    def names(self) -> list[str]:
        """The numbers of its address, by their names."""
        return _NAME.findall(self.path)

    @property
    def pattern(self) -> str:
        """Its address, as the router takes it."""
        return BASE + _NAME.sub(r"{\1:\\d{1,9}}", self.path)


def _asks(path: str, handler: Callable[[web.Request], Awaitable[web.Response]], summary: str, body: str) -> Operation:
    return Operation("POST", path, handler, summary, "Batch", _OPERATOR, body=body, counts=True)


def _does(path: str, handler: Callable[[web.Request], Awaitable[web.Response]], summary: str, answer: str) -> Operation:
    return Operation("POST", path, handler, summary, answer, _OPERATOR)


OPERATIONS = (
    Operation("GET", "/signs", reading.signs, "What signs show", "Signs", query=reading.LIST),
    Operation("GET", "/signs/{sign}", reading.sign, "What a sign shows", "Sign"),
    Operation("GET", "/signs/{sign}/picture", reading.picture, "A picture of what a sign shows", kind=SVG),
    Operation("GET", "/signs/{sign}/table", reading.table, "A sign's message table, as it was last read", "Rows"),
    Operation("GET", "/signs/{sign}/device", reading.device, "What a sign says of itself", "Device"),
    Operation("GET", "/signs/{sign}/brightness", reading.brightness_list, "What was asked for of it", "Settings"),
    Operation(
        "GET", "/signs/{sign}/readings", reading.readings, "What a sign showed before", "Readings", query=reading.PAGE
    ),
    Operation("GET", "/events", stream.stream, "What signs show, as it changes", query=stream.NAMES, kind=EVENTS),
    Operation("GET", "/commands", reading.commands, "What was asked for", "Commands", query=reading.COMMANDS),
    Operation("GET", "/commands/{command}", reading.command, "Where a command is", "Command"),
    Operation("GET", "/batches/{batch}", reading.batch, "What was asked for together", "Batch"),
    Operation("GET", "/alarms", reading.alarm_list, "Alarms", "Alarms"),
    Operation("GET", "/texts", reading.texts, "The library", "Texts"),
    Operation("GET", "/purposes", reading.purposes, "What texts are for", "Purposes"),
    Operation("GET", "/plans", reading.plan_list, "Plans", "Plans"),
    Operation("GET", "/audit", reading.audit, "The audit", "Entries", _ADMINISTRATOR, reading.PAGE),
    _asks("/publish", asking.publish, "Has signs show a text", "Publish"),
    _asks("/blank", asking.blank, "Has signs show nothing", "Blank"),
    _asks("/show", asking.show, "Has a sign show a row that it has", "Show"),
    Operation(
        "POST",
        "/signs/{sign}/brightness",
        asking.dim,
        "Sets a sign's brightness",
        "Setting",
        _OPERATOR,
        body="Dim",
        counts=True,
    ),
    _does("/commands/{command}/withdraw", asking.withdraw, "Withdraws a command that waits for its turn", "Command"),
    _does("/alarms/{alarm}/acknowledge", asking.acknowledge, "Acknowledges an alarm", "Nothing"),
    _does("/plans/{plan}/begin", asking.begin_plan, "Begins a plan", "Plan"),
    _does("/plans/{plan}/end", asking.end_plan, "Ends a plan", "Plan"),
)

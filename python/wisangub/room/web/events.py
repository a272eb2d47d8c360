"""Server-sent events: parts of pages that have changed, as they change."""

import asyncio
import json
import re
import time
from typing import Callable

from aiohttp import web

from wisangub.room.output import LOG
from wisangub.room.store import queries, rights
from wisangub.room.store.database import Database, Failed, Taken
from wisangub.room.store.logins import Visitor
from wisangub.room.store.rights import Rights

from . import send, sign_pages, wall
from .connections import Connections
from .service import Service, rights_of, service_of, visitor_of

_VIEW = re.compile(r"wall(?:/((?:\d{1,9}(?:,\d{1,9}){0,99})?))?|(sign|table|batch)/(\d{1,9})")
_MOST_STREAMS, MOST_OF_ONE = 400, 12
SILENCE = 15.0  # seconds after which a line says that the stream is there, and the log-in is looked at
AGES = 5.0  # seconds after which what was said may be too old, though nothing was written
_JUMP = 2.0  # seconds by which the database's clock has to be elsewhere
_MOST_WAITING = 20  # events that a browser has not taken; then it has to begin anew
ALL = "all"  # the view of other systems
Parts = dict[str, str]
_Key = tuple[str, frozenset[int] | None]  # a view, and the signs that may be seen: all for none
_OF = {"sign": sign_pages.parts, "table": sign_pages.table_parts}


class Stream:
    """A browser that listens to a view of the signs that its user may see: all of them for none."""

    def __init__(self, view: str, request: web.Request) -> None:
        self.view, self.request, self.login = view, request, visitor_of(request).login
        self.again: Callable[[Database], Visitor | None] = request["again"]  # whether it still stands
        self.seen = _seen(service_of(request), rights_of(request))
        self.looked = time.monotonic()  # when the log-in was found to stand
        self.queue: asyncio.Queue[Parts | None] = asyncio.Queue(_MOST_WAITING)

    @property
    def key(self) -> _Key:
        """What is made once for all that listen to it; what other systems get is chosen for each of them."""
        return self.view, None if self.view == ALL else self.seen

    @property
    def is_gone(self) -> bool:
        """Whether the browser has let go; what waits for an event does not know it yet."""
        return self.request.transport is None

    def put(self, parts: Parts | None) -> None:
        """Hands an event over; a browser that takes none is let go."""
        if self.queue.full():
            while not self.queue.empty():
                self.queue.get_nowait()
            parts = None
        self.queue.put_nowait(parts)


def _seen(service: Service, may: Rights) -> frozenset[int] | None:
    """The signs of the fleet that somebody may see; none for all that there are."""
    return None if may.sees_all else may.seen(service.signs)


class Hub:
    """Looks for what has changed as long as somebody listens, once for all."""

    def __init__(self, service: Service, every: Callable[[Service, Database], Parts]) -> None:
        self.service = service
        self.of_all = every
        self.streams: set[Stream] = set()
        self.connections = Connections(service.settings.database, 1)  # a mark is of one connection
        self.last: dict[_Key, Parts] = {}
        self.mark, self.looked, self.said = "", 0.0, ""
        self.every: list[wall.Card] | None = None
        self.clock: float | None = None  # the database's time, less this machine's since it was started

    def made(self, key: _Key) -> Callable[[Database], Parts]:
        """How the parts of a view are made."""
        view, seen = key
        if view == ALL:
            return lambda database: self.of_all(self.service, database)
        found = _VIEW.fullmatch(view)
        assert found is not None
        if found[2] is None:
            signs = None if found[1] is None else set(map(int, filter(None, found[1].split(","))))

            def made(database: Database) -> Parts:
                return wall.parts(
                    self.service, [one for one in self.cards(database) if seen is None or one.sign.id in seen], signs
                )

            return made
        number = int(found[3])
        if found[2] == "batch":
            return lambda database: send.parts(
                self.service, database, number, lambda sign: seen is None or sign in seen
            )
        of = _OF[found[2]]
        return lambda database: of(self.service, database, number)

    def cards(self, database: Database) -> list[wall.Card]:
        """The cards of all signs, once for all walls of a look."""
        if self.every is None:
            self.every = wall.cards(self.service, database, frozenset(self.service.signs))[0]
        return self.every

    async def run(self) -> None:
        """For ever."""
        while True:
            await asyncio.sleep(self.service.settings.look)
            if self.streams:
                try:
                    await self.look()
                    self.said = self.said if not self.mark else ""
                except (Failed, Taken):
                    self.mark = ""
                except Exception as fault:
                    self._say(fault)

    def _say(self, fault: Exception) -> None:
        """A fault of the service, once; it is looked again all the same."""
        words, self.mark = f"{type(fault).__name__}: {str(fault)[:200]!r}", ""
        if words != self.said:
            LOG.error(f"what has changed cannot be told: {words}")
        self.said = words

    async def _tell_time(self) -> None:
        """Tells all pages the database's time where its clock has jumped: ages are by it."""
        now = await self.connections.run(queries.now)
        clock, before = now - time.monotonic(), self.clock
        if before is None or abs(clock - before) > _JUMP:
            self.clock = clock
            for stream in self.streams if before is not None else ():
                stream.put({"now": str(now)})

    async def look(self) -> None:
        """What has changed goes to those who listen to it."""
        await self._tell_time()
        mark, now = await self.connections.run(lambda database: database.mark()), time.monotonic()
        watched = {stream.key for stream in self.streams}
        is_new = mark != self.mark or now - self.looked > AGES
        self.last, self.every = {key: parts for key, parts in self.last.items() if key in watched}, None
        self.mark, self.looked = mark, now if is_new else self.looked
        for key in watched:
            if not is_new and key in self.last:
                continue
            try:
                parts = await self.connections.run(self.made(key))
            except (Failed, Taken):
                raise
            except Exception as fault:
                self._say(fault)
                self._end(key)
                continue
            before = self.last.get(key, {})
            changed = {name: html for name, html in parts.items() if before.get(name) != html}
            self.last[key] = parts
            for stream in self.streams:
                if changed and stream.key == key:
                    stream.put(changed)

    def _end(self, key: _Key) -> None:
        """Ends the streams of a view, which browsers begin anew: else they would show what was for what is."""
        self.last.pop(key, None)
        for stream in self.streams:
            if stream.key == key:
                stream.put(None)

    def enter(self, stream: Stream) -> None:
        """A new stream; it is told all that is known of its view first."""
        self.streams = {one for one in self.streams if not one.is_gone}
        of_one = sum(one.login == stream.login for one in self.streams)
        if len(self.streams) >= _MOST_STREAMS or of_one >= MOST_OF_ONE:
            raise web.HTTPServiceUnavailable(text="Too many pages listen.")
        if stream.key in self.last:
            stream.put(self.last[stream.key])
        self.streams.add(stream)

    def end_streams(self) -> None:
        for stream in self.streams:
            stream.put(None)

    def close(self) -> None:
        self.end_streams()
        self.connections.close()


def _hub_of(request: web.Request) -> Hub:
    found: Hub = request.app["hub"]
    return found


async def events(request: web.Request) -> web.StreamResponse:
    """A stream of a view, as long as the log-in stands."""
    service, view = service_of(request), request.query.get("view", "")
    found = _VIEW.fullmatch(view)
    may_see = rights_of(request).may_see
    is_of_sign = found is not None and found[2] in ("sign", "table")
    if found is None or is_of_sign and not (int(found[3]) in service.signs and may_see(int(found[3]))):
        raise web.HTTPNotFound(text="There is no such view.")
    return await streamed(request, view, lambda parts: f"data: {json.dumps(parts)}\n\n".encode())


async def streamed(request: web.Request, view: str, spelled: Callable[[Parts], bytes]) -> web.StreamResponse:
    """Parts of a view as they change, as long as who asks may."""
    service, stream = service_of(request), Stream(view, request)
    _hub_of(request).enter(stream)
    answer = web.StreamResponse(headers={"Content-Type": "text/event-stream", "X-Accel-Buffering": "no"})
    try:
        await answer.prepare(request)
        await answer.write(b"retry: 3000\n\n")
        while (words := await _told(service, stream, spelled)) is not None:
            await answer.write(words)
    except (ConnectionError, Failed, Taken):
        pass  # where the database does not answer the stream ends: the browser asks for another one
    finally:
        _hub_of(request).streams.discard(stream)
    return answer


async def _told(service: Service, stream: Stream, spelled: Callable[[Parts], bytes]) -> bytes | None:
    """The next event, or after a silence a line that says nothing; None where the stream ends. Whatever happens on the
    view, log-in and rights are looked at again before they were taken for granted for longer than a silence."""
    try:
        parts = await asyncio.wait_for(stream.queue.get(), SILENCE)
        words = None if parts is None else spelled(parts)
    except asyncio.TimeoutError:
        words = b": here\n\n"
    now = time.monotonic()
    if words is not None and now - stream.looked >= SILENCE:
        if not await service.connections.run(lambda database: _still_stands(service, database, stream)):
            return None
        stream.looked = now
    return words


def _still_stands(service: Service, database: Database, stream: Stream) -> bool:
    """Whether the log-in or the token stands, and its user still sees the same signs."""
    visitor = stream.again(database)
    return visitor is not None and _seen(service, rights.of_user(database, visitor.name)) == stream.seen

"""Limits of connections: how many stand, in all and of an address, and how long each may keep the service waiting.

A connection waits where no request of it is under way: as it begins, until the head of its request has come, and
between two requests. It waits for a while and no longer, and where there are too many connections the one that waited
longest gives way to a new one. So who opens connections and says nothing, or says it slowly, takes nobody's place. One
that still takes an answer is not given up for that, as long as it takes more of it.
"""

import asyncio
import math
from collections import Counter
from dataclasses import dataclass, field
from typing import Callable

from aiohttp import web
from aiohttp.web_protocol import RequestHandler

_NO_ADDRESS = "-"


@dataclass(frozen=True)
class Patience:
    """Seconds that a connection waits for the head of its first request, and for that of a further one; seconds in
    which a request's body has to come; connections in all, and of one address."""

    head: float = 10.0
    idle: float = 30.0
    body: float = 20.0
    most: int = 600
    most_of_address: int = 300


class Connection(asyncio.Protocol):
    """A connection of a browser, between the socket and what answers its requests."""

    def __init__(self, limits: "Limits", inner: RequestHandler) -> None:
        self._limits, self._inner = limits, inner
        self.address = _NO_ADDRESS
        self.transport: asyncio.Transport | None = None
        self.timer: asyncio.TimerHandle | None = None

    def connection_made(self, transport: asyncio.BaseTransport) -> None:
        assert isinstance(transport, asyncio.Transport)
        self.transport = transport
        peer = transport.get_extra_info("peername")
        self.address = str(peer[0]) if peer else _NO_ADDRESS
        self._inner.connection_made(transport)
        self._limits.enter(self)

    def data_received(self, data: bytes) -> None:
        self._inner.data_received(data)

    def eof_received(self) -> None:
        self._inner.eof_received()

    def pause_writing(self) -> None:
        self._inner.pause_writing()

    def resume_writing(self) -> None:
        self._inner.resume_writing()

    def connection_lost(self, exc: BaseException | None) -> None:
        self._limits.leave(self)
        self._inner.connection_lost(exc)

    def give_up(self) -> None:
        """Ends the connection at once."""
        if self.transport is not None:
            self.transport.abort()


@dataclass
class Limits:
    """All connections by their transports, and those that wait, the one that has waited longest first. Behind a proxy
    all have one address, and the proxy counts those of its clients."""

    patience: Patience = Patience()
    is_behind_tls: bool = False
    standing: dict[asyncio.BaseTransport, Connection] = field(default_factory=dict)
    waiting: dict[Connection, None] = field(default_factory=dict)
    of_address: Counter[str] = field(default_factory=Counter)

    def factory(self, make: Callable[[], RequestHandler]) -> Callable[[], Connection]:
        """What makes the protocol of a new connection."""
        return lambda: Connection(self, make())

    def enter(self, new: Connection) -> None:
        """A connection begins, and waits; another one gives way where there are too many."""
        assert new.transport is not None
        self.standing[new.transport] = new
        self.of_address[new.address] += 1
        self._wait(new, self.patience.head)
        is_crowd = not self.is_behind_tls and self.of_address[new.address] > self.patience.most_of_address
        if is_crowd or len(self.standing) > self.patience.most:
            same = (one for one in self.waiting if not is_crowd or one.address == new.address)
            self._give_up(next(same, new))

    def _give_up(self, one: Connection) -> None:
        self._end_wait(one)
        one.give_up()

    def leave(self, gone: Connection) -> None:
        """A connection is no more."""
        self._end_wait(gone)
        if gone.transport is not None and self.standing.pop(gone.transport, None) is not None:
            self.of_address -= Counter([gone.address])

    def begin(self, request: web.Request) -> None:
        """The head of a request has come."""
        found = self._of(request)
        if found is not None:
            self._end_wait(found)

    def end(self, request: web.Request) -> None:
        """A request was answered."""
        found = self._of(request)
        if found is not None:
            self._wait(found, self.patience.idle)

    def _of(self, request: web.Request) -> Connection | None:
        transport = request.transport
        return None if transport is None else self.standing.get(transport)

    def _wait(self, one: Connection, seconds: float) -> None:
        self._end_wait(one)
        self.waiting[one] = None
        self._look_later(one, seconds, math.inf)

    def _look_later(self, one: Connection, seconds: float, left: float) -> None:
        one.timer = asyncio.get_running_loop().call_later(seconds, self._look, one, seconds, left)

    def _look(self, one: Connection, seconds: float, before: float) -> None:
        """Gives up who has waited so long, unless he has taken some of an answer of which so many octets were left."""
        left = 0 if one.transport is None else one.transport.get_write_buffer_size()
        if 0 < left < before:
            self._look_later(one, seconds, left)
        else:
            self._give_up(one)

    def _end_wait(self, one: Connection) -> None:
        self.waiting.pop(one, None)
        if one.timer is not None:
            one.timer.cancel()
            one.timer = None

"""What watches the service asks for: /health, and /metrics as Prometheus reads them."""

import asyncio
import importlib.util
import time
from dataclasses import dataclass, field
from typing import TYPE_CHECKING, Awaitable, Callable

from aiohttp import web

from wisangub.room.store import gauges
from wisangub.room.store.database import Database, Failed
from wisangub.room.store.gauges import Gauges
from wisangub.room.store.users import Role

from . import wall
from .api import guard, routes
from .api.asked import Wrong, answered, refused
from .service import Service, rights_of, service_of

if TYPE_CHECKING:
    from .metrics import Metrics

_Handler = Callable[[web.Request], Awaitable[web.StreamResponse]]
STALE = 60.0  # seconds after which a worker that has not looked is none
_KEPT = 1.0  # seconds that an answer stands, so that who asks all the time asks the database once
_LACKS = "This Python does not see prometheus_client: apt-get install python3-prometheus-client."


@dataclass
class Watch:
    """What is said of the service: its health, for everybody, and metrics, where the package for them is there."""

    service: Service
    metrics: "Metrics | None"
    looked: float = -_KEPT
    is_answering: bool = False
    worker_age: float | None = None
    turn: asyncio.Lock = field(default_factory=asyncio.Lock)

    async def look(self) -> None:
        """Asks the database, where it was not asked just before; who asks meanwhile waits for the answer."""
        async with self.turn:
            if time.monotonic() - self.looked < _KEPT:
                return
            try:
                self.worker_age = await self.service.connections.run(gauges.worker_age)
                self.is_answering = True
            except Failed:
                self.is_answering = False
            self.looked = time.monotonic()

    @property
    def has_worker(self) -> bool:
        return self.worker_age is not None and abs(self.worker_age) < STALE


def watch_of(service: Service) -> Watch:
    """The watch over a service."""
    if importlib.util.find_spec("prometheus_client") is None:
        return Watch(service, None)
    from .metrics import Metrics

    return Watch(service, Metrics())


def _watching(request: web.Request) -> Watch:
    found: Watch = request.app["watch"]
    return found


async def health(request: web.Request) -> web.Response:
    """Whether pages, database and a worker are there; 503 where the database does not answer."""
    watch = _watching(request)
    await watch.look()
    if not watch.is_answering:
        return answered({"status": "no database"}, 503)
    return answered({"status": "ok" if watch.has_worker else "no worker"})


@web.middleware
async def measured(request: web.Request, handler: _Handler) -> web.StreamResponse:
    """Counts a request and how long it took."""
    metrics, begun = _watching(request).metrics, time.perf_counter()
    status = 500
    try:
        response = await handler(request)
        status = response.status
        return response
    except web.HTTPException as fault:
        status = fault.status
        raise
    finally:
        if metrics is not None:
            metrics.count(_kind(request), status, time.perf_counter() - begun)


def _kind(request: web.Request) -> str:
    """Which requests are counted together."""
    if request.path.endswith("/events"):
        return "events"
    return "api" if routes.is_of(request) else "page"


async def metrics_page(request: web.Request) -> web.Response:
    """The metrics, for who sees all signs."""
    try:
        await guard.enter(request, Role.READER)
        if not rights_of(request).sees_all:
            raise Wrong(403, "This is for who sees all signs.")
    except Wrong as wrong:
        return refused(wrong.status, wrong.words)
    service, metrics = service_of(request), _watching(request).metrics
    if metrics is None:
        return refused(501, _LACKS)

    def found(database: Database) -> tuple[Gauges, list[wall.Card]]:
        return gauges.gauges(database), wall.cards(service, database, frozenset(service.signs))[0]

    held, cards = await service.connections.run(found)
    text = metrics.text(held, cards, len(service.limits.standing), len(request.app["hub"].streams))
    return web.Response(body=text, headers={"Content-Type": metrics.CONTENT_TYPE})

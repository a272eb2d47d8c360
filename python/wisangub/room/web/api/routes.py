"""The operations as routes of the application, and what is answered where one is refused."""

import functools
from typing import Awaitable, Callable

from aiohttp import web

from . import guard
from .asked import Wrong, answered, refused
from .document import document
from .operations import BASE, OPERATIONS, Operation

_Handler = Callable[[web.Request], Awaitable[web.StreamResponse]]


def is_of(request: web.Request) -> bool:
    """Whether another system asks, which is answered in JSON."""
    return request.path.startswith(f"{BASE}/")


@functools.cache
def _document() -> str:
    found = answered(document()).text
    assert found is not None
    return found


async def openapi(_: web.Request) -> web.Response:
    """The document, for everybody: it says nothing of the fleet."""
    return web.Response(text=_document(), content_type="application/json")


def _guarded(operation: Operation) -> _Handler:
    """An operation for those who may."""

    async def handler(request: web.Request) -> web.StreamResponse:
        try:
            await guard.enter(request, operation.role)
            return await operation.handler(request)
        except Wrong as wrong:
            return refused(wrong.status, wrong.words, wrong.faults)

    return handler


def add_to(router: web.UrlDispatcher) -> None:
    """All of them."""
    router.add_route("GET", f"{BASE}/openapi.json", openapi)
    for operation in OPERATIONS:
        router.add_route(operation.method, operation.pattern, _guarded(operation))

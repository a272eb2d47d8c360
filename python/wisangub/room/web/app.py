"""The application: which page answers what, and who may."""

import asyncio
import contextlib
import errno
import pathlib
import traceback
from dataclasses import dataclass
from functools import partial
from typing import AsyncIterator, Awaitable, Callable

from aiohttp import web

from wisangub.room.output import LOG
from wisangub.room.store import logins, rights
from wisangub.room.store.audit import note
from wisangub.room.store.database import Database, Failed, Taken
from wisangub.room.store.logins import Visitor
from wisangub.room.store.rights import Rights
from wisangub.room.store.users import Role

from . import (
    alarm_pages,
    archive_pages,
    bodies,
    brightness_pages,
    compose,
    exports,
    group_pages,
    health,
    library_pages,
    log_pages,
    people,
    picture_pages,
    plan_pages,
    record_pages,
    rule_pages,
    send,
    sign_in,
    sign_pages,
    wall,
)
from .api import routes, stream
from .events import Hub, events
from .security import address_of, prepare
from .service import HERE, SERVICE, Service, service_of

_Handler = Callable[[web.Request], Awaitable[web.StreamResponse]]
_MOST_BODY = 64 * 1024
_READER, _OPERATOR, _ADMINISTRATOR = Role.READER, Role.OPERATOR, Role.ADMINISTRATOR


@dataclass(frozen=True)
class Route:
    """An address; without a role it is open to all, and looks at its own token."""

    method: str
    path: str
    handler: _Handler
    role: Role | None = _READER


ROUTES = (
    Route("GET", "/login", sign_in.form, None),
    Route("POST", "/login", sign_in.log_in, None),
    Route("POST", "/logout", sign_in.log_out),
    Route("GET", "/account", people.account),
    Route("POST", "/account", people.own_password),
    Route("POST", "/account/factor", people.second_factor),
    Route("POST", "/account/tokens", people.own_tokens),
    Route("POST", r"/logins/{login:[0-9a-f]{16}}/end", people.end_login),
    Route("GET", "/", wall.wall),
    Route("GET", "/events", events),
    Route("GET", r"/pictures/{face:[0-9a-f]{16}}/{text:-|(?:[0-9a-f]{2})+}.svg", picture_pages.picture),
    Route("GET", r"/signs/{sign:\d{1,9}}", sign_pages.overview),
    Route("GET", r"/signs/{sign:\d{1,9}}/table", sign_pages.table),
    Route("POST", r"/signs/{sign:\d{1,9}}/table", sign_pages.read_table),
    Route("GET", r"/signs/{sign:\d{1,9}}/brightness", brightness_pages.confirm, _OPERATOR),
    Route("POST", r"/signs/{sign:\d{1,9}}/brightness", brightness_pages.ask, _OPERATOR),
    Route("GET", r"/signs/{sign:\d{1,9}}/ledger", record_pages.ledger),
    Route("GET", r"/signs/{sign:\d{1,9}}/shown", record_pages.shown),
    Route("GET", r"/signs/{sign:\d{1,9}}/shown.csv", exports.shown_csv),
    Route("GET", r"/signs/{sign:\d{1,9}}/log", log_pages.log),
    Route("GET", "/history", record_pages.history_page),
    Route("GET", "/alarms", alarm_pages.listed),
    Route("GET", "/alarms.csv", exports.alarms_csv),
    Route("POST", r"/alarms/{alarm:\d{1,9}}/acknowledge", alarm_pages.acknowledge, _OPERATOR),
    Route("GET", "/library", library_pages.listed),
    Route("POST", "/library", library_pages.add, _OPERATOR),
    Route("GET", r"/library/{text:\d{1,9}}", library_pages.text),
    Route("POST", r"/library/{text:\d{1,9}}", library_pages.change, _OPERATOR),
    Route("POST", r"/library/{text:\d{1,9}}/approve", library_pages.approve, _ADMINISTRATOR),
    Route("GET", "/plans", plan_pages.listed),
    Route("POST", "/plans", plan_pages.keep, _OPERATOR),
    Route("GET", r"/plans/{plan:\d{1,9}}", plan_pages.plan),
    Route("POST", r"/plans/{plan:\d{1,9}}", plan_pages.change, _OPERATOR),
    Route("GET", "/groups", group_pages.listed, _ADMINISTRATOR),
    Route("POST", "/groups", group_pages.add, _ADMINISTRATOR),
    Route("GET", r"/groups/{group:\d{1,9}}", group_pages.group, _ADMINISTRATOR),
    Route("POST", r"/groups/{group:\d{1,9}}", group_pages.change, _ADMINISTRATOR),
    Route("GET", "/rules", rule_pages.listed, _ADMINISTRATOR),
    Route("POST", "/rules", rule_pages.change, _ADMINISTRATOR),
    Route("GET", r"/batches/{batch:\d{1,9}}", send.batch),
    Route("GET", "/compose", compose.form, _OPERATOR),
    Route("POST", "/compose", compose.confirm, _OPERATOR),
    Route("POST", "/look", compose.look, _OPERATOR),
    Route("GET", "/blank", compose.blank, _OPERATOR),
    Route("GET", "/show", compose.row, _OPERATOR),
    Route("POST", "/send", send.send, _OPERATOR),
    Route("POST", r"/commands/{command:\d{1,9}}/withdraw", send.withdraw, _OPERATOR),
    Route("GET", "/users", people.users_page, _ADMINISTRATOR),
    Route("POST", "/users", people.change, _ADMINISTRATOR),
    Route("GET", "/audit", record_pages.audit, _ADMINISTRATOR),
    Route("GET", "/history.csv", exports.history_csv),
    Route("GET", "/audit.csv", exports.audit_csv, _ADMINISTRATOR),
    Route("GET", "/archives", archive_pages.listed, _ADMINISTRATOR),
    Route("GET", "/archives/{name}", archive_pages.archive, _ADMINISTRATOR),
    Route("GET", "/health", health.health, None),
    Route("GET", "/metrics", health.metrics_page, None),
)


_UNSAID = {
    404: "There is no page at this address.",
    405: "This address takes no request of this kind.",
    413: "This request is too long.",
}  # where nobody else says why
_BY_THEMSELVES = (events, picture_pages.picture)  # that pages ask for though nobody is there


def _refused(request: web.Request, status: int, words: str, keep_alive: bool | None = None) -> web.Response:
    """A page that says why there is no other."""
    if request.path == "/look" or routes.is_of(request):
        made = web.json_response({"error": words}, status=status)
    else:
        made = service_of(request).page(request, "error.html", status=status, status_code=status, why=words)
    if keep_alive is False:
        made.force_close()
    return made


@web.middleware
async def _limits(request: web.Request, handler: _Handler) -> web.StreamResponse:
    """A connection waits for its next request once this one was answered."""
    limits = service_of(request).limits
    limits.begin(request)
    try:
        return await handler(request)
    finally:
        limits.end(request)


@web.middleware
async def _faults(request: web.Request, handler: _Handler) -> web.StreamResponse:
    """What went wrong, in words. A fault of the service is one line of the log, whatever was asked for."""
    try:
        bodies.check_address(request)
        if request.can_read_body:
            await bodies.check(request, service_of(request).settings.patience.body)
        return await handler(request)
    except web.HTTPRedirection:
        raise
    except web.HTTPException as fault:
        is_said = fault.text and not fault.text.startswith(str(fault.status))
        words = fault.text if is_said and fault.text else _UNSAID.get(fault.status, f"{fault.reason}.")
        return _refused(request, fault.status, words, fault.keep_alive)
    except (Failed, Taken):
        return _refused(request, 503, "The database does not answer. What was asked for may not have been done.")
    except Exception as fault:
        if isinstance(fault, OSError) and fault.errno == errno.ENAMETOOLONG:  # of a file below /static
            return _refused(request, 404, _UNSAID[404])
        LOG.error(f"a page failed: {request.method} {request.match_info.route.resource}: {_placed(fault)}")
        return _refused(request, 500, "Something went wrong here. The service's log says what.")


def _placed(fault: Exception) -> str:
    """A fault in one line, with the place that it comes from."""
    frames = traceback.extract_tb(fault.__traceback__)
    at = f" at {pathlib.Path(frames[-1].filename).name}:{frames[-1].lineno}" if frames else ""
    return f"{type(fault).__name__}: {str(fault)[:200]!r}{at}"


@web.middleware
async def _guard(request: web.Request, handler: _Handler) -> web.StreamResponse:
    """Lets through who may; a request that changes something has to come from a page of ours."""
    roles: dict[_Handler, Role | None] = request.app["roles"]
    role = roles.get(request.match_info.handler)
    if request.match_info.handler not in roles or role is None:
        return await handler(request)
    service = service_of(request)
    cookie = service.seal.get(request, "login")
    idle, is_asked = service.settings.idle, request.match_info.handler not in _BY_THEMSELVES
    ask = partial(_visiting, cookie=cookie or "", idle=idle, is_asked=is_asked)
    visitor, may = await service.connections.run(ask) if cookie else (None, Rights())
    if visitor is None:
        if request.method != "GET" or request.path == "/events":
            raise web.HTTPUnauthorized(text="You are not logged in, or your log-in has ended.")
        raise web.HTTPSeeOther(sign_in.address(request))
    request["visitor"], request["rights"] = visitor, may
    request["again"] = lambda database: logins.find(database, visitor.login, idle)
    if visitor.role < role:
        await _note_refusal(request, visitor, f"it is for {role.word}s")
        raise web.HTTPForbidden(text=f"This is for {role.word}s: you are logged in as a {visitor.role.word}.")
    if request.method != "GET" and not await service.seal.is_own(request, visitor.login):
        await _note_refusal(request, visitor, "it came from no page of this service")
        raise web.HTTPForbidden(text="This request did not come from a page of this service, so nothing was done.")
    return await handler(request)


def _visiting(database: Database, cookie: str, idle: float, is_asked: bool) -> tuple[Visitor | None, Rights]:
    """Whose log-in it is, and what he may."""
    visitor = logins.find(database, cookie, idle, is_asked)
    return visitor, rights.of_user(database, visitor.name) if visitor else Rights()


async def _note_refusal(request: web.Request, visitor: Visitor, why: str) -> None:
    """The audit of what somebody may not."""
    service = service_of(request)
    of = address_of(request, service.settings.is_behind_tls)
    route = request.match_info.route.resource
    what = f"was refused {request.method} {route.canonical if route else '-'}, since {why}, from {of}"
    await service.connections.run(lambda database: note(database, visitor.name, what))


async def _hub_running(app: web.Application) -> AsyncIterator[None]:
    """The hub looks for changes as long as the application stands."""
    task = asyncio.create_task(app["hub"].run())
    yield
    task.cancel()
    with contextlib.suppress(asyncio.CancelledError):
        await task
    app["hub"].close()


async def _end_streams(app: web.Application) -> None:
    """Ends what would keep the service from ending."""
    app["hub"].end_streams()


def application(service: Service) -> web.Application:
    """The pages of a service."""
    app = web.Application(middlewares=[_limits, health.measured, _faults, _guard], client_max_size=_MOST_BODY)
    app[SERVICE], app["hub"] = service, Hub(service, stream.parts)
    app["watch"] = health.watch_of(service)
    app["roles"] = {route.handler: route.role for route in ROUTES}
    for route in ROUTES:
        app.router.add_route(route.method, route.path, route.handler)
    routes.add_to(app.router)
    app.router.add_static("/static", HERE / "static")
    app.on_response_prepare.append(prepare)
    app.on_shutdown.append(_end_streams)
    app.cleanup_ctx.append(_hub_running)
    return app

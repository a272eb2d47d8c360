"""Logging in and out."""

import asyncio
import math
import secrets
from urllib.parse import quote

from aiohttp import web

from wisangub.refusal import Refusal
from wisangub.room.store import factors, logins, passwords, users

from .security import address_of
from .service import Service, service_of, visitor_of

_BEFORE = "before"  # the cookie of the form, since its token belongs to no log-in yet
_WRONG = "This name, this password and this code (for who has one) do not go together."
_ONE_AT_A_TIME = asyncio.Semaphore(2)  # a look at a password takes 32 MiB


def address(request: web.Request) -> str:
    """Where who is not logged in is sent."""
    return f"/login?next={quote(request.path_qs, safe='')}" if request.path_qs != "/" else "/login"


def local(path: str) -> str:
    """A path of this service; the wall for any other address."""
    is_own = path.startswith("/") and not path.startswith(("//", "/\\")) and path.isprintable()
    return path if is_own else "/"


def _shown(request: web.Request, then: str, fault: str = "", status: int = 200, name: str = "") -> web.Response:
    """The form, with a cookie of its own."""
    service = service_of(request)
    before = service.seal.get(request, _BEFORE) or secrets.token_urlsafe(18)
    answer = service.page(
        request, "login.html", status=status, then=then, fault=fault, name=name, form_token=service.seal.token(before)
    )
    service.seal.set(answer, _BEFORE, before, logins.LASTS)
    return answer


async def form(request: web.Request) -> web.Response:
    return _shown(request, local(request.query.get("next", "/")))


async def found_by(service: Service, name: str, password: str) -> str | None:
    """What is kept of the password, where it is that of somebody of this name; it takes the same time where there is
    nobody."""
    kept = await service.connections.run(lambda database: users.secret(database, name))
    async with _ONE_AT_A_TIME:
        found = await asyncio.to_thread(lambda: passwords.is_password(password, kept or passwords.nobody()))
    return kept if found else None


async def to_wait(service: Service, name: str, address: str) -> int:
    """Seconds before this name's password is looked at again; 0 where it may be now, and the attempt counts."""
    return math.ceil(await service.connections.run(lambda database: logins.attempt(database, name, address)))


async def log_in(request: web.Request) -> web.StreamResponse:
    service = service_of(request)
    fields = await request.post()
    name, password, then = (str(fields.get(key, "")) for key in ("name", "password", "next"))
    name, then = name.strip().lower(), local(then)
    before = service.seal.get(request, _BEFORE)
    if before is None or not await service.seal.is_own(request, before):
        return _shown(
            request, then, "This form was open for too long, or cookies are off. Please try again.", 403, name
        )
    of = address_of(request, service.settings.is_behind_tls)
    if seconds := await to_wait(service, name, of):
        answer = _shown(request, then, f"Too many log-ins failed. Please try again in {seconds} s.", 429, name)
        answer.headers["Retry-After"] = str(seconds)
        return answer
    secret = await found_by(service, name, password)
    if secret is None:
        await service.connections.run(lambda database: logins.failed(database, name, of))
        return _shown(request, then, _WRONG, 403, name)
    code = str(fields.get("code", ""))
    if not await service.connections.run(lambda database: factors.is_code(database, name, code)):
        what = "a log-in failed by its code"
        await service.connections.run(lambda database: logins.failed(database, name, of, what))
        return _shown(request, then, _WRONG, 403, name)
    try:
        cookie = await service.connections.run(lambda database: logins.begin(database, name, of, secret))
    except Refusal:
        return _shown(request, then, _WRONG, 403, name)
    answer = web.Response(status=303, headers={"Location": then})
    service.seal.set(answer, "login", cookie, logins.LASTS)
    service.seal.drop(answer, _BEFORE)
    return answer


async def log_out(request: web.Request) -> web.StreamResponse:
    service, visitor = service_of(request), visitor_of(request)
    await service.connections.run(lambda database: logins.end(database, visitor))
    answer = web.Response(status=303, headers={"Location": "/login"})
    service.seal.drop(answer, "login")
    return answer

"""Users, their roles and passwords."""

from aiohttp import web

from wisangub.refusal import Refusal
from wisangub.room.store import factors, logins, queries, tokens, totp, users
from wisangub.room.store.database import Database
from wisangub.room.store.logins import Login
from wisangub.room.store.tokens import Token
from wisangub.room.store.users import Role, User

from . import sign_in
from .security import address_of
from .service import service_of, visitor_of


async def _shown(request: web.Request, said: str = "", status: int = 200) -> web.Response:
    service = service_of(request)

    def found(database: Database) -> tuple[list[User], list[Token], float]:
        return users.users(database), tokens.listed(database), queries.now(database)

    every, standing, now = await service.connections.run(found)
    return service.page(
        request, "users.html", status=status, users=every, tokens=standing, roles=list(Role), said=said, now=now
    )


async def users_page(request: web.Request) -> web.Response:
    return await _shown(request)


async def change(request: web.Request) -> web.Response:
    """Adds a user, or gives one another role, another password, or another state."""
    service, who = service_of(request), visitor_of(request).name
    fields = {key: str(value) for key, value in (await request.post()).items()}
    name, do = fields.get("name", "").strip(), fields.get("do", "")

    def done(database: Database) -> str:
        if do == "add":
            users.add(database, name, Role.of(fields.get("role", "")), fields.get("password", ""), who)
            return f"{name} was added."
        if do == "role":
            users.change_role(database, name, Role.of(fields.get("role", "")), who)
            return f"{name} has another role."
        if do == "password":
            users.change_password(database, name, fields.get("password", ""), who)
            return f"{name} has another password."
        if do == "one-factor":
            factors.remove(database, name, who)
            return f"{name} gives no code any more."
        if do == "end-token":
            return _ended(database, fields.get("token-number", ""), who)
        if do in ("disable", "enable"):
            users.disable(database, name, do == "disable", who)
            return f"{name} may {'no longer' if do == 'disable' else 'now'} log in."
        raise Refusal("nothing was asked for")

    try:
        return await _shown(request, await service.connections.run(done))
    except Refusal as refused:
        return await _shown(request, f"Nothing was changed: {refused}.", 422)


def _ended(database: Database, word: str, who: str, user: str | None = None) -> str:
    """Ends a token, of a user or of anybody."""
    is_number = word.isascii() and word.isdecimal() and len(word) < 10
    if not is_number or not tokens.end(database, int(word), who, user):
        raise Refusal("there is no such token any more")
    return "The token is good for nothing any more."


async def _account_page(request: web.Request, said: str = "", status: int = 200, token: str = "") -> web.Response:
    service, visitor = service_of(request), visitor_of(request)

    def found(database: Database) -> tuple[list[Login], list[Token], float | None, float]:
        standing = logins.standing(database, visitor, service.settings.idle)
        of_user = tokens.listed(database, visitor.name)
        return standing, of_user, factors.since(database, visitor.name), queries.now(database)

    standing, of_user, since, now = await service.connections.run(found)
    secret = totp.new_secret()
    return service.page(
        request,
        "account.html",
        status=status,
        said=said,
        standing=standing,
        tokens=of_user,
        made=token,
        days=tokens.DAYS,
        most_days=tokens.MOST_DAYS,
        since=since,
        now=now,
        secret=secret,
        address=totp.address_of(visitor.name, secret),
        shown=service.seal.confirmation(visitor.login, secret),
    )


async def account(request: web.Request) -> web.Response:
    return await _account_page(request)


async def second_factor(request: web.Request) -> web.StreamResponse:
    """Begins a second factor by the present password and the first code of the secret that the page showed, or ends it
    by a code of now. Whoever finds somebody's log-in open shuts nobody out by a secret of his own."""
    service, visitor = service_of(request), visitor_of(request)
    fields = await request.post()
    do, secret, shown, code = (str(fields.get(key, "")) for key in ("do", "secret", "shown", "code"))
    found = await _present(request, str(fields.get("old", ""))) if do == "begin" else None
    if isinstance(found, web.Response):
        return found
    kept = found
    of = address_of(request, service.settings.is_behind_tls)
    if seconds := await sign_in.to_wait(service, visitor.name, of):
        return await _account_page(request, f"Nothing was changed: please try again in {seconds} s.", 429)

    def done(database: Database) -> None:
        if do == "begin" and service.seal.is_confirmation(shown, visitor.login, secret):
            factors.enter(database, visitor.name, secret, code, kept)
        elif do != "end" or not factors.is_code(database, visitor.name, code):
            raise Refusal("this is not the code of now")
        else:
            factors.remove(database, visitor.name, visitor.name)
        logins.forgive(database, visitor.name, of)

    try:
        await service.connections.run(done)
    except Refusal as refused:
        what = "a wrong code was given"
        await service.connections.run(lambda database: logins.failed(database, visitor.name, of, what))
        return await _account_page(request, f"Nothing was changed: {refused}.", 403)
    raise web.HTTPSeeOther("/account")


async def end_login(request: web.Request) -> web.StreamResponse:
    """Ends one of the log-ins of who asks."""
    service, visitor, key = service_of(request), visitor_of(request), request.match_info["login"]
    await service.connections.run(lambda database: logins.end_one(database, visitor, key))
    raise web.HTTPSeeOther("/account")


async def _present(request: web.Request, password: str) -> str | web.Response:
    """What is kept of the present password of who is logged in; or the page that refuses who does not know it, or has
    to wait."""
    service, visitor = service_of(request), visitor_of(request)
    of = address_of(request, service.settings.is_behind_tls)
    if seconds := await sign_in.to_wait(service, visitor.name, of):
        return await _account_page(request, f"Nothing was changed: please try again in {seconds} s.", 429)
    secret = await sign_in.found_by(service, visitor.name, password)
    if secret is None:
        what = "a wrong present password was given"
        await service.connections.run(lambda database: logins.failed(database, visitor.name, of, what))
        return await _account_page(request, "Nothing was changed: the present password is another one.", 403)
    await service.connections.run(lambda database: logins.forgive(database, visitor.name, of))
    return secret


async def own_tokens(request: web.Request) -> web.StreamResponse:
    """Makes a token of who asks, which the answer shows once, or ends one."""
    service, name = service_of(request), visitor_of(request).name
    fields = {key: str(value) for key, value in (await request.post()).items()}
    days = fields.get("days", "")
    of = int(days) if days.isascii() and days.isdecimal() and len(days) < 6 else 0
    secret = None
    if fields.get("do") == "add":
        found = await _present(request, fields.get("old", ""))
        if isinstance(found, web.Response):
            return found
        secret = found

    def done(database: Database) -> tuple[str, str]:
        if fields.get("do") == "end":
            return _ended(database, fields.get("number", ""), name, name), ""
        if fields.get("do") != "add":
            raise Refusal("nothing was asked for")
        made = tokens.add(database, fields.get("name", ""), name, fields.get("reads") == "1", of, name, secret)
        return "The token is shown this once: keep it where the other system has it.", made

    try:
        said, made = await service.connections.run(done)
    except Refusal as refused:
        return await _account_page(request, f"Nothing was changed: {refused}.", 422)
    return await _account_page(request, said, token=made)


async def own_password(request: web.Request) -> web.StreamResponse:
    """Another password for who asks; he has to log in again."""
    service, visitor = service_of(request), visitor_of(request)
    fields = await request.post()
    old, new, again = (str(fields.get(key, "")) for key in ("old", "new", "again"))
    found = await _present(request, old)
    if isinstance(found, web.Response):
        return found
    secret = found
    if new != again:
        return await _account_page(request, "Nothing was changed: the two new passwords differ.", 422)

    def done(database: Database) -> None:
        users.change_password(database, visitor.name, new, visitor.name, secret)

    try:
        await service.connections.run(done)
    except Refusal as refused:
        return await _account_page(request, f"Nothing was changed: {refused}.", 422)
    raise web.HTTPSeeOther("/login")

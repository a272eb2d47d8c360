"""Plans: what each puts on which signs, when it is on, and beginning and ending it by hand."""

from dataclasses import dataclass

from aiohttp import web

from wisangub.refusal import Refusal
from wisangub.room.store import plans, queries
from wisangub.room.store.database import Database
from wisangub.room.store.plan_runs import Plan
from wisangub.room.times import DAYS, Times

from . import send
from .service import Service, rights_of, service_of, visitor_of
from .words import Asked, asked


@dataclass(frozen=True)
class Part:
    """What a plan puts on a sign, and the other plans that put something there."""

    sign: int
    name: str
    asked: Asked
    picture: str | None
    others: list[str]


def _is_seen(request: web.Request, plan: Plan) -> bool:
    """Whether who asks may see all signs of a plan, and so the plan."""
    return all(map(rights_of(request).may_see, plan.signs))


def _may_change(request: web.Request, plan: Plan) -> bool:
    return visitor_of(request).may_command and all(map(rights_of(request).may_command, plan.signs))


def _next(plan: Plan, now: float) -> float | None:
    """When a schedule begins it next; a zone that this machine has not is no time."""
    found = []
    for one in plan.schedules:
        try:
            found.append(one.times.next(now))
        except Refusal:
            pass
    return min((time for time in found if time is not None), default=None)


async def listed(request: web.Request) -> web.Response:
    service = service_of(request)

    def found(database: Database) -> tuple[list[Plan], float]:
        return plans.listed(database), queries.now(database)

    every, now = await service.connections.run(found)
    rows = [(plan, _next(plan, now)) for plan in every if _is_seen(request, plan)]
    return service.page(request, "plans.html", plans=rows, now=now)


async def keep(request: web.Request) -> web.StreamResponse:
    """Puts what was confirmed into a plan, and shows nothing yet."""
    service, visitor, found = service_of(request), visitor_of(request), await send.confirmed(request)
    if isinstance(found, web.Response):
        return found
    draft, name = found.draft, str((await request.post()).get("plan", ""))
    if draft.kind != "publish":
        raise web.HTTPBadRequest(text="A plan has texts.")

    def done(database: Database) -> int:
        return plans.keep(database, name, send.lines_of(service, draft, visitor.name), visitor.name)

    try:
        number = await service.connections.run(done)
    except Refusal as refused:
        raise web.HTTPUnprocessableEntity(text=f"Nothing was kept: {refused}.") from None
    raise web.HTTPSeeOther(f"/plans/{number}")


def _number_of(request: web.Request) -> int:
    return int(request.match_info["plan"])


def _others(request: web.Request, plan: Plan, every: list[Plan]) -> dict[int, list[str]]:
    """The names of other plans by the signs of this one; of one that may not be seen, that there is one."""
    found: dict[int, list[str]] = {sign: [] for sign in plan.signs}
    for other in every:
        name = f"“{other.name}”" if _is_seen(request, other) else "one that you may not see"
        for sign in set(other.signs) & set(plan.signs) if other.id != plan.id else ():
            found[sign].append(name)
    return found


def _parts(service: Service, plan: Plan, names: dict[int, str], others: dict[int, list[str]]) -> list[Part]:
    found = [(sign, asked(line)) for sign, line in plan.lines]
    return [
        Part(sign, names.get(sign, ""), line, service.picture(sign, line.text), others[sign]) for sign, line in found
    ]


async def _page(request: web.Request, said: str = "", status: int = 200) -> web.Response:
    """A plan with its signs and its schedules."""
    service, number = service_of(request), _number_of(request)

    def found(database: Database) -> tuple[list[Plan], dict[int, str], float]:
        names = {sign.id: sign.name for sign in queries.signs(database)}
        return plans.listed(database), names, queries.now(database)

    every, names, now = await service.connections.run(found)
    held = next((one for one in every if one.id == number), None)
    if held is None or not _is_seen(request, held):
        raise web.HTTPNotFound(text="There is no such plan.")
    return service.page(
        request,
        "plan.html",
        status=status,
        plan=held,
        parts=_parts(service, held, names, _others(request, held, every)),
        next=_next(held, now),
        may_change=_may_change(request, held),
        told=plans.told,
        days=list(enumerate(DAYS)),
        today=service.clock.moment(now).date().isoformat(),
        zone=service.zone_name,
        now=now,
        said=said,
    )


async def plan(request: web.Request) -> web.Response:
    return await _page(request)


async def change(request: web.Request) -> web.StreamResponse:
    """Begins or ends a plan, gives it a schedule or takes one away, takes a sign out, or removes it."""
    service, who, number = service_of(request), visitor_of(request).name, _number_of(request)
    fields = await request.post()
    held = {key: str(value) for key, value in fields.items()}
    days = "".join(sorted(set(map(str, fields.getall("day", [])))))
    do, row = held.get("do", ""), held.get("row", "")
    of = int(row) if row.isascii() and row.isdecimal() and len(row) < 10 else 0

    def done(database: Database) -> None:
        if do == "begin":
            plans.begin(database, number, who, held.get("shown", ""))
        elif do == "end":
            plans.end(database, number, who)
        elif do == "take":
            plans.take_out(database, number, of, who)
        elif do == "schedule":
            first, last, begins, ends = (held.get(key, "") for key in ("first_day", "last_day", "begins", "ends"))
            times = Times.of(first, last, days, begins, ends, service.zone_name)
            plans.add_schedule(database, number, times, who)
        elif do == "unschedule":
            plans.remove_schedule(database, number, of, who)
        elif do == "remove":
            plans.remove(database, number, who)
        else:
            raise Refusal("nothing was asked for")

    try:
        await service.connections.run(done)
    except Refusal as refused:
        return await _page(request, f"Nothing was changed: {refused}.", 422)
    raise web.HTTPSeeOther("/plans" if do == "remove" else f"/plans/{number}")

"""The fleet as a wall of lit signs, in pages."""

from dataclasses import dataclass
from typing import Any

from aiohttp import web

from wisangub.room.plain import plain_of
from wisangub.room.store import alarms, groups, queries
from wisangub.room.store.database import Database
from wisangub.room.store.queries import CommandView, SignView

from .progress import Step, states
from .service import Service, rights_of, service_of

_WIDE = 160  # columns of a matrix that takes two places
PAGE = 100  # signs of a page
STATES = ("lit", "blank", "busy", "silent")


@dataclass(frozen=True)
class Card:
    """A sign of the wall; the command that is under way, with its step."""

    sign: SignView
    picture: str | None
    is_stale: bool
    command: CommandView | None
    step: Step | None
    waiting: int
    is_wide: bool
    is_other: bool  # it shows what none of its centres here has activated

    @property
    def is_lit(self) -> bool:
        """Whether it shows a text, as far as it was heard lately."""
        return self.state in ("lit", "busy") and self.sign.shown is not None and bool(self.sign.shown.text)

    @property
    def state(self) -> str:
        """In a word, for the filter."""
        if self.sign.still or self.sign.fault or self.is_stale:
            return "silent"
        return "busy" if self.command else "lit" if self.sign.shown and self.sign.shown.text else "blank"


def _card(service: Service, sign: SignView, now: float, open_: list[CommandView], is_other: bool) -> Card:
    picture = service.picture(sign.id, sign.shown.text) if sign.shown else None
    command = next((one for one in open_ if one.number is not None), open_[0] if open_ else None)
    step = next((one for one in states(command) if one.state == "now"), None) if command else None
    is_wide = service.faces[sign.id].width > _WIDE
    return Card(sign, picture, sign.is_stale(now), command, step, len(open_), is_wide, is_other)


def cards(service: Service, database: Database, seen: frozenset[int]) -> tuple[list[Card], float]:
    """These signs in the fleet's order, and the database's time."""
    open_ = queries.under_way(database)
    of: dict[int, list[CommandView]] = {}
    for command in open_:
        of.setdefault(command.sign, []).append(command)
    others = alarms.signs_with(database, alarms.OTHER)
    known = {sign.id: sign for sign in queries.signs(database)}
    now = queries.now(database)  # after what it is compared with
    found = [known[sign_id] for sign_id in service.signs if sign_id in known and sign_id in seen]
    return [_card(service, sign, now, of.get(sign.id, []), sign.id in others) for sign in found], now


@dataclass(frozen=True)
class Wanted:
    """Which signs are looked for, by words in name, place or text, and by state; and which page of them."""

    find: str = ""
    show: str = ""
    page: int = 1

    @staticmethod
    def of(request: web.Request) -> "Wanted":
        page, show = request.query.get("page", "1"), request.query.get("show", "")
        if not page.isascii() or not page.isdigit() or len(page) > 6:
            raise web.HTTPBadRequest(text="A page is a number.")
        return Wanted(request.query.get("find", "").strip()[:100], show if show in STATES else "", int(page))

    def takes(self, card: Card, groups_of: list[str]) -> bool:
        text = plain_of(card.sign.shown.text) if card.sign.shown else ""
        words = " ".join([card.sign.name, card.sign.place, text, *groups_of]).lower()
        return self.find.lower() in words and self.show in ("", card.state)


async def wall(request: web.Request) -> web.Response:
    service, wanted = service_of(request), Wanted.of(request)
    seen = rights_of(request).seen(service.signs)

    def asked(database: Database) -> tuple[list[Card], float, dict[int, list[str]]]:
        return *cards(service, database, seen), groups.names_of_signs(database)

    every, now, names = await service.connections.run(asked)
    found = [one for one in every if wanted.takes(one, names.get(one.sign.id, []))]
    pages = max(1, -(-len(found) // PAGE))
    page = min(max(1, wanted.page), pages)
    shown = found[(page - 1) * PAGE : page * PAGE]
    values: dict[str, Any] = {
        "cards": shown,
        "groups": names,
        "every": every,
        "found": len(found),
        "wanted": wanted,
        "page": page,
        "pages": pages,
        "is_whole": len(every) <= PAGE,
        "now": now,
        "view": "wall/" + ",".join(str(one.sign.id) for one in shown) if len(every) > PAGE else "wall",
    }
    return await service.connections.work(lambda: service.page(request, "wall.html", **values))


def parts(service: Service, every: list[Card], signs: set[int] | None = None) -> dict[str, str]:
    """What an event may replace: each card, of these signs or of all."""
    return {f"sign-{one.sign.id}": service.card(one) for one in every if signs is None or one.sign.id in signs} | {
        "counts": service.part("parts.html", "counts", every)
    }

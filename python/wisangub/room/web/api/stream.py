"""Server-sent events for other systems: what signs show, as it changes."""

import json

from aiohttp import web

from wisangub.room.store.database import Database
from wisangub.room.web import events
from wisangub.room.web.events import Parts
from wisangub.room.web.service import Service, rights_of, service_of

from . import reading
from .asked import Wrong, listed, parameters

NAMES = ("signs",)


def parts(service: Service, database: Database) -> Parts:
    """Each sign of the fleet as its number, and what is said of it. When it was heard is left out: else each reading
    would be an event."""
    made = {}
    for card, value in reading.sign_values(service, database, frozenset(service.signs)):
        value.get("shown", {}).pop("heard", None)
        made[str(card.sign.id)] = json.dumps(value)
    return made


async def stream(request: web.Request) -> web.StreamResponse:
    """An event `sign` for each sign at first, and then for each that changed."""
    service, may_see = service_of(request), rights_of(request).may_see
    word = parameters(request, NAMES).get("signs")
    wanted = frozenset(service.signs) if word is None else listed(word)
    for number in wanted if word is not None else ():
        if number not in service.signs or not may_see(number):
            raise Wrong(404, f"There is no sign {number}.", [{"at": "signs", "why": f"there is no sign {number}"}])
    seen = {str(number) for number in wanted if may_see(number)}

    def spelled(found: Parts) -> bytes:
        return "".join(f"event: sign\ndata: {said}\n\n" for number, said in found.items() if number in seen).encode()

    return await events.streamed(request, events.ALL, spelled)

"""Requests of other systems: who sends them, and their parameters and bodies as the document says them."""

import json
from typing import Any

from aiohttp import web

from wisangub.room.web.service import rights_of, service_of

from . import checks
from .schemas import MOST_NUMBER, SCHEMAS, Schema, text, whole

KEY = "Idempotency-Key"
_MOST_KEY = 200
_WHOLE = whole("a number", 1, 999_999_999)
PARAMETERS: dict[str, Schema] = {
    "find": text("words that stand in the sign's name, place, text or groups", maxLength=100),
    "state": text("the sign's state", enum=["lit", "blank", "busy", "silent"]),
    "group": text("the name of a group that the sign is in", maxLength=64),
    "sign": {**_WHOLE, "description": "of this sign alone"},
    "who": text("asked for by this user", maxLength=64),
    "outcome": text("that ended so, or have not", enum=["accepted", "failed", "open"]),
    "before": whole("with a number below this one: the next page", 1, MOST_NUMBER),
    "most": whole("how many at most; 50 where it is not given", 1, 500),
    "signs": text("numbers of signs, with commas; all where it is not given", maxLength=8000),
}


class Wrong(Exception):
    """A request that is refused: with this status, in these words, for these faults of its parts."""

    def __init__(self, status: int, words: str, faults: list[dict[str, Any]] | None = None) -> None:
        super().__init__(words)
        self.status, self.words, self.faults = status, words, faults or []


def answered(value: Any, status: int = 200) -> web.Response:
    return web.json_response(value, status=status)


def refused(status: int, words: str, faults: list[dict[str, Any]] | None = None) -> web.Response:
    """Why a request was not done."""
    made = answered({"error": words, **({"faults": faults} if faults else {})}, status)
    if status == 401:
        made.headers["WWW-Authenticate"] = 'Bearer realm="control room"'
    return made


def _told(found: list[checks.Fault]) -> list[dict[str, Any]]:
    return [{"at": at, "why": why} for at, why in found]


def parameters(request: web.Request, names: tuple[str, ...]) -> dict[str, Any]:
    """The parameters of the query, by the names that the operation has; one that is not in order is refused."""
    found: dict[str, Any] = {}
    for name, word in request.query.items():
        is_whole = name in names and PARAMETERS[name]["type"] == "integer"
        found[name] = int(word) if is_whole and word.isascii() and word.isdecimal() and len(word) < 11 else word
    schema = {"type": "object", "properties": {name: PARAMETERS[name] for name in names}}
    if wrong := [(at[1:], why) for at, why in checks.faults(schema, found)]:
        raise Wrong(400, "This is no query of this operation.", _told(wrong))
    return found


async def body(request: web.Request, name: str) -> dict[str, Any]:
    """The body of a request, by the schema of this name."""
    if request.content_type != "application/json":
        raise Wrong(415, "What is asked for is said in JSON: Content-Type: application/json.")
    try:
        found: dict[str, Any] = json.loads(await request.text() or "{}")
    except ValueError:
        raise Wrong(400, "This is no JSON.") from None
    if wrong := list(checks.faults(SCHEMAS[name], found)):
        raise Wrong(422, "This is not what the operation takes.", _told(wrong))
    return found


def key_of(request: web.Request) -> str:
    """What a request counts by, once, however often it comes."""
    found = request.headers.get(KEY, "")
    if not 1 <= len(found) <= _MOST_KEY or not found.isascii() or not found.isprintable():
        raise Wrong(400, f"A request that asks for something has a header {KEY} of 1 to {_MOST_KEY} characters.")
    return found


def signs_of(request: web.Request, numbers: list[int], at: str = "/signs") -> list[int]:
    """Signs that are to be commanded; one that may not be seen is none."""
    rights, known = rights_of(request), service_of(request).signs
    for number in numbers:
        if number not in known or not rights.may_see(number):
            raise Wrong(404, f"There is no sign {number}.", [{"at": at, "why": f"there is no sign {number}"}])
        if not rights.may_command(number):
            why = f"the token's user may not command sign {number}"
            raise Wrong(403, "Nothing was done: not all of these signs may be commanded.", [{"at": at, "why": why}])
    return numbers


def listed(word: str) -> frozenset[int]:
    """Numbers with commas between them."""
    parts = word.split(",")
    if not all(part.isascii() and part.isdecimal() and len(part) < 10 for part in parts):
        raise Wrong(400, "This is no query of this operation.", [{"at": "signs", "why": "these are no numbers"}])
    return frozenset(map(int, parts))

"""The OpenAPI document (3.0.3) of the operations, made of what answers them."""

from typing import Any

from wisangub import __version__

from .asked import KEY, PARAMETERS
from .operations import BASE, EVENTS, JSON, OPERATIONS, SVG, Operation
from .schemas import SCHEMAS, of

_WORDS = (
    "Reads what dynamic message signs show, and publishes on them. Each request has a token of a user and may what he"
    " may. Times are in UTC; what is not known is left out."
)
_REFUSALS = {
    "400": "a query or a header that is not in order",
    "401": "no token, or one that has ended",
    "403": "the token's user may not",
    "404": "there is no such thing, or it may not be seen",
    "409": "it was done before, or is too late",
    "415": "no JSON",
    "422": "it cannot be done; `faults` say why",
    "503": "the database does not answer: with its key the request may come again",
}


def _parameters(operation: Operation) -> list[dict[str, Any]]:
    """The numbers of the address, the query, and the key."""
    number = {"type": "integer", "minimum": 0, "maximum": 999_999_999}
    made: list[dict[str, Any]] = [
        {"name": name, "in": "path", "required": True, "schema": number} for name in operation.names
    ]
    for name in operation.query:
        schema = {key: value for key, value in PARAMETERS[name].items() if key != "description"}
        made.append({"name": name, "in": "query", "description": PARAMETERS[name]["description"], "schema": schema})
    if operation.counts:
        words = "what is sent again with the same one is done once"
        schema = {"type": "string", "minLength": 1, "maxLength": 200}
        made.append({"name": KEY, "in": "header", "required": True, "description": words, "schema": schema})
    return made


def _statuses(operation: Operation) -> list[str]:
    """Those of its refusals."""
    found = ["400", "401", "403", "503"] + ["404"] * bool(operation.names or operation.body or operation.query)
    if operation.method == "POST":
        found.append("409")
    return sorted(found + ["415", "422"] * bool(operation.body))


def _content(operation: Operation) -> dict[str, Any]:
    """What is answered."""
    return {operation.kind: {"schema": of(operation.answer) if operation.answer else {"type": "string"}}}


def _said(operation: Operation) -> dict[str, Any]:
    """An operation in the document's words."""
    words = {SVG: "a picture", EVENTS: "events `sign`, each a Sign without shown.heard"}
    error = {JSON: {"schema": of("Error")}}
    answers: dict[str, Any] = {
        str(operation.status): {"description": words.get(operation.kind, "done"), "content": _content(operation)}
    }
    for status in _statuses(operation):
        answers[status] = {"description": _REFUSALS[status], "content": error}
    made: dict[str, Any] = {
        "operationId": operation.handler.__name__,
        "summary": operation.summary,
        "description": f"For {operation.role.word}s.",
        "parameters": _parameters(operation),
        "responses": answers,
    }
    if operation.body:
        made["requestBody"] = {"required": True, "content": {JSON: {"schema": of(operation.body)}}}
    return made


def document() -> dict[str, Any]:
    """The whole document."""
    paths: dict[str, dict[str, Any]] = {}
    for operation in OPERATIONS:
        paths.setdefault(operation.path, {})[operation.method.lower()] = _said(operation)
    return {
        "openapi": "3.0.3",
        "info": {"title": "Control room", "version": __version__, "description": _WORDS},
        "servers": [{"url": BASE}],
        "security": [{"token": []}],
        "paths": paths,
        "components": {
            "schemas": SCHEMAS,
            "securitySchemes": {"token": {"type": "http", "scheme": "bearer"}},
        },
    }

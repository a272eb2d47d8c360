"""What requests say: addresses and bodies are text, and bodies come in time and spell what they are said to spell, or
the request is a bad one."""

import asyncio
import json
import re
from typing import Any, Iterator

from aiohttp import web

FORM, JSON = "application/x-www-form-urlencoded", "application/json"
_NO_TEXT = re.compile("[\0\ud800-\udfff]")


def is_text(word: str) -> bool:
    """Whether a word can stand on a page and in a table: it has no character of number 0, and no half of a pair, as
    which octets are read that are no UTF-8."""
    return not _NO_TEXT.search(word)


def check_address(request: web.Request) -> None:
    """Raises what answers 400 where the path or the query is no text."""
    if not all(map(is_text, [request.path, *(word for pair in request.query.items() for word in pair)])):
        raise web.HTTPBadRequest(text="This address is no text.")


async def check(request: web.Request, seconds: float) -> None:
    """Reads the body of a request that has one. Raises what answers 400 where it is malformed or no form and no JSON,
    408 where it does not come within so many seconds, and 413 where it is too long."""
    try:
        octets = await asyncio.wait_for(request.read(), seconds)
    except asyncio.TimeoutError:
        raise _ended(web.HTTPRequestTimeout(text="This request did not come in time.")) from None
    except web.HTTPException:
        raise
    except Exception:  # of many kinds: what breaks off, what is no chunk, what is no gzip
        raise _ended(web.HTTPBadRequest(text="This request broke off.")) from None
    if octets and not await _is_spelled(request):
        raise web.HTTPBadRequest(text="What this request says is no form of this service.")


def _ended(answer: web.HTTPException) -> web.HTTPException:
    """An answer after which the connection ends, since the rest of the body may still come."""
    answer.force_close()
    return answer


async def _is_spelled(request: web.Request) -> bool:
    """Whether the body is what its type says, and text."""
    try:
        if request.content_type == FORM:
            return all(map(is_text, await _words(request)))
        if request.content_type == JSON:
            return all(map(is_text, _strings(json.loads(await request.text()))))
    except (ValueError, LookupError, RecursionError):  # LookupError: of an encoding that there is not
        return False
    return False


def _strings(value: Any) -> Iterator[str]:
    """The strings of a value of JSON, and its names."""
    if isinstance(value, str):
        yield value
    elif isinstance(value, (dict, list)):
        for one in [*value, *(value.values() if isinstance(value, dict) else ())]:
            yield from _strings(one)


async def _words(request: web.Request) -> list[str]:
    fields: Any = await request.post()
    return [word for pair in fields.items() for word in pair]

"""Pictures by their addresses, which say face and text: a browser may keep them."""

from aiohttp import web

from wisangub.endpoint.text_of_picture import with_text

from .service import service_of

_PAGES = ("1", "2", "3", "4", "5", "6")
_NONE = (
    '<svg xmlns="http://www.w3.org/2000/svg" viewBox="0 0 320 90" width="320" height="90">'
    "<title>No picture</title>"
    '<rect width="320" height="90" fill="#202020"/><text x="160" y="50" fill="#e0e0e0" text-anchor="middle"'
    ' font-family="sans-serif" font-size="15">no picture of this text</text></svg>'
)


async def picture(request: web.Request) -> web.Response:
    service = service_of(request)
    face = service.by_key.get(request.match_info["face"])
    if face is None:
        raise web.HTTPNotFound(text="There is no such face in the fleet.")
    word, page = request.match_info["text"], request.query.get("page")
    text = b"" if word == "-" else bytes.fromhex(word)
    found = await service.pictures.of(face, text, int(page) if page in _PAGES else None)
    headers = {"Cache-Control": "private, max-age=86400, immutable", "Vary": "Accept-Encoding"}
    if not found.is_good:
        return web.Response(body=with_text(_NONE.encode("ascii"), text), content_type="image/svg+xml")
    if "gzip" in request.headers.get("Accept-Encoding", ""):
        return web.Response(
            body=found.svg, content_type="image/svg+xml", headers={**headers, "Content-Encoding": "gzip"}
        )
    return web.Response(body=found.plain(), content_type="image/svg+xml", headers=headers)

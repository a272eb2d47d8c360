"""Archives in a folder: what was in the database once. Lines of journals are on no page, since communities stand in
their datagrams."""

import json
import pathlib
from dataclasses import dataclass

from aiohttp import web

from wisangub.refusal import Refusal
from wisangub.room.store import archives
from wisangub.room.store.archives import AUDIT, COMMAND, READING, Entry, Head
from wisangub.room.store.queries import Shown

from .record_pages import number_of
from .service import service_of
from .words import asked, text_of

KINDS = {COMMAND: "commands", AUDIT: "audit", READING: "what signs showed"}
MOST, MOST_SEEN = 100, 200_000  # rows of a page, and rows that are looked at for it


@dataclass(frozen=True)
class File:
    """An archive of the folder, or why it is none."""

    name: str
    size: int
    head: Head | None
    fault: str = ""


@dataclass(frozen=True)
class Page:
    """Rows of an archive; the number of those before the next page, none where there is none."""

    head: Head
    rows: list[Entry]
    next: int | None


def _called(path: pathlib.Path) -> str:
    """A file's name on pages: it may be no UTF-8."""
    return path.name.encode("utf-8", "backslashreplace").decode()


def _paths(folder: str) -> list[pathlib.Path]:
    """What may be archives of the folder. Raises OSError where that cannot be read."""
    return [path for path in pathlib.Path(folder).iterdir() if path.is_file() and path.suffix == ".gz"]


def _path(folder: str | None, name: str) -> pathlib.Path | None:
    """The file of the folder that its list has under a name, whatever stands in that."""
    try:
        return next((path for path in _paths(folder) if _called(path) == name), None) if folder else None
    except OSError:
        return None


def _file(path: pathlib.Path) -> File:
    name = _called(path)
    try:
        return File(name, path.stat().st_size, archives.head_of(path))
    except (Refusal, OSError) as fault:
        return File(name, 0, None, str(fault).replace(str(path), name))


def _files(folder: str | None) -> list[File]:
    """The archives of the folder, the newest first."""
    if folder is None:
        return []
    try:
        paths = _paths(folder)
    except OSError as fault:
        return [File(folder, 0, None, fault.strerror or "")]
    return sorted(map(_file, paths), key=lambda one: one.head.made if one.head else 0.0, reverse=True)


async def listed(request: web.Request) -> web.Response:
    service = service_of(request)
    found = await service.connections.work(lambda: _files(service.settings.archives))
    return service.page(request, "archives.html", files=found, folder=service.settings.archives)


def _found(path: pathlib.Path, kind: str, sign: int | None, find: str, after: int) -> Page:
    """A page of the rows of a kind, of a sign or of all, in which words stand."""
    made: list[Entry] = []
    for number, row in enumerate(archives.rows(path, (kind,), after), after + 1):
        if sign in (None, row.get("sign")) and find.lower() in (_words_of(row).lower() if find else ""):
            made.append(row)
        if len(made) == MOST or number - after == MOST_SEEN:
            return Page(archives.head_of(path), made, number)
    return Page(archives.head_of(path), made, None)


def _words_of(row: Entry) -> str:
    """What is looked for in a row: what it says, with the text of a publication or of a reading as it is read."""
    said = json.dumps(row, ensure_ascii=False)
    if "line" in row:
        said += text_of(asked(row["line"]).text)
    return said + text_of(Shown.of(row["shown"]).text) if row.get("shown") else said


async def archive(request: web.Request) -> web.Response:
    service, name = service_of(request), request.match_info["name"]
    kind, find = request.query.get("kind", COMMAND), request.query.get("find", "").strip()[:100]
    sign, after = number_of(request, "sign"), number_of(request, "after") or 0
    held = await service.connections.work(lambda: _path(service.settings.archives, name))
    if held is None or kind not in KINDS:
        raise web.HTTPNotFound(text="There is no such archive.")
    path = held
    try:
        found = await service.connections.work(lambda: _found(path, kind, sign, find, after))
    except Refusal as refused:
        raise web.HTTPUnprocessableEntity(text=f"{str(refused).replace(str(path), name)}.") from None
    return service.page(
        request,
        "archive.html",
        name=name,
        kinds=KINDS,
        kind=kind,
        find=find,
        sign=sign,
        page=found,
        signs=sorted((title, row) for row, title in found.head.signs.items()),
        shown_of=lambda row: Shown.of(row["shown"]) if row["shown"] else None,
    )

"""Pictures of texts on faces, by `signtool pages --svg`, kept by face and text; or a text's fault and its place."""

import asyncio
import collections
import gzip
import subprocess
from dataclasses import dataclass

from wisangub.endpoint.lack import FAULT, spelled
from wisangub.endpoint.text_of_picture import with_text

from .faces import Face

_MOST_KEPT = 24 * 2**20  # octets of pictures, compressed
_MOST_TEXT = 512
_TOO_BIG = 5
_SIDE_BY_SIDE = 2
_WAIT = 20  # seconds for a picture
_WORDS = {
    3: "this is no tag of MULTI, or a bracket that nothing closes",
    4: "the value of this tag is not supported",
    5: "there is no room for this on the sign",
    6: "the sign has no such font",
    7: "the font has no picture of this character",
    11: "this stands before something that is to its right, or below it",
    12: "a message has six pages at most",
    13: "the font has another version",
}


@dataclass(frozen=True)
class Picture:
    """A document of SVG, compressed; or why there is none, and at which octet of the text."""

    svg: bytes | None
    why: str = ""
    offset: int | None = None
    code: int | None = None

    @property
    def is_good(self) -> bool:
        return self.svg is not None

    def plain(self) -> bytes:
        return gzip.decompress(self.svg or b"")


def drawn(program: str, face: Face, text: bytes, page: int | None) -> Picture:
    """A call of the program."""
    if len(text) > _MOST_TEXT:
        return Picture(None, f"a text has at most {_MOST_TEXT} octets", _MOST_TEXT, _TOO_BIG)
    word, places = spelled(text)
    alone = [] if page is None else ["--page", str(page)]
    call = [program.encode(), *(word.encode() for word in ("pages", "--sign", "--svg", *alone, "--")), word]
    try:
        ended = subprocess.run(call, input=face.text, capture_output=True, timeout=_WAIT)
    except (OSError, subprocess.TimeoutExpired) as fault:
        return Picture(None, f"signtool: {getattr(fault, 'strerror', None) or 'no picture in time'}")
    if ended.returncode == 0:
        return Picture(gzip.compress(with_text(ended.stdout, text), 6))
    said = ended.stdout.decode("latin-1")
    found = FAULT.search(said)
    if found is None or len(word) > _MOST_TEXT:
        return Picture(None, "this text cannot be drawn" if found else said.strip() or "signtool made no picture")
    code, offset = int(found[1]), int(found[2])
    return Picture(None, _WORDS.get(code, f"fault {code}"), places[offset], code)


class Pictures:
    """Those that were asked for last are kept."""

    def __init__(self, program: str) -> None:
        self.program = program
        self.kept: collections.OrderedDict[tuple[str, bytes, int | None], Picture] = collections.OrderedDict()
        self.size = 0
        self.drawing: dict[tuple[str, bytes, int | None], asyncio.Future[Picture]] = {}
        self.turns = asyncio.Semaphore(_SIDE_BY_SIDE)

    async def of(self, face: Face, text: bytes, page: int | None = None) -> Picture:
        """The picture of a text; one that is being drawn is waited for."""
        key = (face.key, text, page)
        if key in self.kept:
            self.kept.move_to_end(key)
            return self.kept[key]
        if key not in self.drawing:
            self.drawing[key] = asyncio.ensure_future(self.draw(face, text, page))
            self.drawing[key].add_done_callback(lambda _: self.drawing.pop(key, None))
        return await asyncio.shield(self.drawing[key])

    async def draw(self, face: Face, text: bytes, page: int | None) -> Picture:
        async with self.turns:
            loop = asyncio.get_running_loop()
            found = await loop.run_in_executor(None, drawn, self.program, face, text, page)
        if found.is_good or found.offset is not None:
            self.keep((face.key, text, page), found)
        return found

    def keep(self, key: tuple[str, bytes, int | None], found: Picture) -> None:
        """Keeps it, and forgets what was not asked for longest."""
        self.kept[key] = found
        self.size += len(found.svg or b"") + len(key[1]) + 200
        while self.size > _MOST_KEPT:
            (_, text, _), old = self.kept.popitem(last=False)
            self.size -= len(old.svg or b"") + len(text) + 200

"""A text of MULTI as plain words: for who sees no picture, and for words that may not be shown. And counts in words."""

import re
from typing import Iterator, Sequence

# a bracket that is shown, a tag, or another character
_PIECE = re.compile(rb"(\[\[|\]\]|[^\[\]])|\[([^\]]*)\]", re.DOTALL)
_BREAKS = {b"nl": " / ", b"np": " // "}
NOTHING = "nothing"  # what is said of a text of tags alone


def counted(number: int, what: str) -> str:
    """So many of something."""
    return f"{number} {what}{'s' * (number != 1)}"


def _tag_of(body: bytes) -> str:
    """What a tag shows: a break, or a character by its number, a space where no text has that; nothing for all
    others."""
    kind, rest = body[:2].lower(), body[2:]
    if kind != b"hc":
        return _BREAKS.get(kind, "")
    try:
        found = chr(int(rest[:4], 16))
    except ValueError:
        return ""
    return " " if found == "\0" or "\ud800" <= found <= "\udfff" else found


def _pieces(text: bytes) -> Iterator[tuple[str, int]]:
    """What is read of a text, and at which octet each piece of it begins."""
    for piece in _PIECE.finditer(text):
        yield (chr(piece[1][0]) if piece[1] else _tag_of(piece[2])), piece.start()


def plain_of(text: bytes) -> str:
    """A text without its tags: lines apart by a stroke, pages by two."""
    return "".join(said for said, _ in _pieces(text)).strip(" /") or NOTHING


def _pattern(words: Sequence[str]) -> re.Pattern[str]:
    """Any of these words by itself, however far apart its parts stand."""
    spelled = (r"\s+".join(map(re.escape, word.lower().split())) for word in words)
    begin, end = r"(?:(?<!\w)|(?!\w))", r"(?:(?!\w)|(?<!\w))"  # no letter stands on both sides
    return re.compile(f"{begin}(?:{'|'.join(spelled)}){end}")


def forbidden_in(text: bytes, words: Sequence[str]) -> tuple[int, str] | None:
    """The first of these words that a text shows, and the octet at which it begins. Capitals count as small letters,
    tags within a word as nothing, and a break both as a blank and as nothing, since a word may go on in the next
    line."""
    if not words:
        return None
    pattern, found = _pattern(words), []
    for blank in (" ", ""):
        pieces = [(blank if len(said) > 1 else said.lower(), at) for said, at in _pieces(text) if said]
        places = [at for said, at in pieces for _ in said]
        if hit := pattern.search("".join(said for said, _ in pieces)):
            found.append((places[hit.start()], " ".join(hit[0].split())))
    return min(found, default=None)

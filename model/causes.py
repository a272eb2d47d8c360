"""Why a description or a script is refused: the line, and the program's words for what is wrong with it. And why a line
to a live end is none of its calls."""

from dataclasses import dataclass

from . import forms, layout, published, text
from .description import Row

Cause = tuple[int, str]
NO_END = "the text ends before its line `end`"
_NO_LAST = "word 2: the word last, or the end of the line, is wanted"
FAULTS = {
    3: "unsupported tag",
    4: "unsupported tag value",
    5: "text too big",
    6: "font not defined",
    7: "character not defined",
    11: "tag conflict",
    12: "too many pages",
    13: "another version of the font",
}


@dataclass
class _Parts:
    """What a description has, line by line."""

    head: list[list[bytes]]
    rows: list[Row]
    fonts: list[layout.Font]


def of_description(octets: bytes) -> Cause | None:
    """Why these octets describe no sign; None where they do."""
    kept, after = text.kept_lines(octets)
    found, at = first(kept, after)
    if found is None and at < len(kept):
        found = kept[at][0], "no line may stand after `end`"
    return _with_unseen(found, kept)


def before_lines(octets: bytes) -> Cause | None:
    """The same of what stands before a conversation: the lines up to and with the first `end`."""
    lines = octets.split(b"\n")
    ended = [at for at, line in enumerate(lines) if line in (b"end", b"end\r")]
    if not ended or ended[0] == len(lines) - 1:
        return of_description(octets)
    return of_description(b"\n".join(lines[: ended[0] + 1]) + b"\n")


def of_script(octets: bytes) -> Cause | None:
    """Why these octets are no script; None where they are."""
    kept, after = text.kept_lines(octets)
    found, at = (None, 1) if kept and kept[0][1] == b"bench" else first(kept, after)
    if found is None:
        found = next(((number, why) for number, line in kept[at:] if (why := _of_event(line)) is not None), None)
    return _with_unseen(found, kept)


def _with_unseen(cause: Cause | None, kept: list[tuple[int, bytes]]) -> Cause | None:
    """A cause, and what nobody sees in its line."""
    line = b"" if cause is None else dict(kept).get(cause[0], b"")
    if cause is not None and line.startswith(b"\xef\xbb\xbf"):
        return cause[0], f"{cause[1]}; it begins with a byte order mark, the octets EF BB BF"
    if cause is not None and b"\t" in line:
        place = line.index(b"\t") + 1
        return cause[0], f"{cause[1]}; its octet {place} is a tab, and words have a space between them"
    return cause


def _of_line(kind: str, known: dict[bytes, list[forms.Wanted]], line: bytes) -> str | None:
    """Why a line is none of a kind, of which each begins with a word that is known."""
    word = line.split(b" ")[0]
    if word not in known:
        return f"no {kind} begins with this word"
    return forms.fault([forms.word(word.decode()), *known[word]], line)


def _of_event(line: bytes) -> str | None:
    """Why a line is no event."""
    return _of_line("event", forms.EVENTS, line)


def of_agent_call(line: bytes) -> str | None:
    """Why a line is no call of a live sign that has objects beside its own."""
    words = line.split(b" ")
    try:
        if words[0] == b"object":
            published.published(words[1:])
            return None
        if words[0] == b"set":
            published.assigned(words)
            return None
        if words[0] == b"no-object":
            published.named_by(words[1:])
    except ValueError as fault:
        return str(fault)
    known = forms.FIRMWARE_CALLS if words[0] in forms.FIRMWARE_CALLS else forms.SIGN_CALLS
    return _of_line("call", known, line)


def of_centre_call(line: bytes) -> str | None:
    """Why a line is no call of a live centre. What stands behind `status` is nothing, or `last` alone."""
    words = line.split(b" ")
    if words[0] == b"status" and len(words) > 1:
        return forms.fault(forms.STATUS_LAST, line) if words[1] == b"last" else _NO_LAST
    return _of_line("call", forms.CENTRE_CALLS, line)


def first(kept: list[tuple[int, bytes]], after: int) -> tuple[Cause | None, int]:
    """Why the first lines describe no sign, and how many lines were read; no other line is looked at than those up to
    the first at fault."""
    parts = _Parts([], [], [])
    for at, (number, line) in enumerate(kept):
        if line == b"end" and at >= len(forms.HEAD):
            why = _of_sign(parts)
            return (None if why is None else (number, why)), at + 1
        why = _of_head(parts, at, line) if at < len(forms.HEAD) else _of_body(parts, line)
        if why is not None:
            return (number, why), at
    return (after, NO_END), len(kept)


def _of_head(parts: _Parts, at: int, line: bytes) -> str | None:
    """Takes one of the first lines."""
    why = forms.fault(forms.HEAD[at], line)
    if why is None:
        parts.head.append(line.split(b" ")[1:])
    return why


def _of_body(parts: _Parts, line: bytes) -> str | None:
    """Takes a line of a row, a font or a character."""
    words = line.split(b" ")
    if words[0] == b"permanent":
        return "a permanent row stands before all fonts" if parts.fonts else _of_row(parts, line)
    if words[0] == b"font":
        why = forms.fault(forms.FONT, line)
        if why is None:
            number, height, space, leading = map(int, words[1:9:2])
            parts.fonts.append(layout.Font(number, height, space, leading, int(words[9], 16)))
        return why
    if words[0] == b"glyph":
        return _of_glyph(parts.fonts[-1], line) if parts.fonts else "a character stands after its font"
    if words[0] == b"end":
        return forms.fault(forms.END, line)
    return "a row, a font, a character or `end` is wanted"


def _of_row(parts: _Parts, line: bytes) -> str | None:
    why = forms.fault(forms.PERMANENT, line)
    if why is None:
        _, shown, owner, *numbers = line.split(b" ")
        parts.rows.append(Row(text.octets(shown), text.octets(owner), *map(int, numbers)))
    return why


def _of_glyph(font: layout.Font, line: bytes) -> str | None:
    """Takes a character of a font. Bits that are no octets are the picture's fault where the other words are well."""
    words = line.split(b" ")
    if len(words) != 4 or b"" in words or forms.fault(forms.GLYPH[:3], b" ".join(words[:3])) is not None:
        return forms.fault(forms.GLYPH, line)
    try:
        character, picture = text.glyph(words, font.height)
    except ValueError:
        return "bits that do not fit the picture"
    if character in font.glyphs:
        return "a character for the second time"
    if len(font.glyphs) == 255:
        return "more than 255 characters"
    font.glyphs[character] = picture
    return None


def _of_sign(parts: _Parts) -> str | None:
    """Why these parts are no sign: the first that a face, the communities or the table is refused for."""
    size, communities, rows, _, services, defaults, _ = parts.head
    face = layout.Face(int(size[0]), int(size[1]), parts.fonts, tuple(map(int, defaults)))
    why = _of_matrix(face) or _of_fonts(face) or _of_defaults(face) or _of_communities(*communities)
    if why is not None:
        return why
    for count, most, kind in ((len(parts.rows), 16, "permanent"), (int(rows[0]), 64, "changeable")):
        if count > most:
            return f"there are more than {most} {kind} rows"
    if int(rows[1]) > 16:
        return "there are more than 16 volatile rows"
    for place, row in enumerate(parts.rows, 1):
        why = _of_permanent(face, services, row)
        if why is not None:
            return f"permanent row {place}: {why}"
    return None


def _of_matrix(face: layout.Face) -> str | None:
    if not 1 <= face.width <= 256:
        return "the matrix is wider than 256" if face.width else "the matrix has no columns"
    if not 1 <= face.height <= 64:
        return "the matrix is higher than 64" if face.height else "the matrix has no rows"
    return None


def _of_fonts(face: layout.Face) -> str | None:
    numbers = [font.number for font in face.fonts]
    if not 1 <= len(numbers) <= 4:
        return "there are more than four fonts" if numbers else "there is no font"
    twice = [number for number in numbers if numbers.count(number) > 1]
    return f"two fonts have the number {twice[0]}" if twice else None


def _of_defaults(face: layout.Face) -> str | None:
    back, colour, _, _, font, line, page, _, _ = face.defaults
    if back > 9:
        return f"the default background {back} is no colour"
    if colour > 9:
        return f"the default foreground {colour} is no colour"
    if line not in (2, 3, 4):
        return f"the default line justification {line} is none"
    if page not in (2, 3, 4):
        return f"the default page justification {page} is none"
    return None if face.font(font) else f"the default font {font} is none of the face's"


def _of_communities(reader: bytes, writer: bytes) -> str | None:
    for name, community in (("first", reader), ("second", writer)):
        if not 1 <= len(community) <= 32:
            return f"the {name} community has not 1 to 32 octets"
    return "both communities are the same" if reader == writer else None


def _of_permanent(face: layout.Face, services: list[bytes], row: Row) -> str | None:
    """Why a permanent row cannot stand."""
    if len(row.text) > 512:
        return "its text is longer than 512 octets"
    if len(row.owner) > 127:
        return "its owner is longer than 127 octets"
    for name, value in (("beacon", row.beacon), ("pixel service", row.pixel)):
        if value > 1:
            return f"its {name} is neither 0 nor 1"
    if not row.priority:
        return "its priority is 0"
    for name, value, service in (("beacons", row.beacon, services[0]), ("pixel service", row.pixel, services[1])):
        if value and not int(service):
            return f"the sign has no {name}"
    fault = layout.laid_out(face, face.defaults, row.text)[1]
    return f"its text: {FAULTS[fault[0]]} at octet {fault[1]}" if fault else None

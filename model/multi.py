"""MULTI: the items of a text, its first fault, and the canonical text of items."""

from collections.abc import Iterable
from typing import Any

NAMES = ("cb", "pb", "cf", "fo", "fl", "/fl", "hc", "jl", "jp", "nl", "np", "pt")
UNSUPPORTED_TAG, UNSUPPORTED_VALUE = 3, 4

Item = tuple[Any, ...]  # what it is in words, and what it says
Fault = tuple[int, int]  # the code, and the offset


def decimal(text: str, least: int, most: int) -> int | None:
    """The number of one to five digits in this range, or None."""
    if 1 <= len(text) <= 5 and all(c in "0123456789" for c in text) and least <= int(text) <= most:
        return int(text)
    return None


def hexadecimal(text: str, fewest: int) -> int | None:
    if fewest <= len(text) <= 4 and all(c in "0123456789abcdef" for c in text):
        return int(text, 16)
    return None


def _times(text: str, letters: str) -> list[int | None] | None:
    """The times after each of the letters in this order: a time, or None, for each letter that is there."""
    found = []
    for at, letter in enumerate(letters):
        if not text.startswith(letter):
            return None
        rest = text[1:]
        end = rest.find(letters[at + 1]) if at + 1 < len(letters) else -1
        digits, text = (rest, "") if end < 0 else (rest[:end], rest[end:])
        number = decimal(digits, 0, 99) if digits else None
        if digits and number is None:
            return None
        found.append(number)
        if not text:
            return found
    return None


def tag(body: bytes) -> Item | None:
    """The item of a tag's body, or None where it spells none. Letters may be in either case."""
    text = "".join(chr(c).lower() if c < 128 else "?" for c in body)
    kind, rest = text[:2], text[2:]
    if text == "/fl":
        return ("end of flash",)
    if kind in ("cb", "pb", "cf", "nl"):
        number = decimal(rest, 0, 9) if rest else None
        if rest and number is None:
            return None
        return ({"cb": "background", "pb": "background", "cf": "foreground", "nl": "new line"}[kind], number)
    if kind in ("jl", "jp"):
        number = decimal(rest, 2, 4) if rest else None
        return None if rest and number is None else ("line" if kind == "jl" else "page", number)
    if kind == "np":
        return None if rest else ("new page",)
    if kind == "hc":
        number = hexadecimal(rest, 1)
        return None if number is None else ("character", number)
    if kind == "fo":
        if not rest:
            return ("font", None, None)
        digits, comma, version = rest.partition(",")
        number = decimal(digits, 1, 255)
        stamp = hexadecimal(version, 4) if comma else None
        return None if number is None or comma and stamp is None else ("font", number, stamp)
    if kind == "pt":
        on, _, off = rest.partition("o")
        first = decimal(on, 0, 255) if on else None
        second = decimal(off, 0, 255) if off else None
        if on and first is None or off and second is None:
            return None
        return ("page time", first, second)
    if kind == "fl":
        if not rest:
            return ("flash", "lit", None, None)
        for begins, order in (("lit", "to"), ("dark", "ot")):
            found = _times(rest, order)
            if found is not None:
                first, second = (*found, None)[:2]
                return ("flash", begins, *((first, second) if begins == "lit" else (second, first)))
        return None
    return None


def items(text: bytes) -> tuple[list[tuple[Item, int]], Fault | None]:
    """The items with their offsets, and the fault (code, offset) or None."""
    spots: list[tuple[Item, int]] = []
    at = 0
    while at < len(text):
        octet = text[at]
        if octet not in b"[]":
            spots.append((("character", octet), at))
            at += 1
        elif text[at : at + 2] in (b"[[", b"]]"):
            spots.append((("character", octet), at))
            at += 2
        elif octet == ord("]"):
            return spots, (UNSUPPORTED_TAG, at)
        else:
            end = text.find(b"]", at)
            if end < 0:
                return spots, (UNSUPPORTED_TAG, at)
            body = text[at + 1 : end]
            item = tag(body)
            if item is None:
                begins = any(body[: len(known)].lower() == known.encode() for known in NAMES)
                return spots, (UNSUPPORTED_VALUE if begins else UNSUPPORTED_TAG, at)
            spots.append((item, at))
            at = end + 1
    return spots, None


def shown(number: int | None) -> str:
    """A number, or nothing where it is missing."""
    return "" if number is None else str(number)


def canonical(found: Iterable[Item]) -> bytes:
    """The canonical text of items."""
    return b"".join(map(_canonical_item, found))


def _canonical_item(item: Item) -> bytes:
    body: str | None
    kind = item[0]
    if kind == "character":
        if item[1] >= 256:
            return b"[hc%X]" % item[1]
        return bytes([item[1]]) * (2 if item[1] in b"[]" else 1)
    if kind == "flash":
        _, begins, lit, dark = item
        if begins == "dark":
            body = "o" + shown(dark) + ("" if lit is None else f"t{lit}")
        elif lit is None and dark is None:
            body = ""
        else:
            body = "t" + shown(lit) + ("" if dark is None else f"o{dark}")
        return f"[fl{body}]".encode()
    body = {"end of flash": "/fl", "new page": "np"}.get(kind)
    if kind == "background":
        body = "pb" + shown(item[1])
    elif kind == "foreground":
        body = "cf" + shown(item[1])
    elif kind == "new line":
        body = "nl" + shown(item[1])
    elif kind == "line":
        body = "jl" + shown(item[1])
    elif kind == "page":
        body = "jp" + shown(item[1])
    elif kind == "font":
        body = "fo" + shown(item[1]) + ("" if item[2] is None else f",{item[2]:04x}")
    elif kind == "page time":
        body = "pt" + shown(item[1]) + ("" if item[2] is None else f"o{item[2]}")
    return f"[{body}]".encode()

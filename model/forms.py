"""What each word of a description's and a script's lines is to be, and the first word that is not."""

import re
from dataclasses import dataclass
from typing import Callable

from . import text


@dataclass(frozen=True)
class Wanted:
    """What a word is to be: in words, and whether one is."""

    words: str
    takes: Callable[[bytes], object]


def _is_read(read: Callable[[bytes], object]) -> Callable[[bytes], bool]:
    """Whether a function reads a word."""

    def takes(word: bytes) -> bool:
        try:
            read(word)
        except ValueError:
            return False
        return True

    return takes


def word(known: str) -> Wanted:
    """This word."""
    return Wanted(f"the word {known}", lambda found: found == known.encode())


def number(least: int, most: int, digits: int = 5) -> Wanted:
    return Wanted(f"a number from {least} to {most}", _is_read(lambda found: text.number(found, least, most, digits)))


def octets(name: str) -> Wanted:
    return Wanted(f"{name} in hexadecimal", _is_read(text.octets))


def hexadecimal(name: str, digits: int) -> Wanted:
    """Just so many digits."""
    return Wanted(name, lambda found: re.fullmatch(rb"[0-9a-fA-F]{%d}" % digits, found))


def _any_word(name: str) -> Wanted:
    return Wanted(name, lambda found: True)


_SIZE, _OCTET, LONG = number(0, 65535), number(0, 255), number(0, 2**32 - 1, 10)
_SWITCH = number(0, 1)
_ORDER = Wanted("high or swapped", lambda found: found in (b"high", b"swapped"))
ADDRESS = Wanted("an address, as 192.0.2.1,", _is_read(text.address))
_CODE = hexadecimal("a code of 24 hexadecimal digits", 24)
VERSION = hexadecimal("a version of four hexadecimal digits", 4)
TEXT, OWNER, _PICTURE, _DATAGRAM = map(octets, ("a text", "an owner", "a picture", "a datagram"))

HEAD = (
    [word("size"), _SIZE, _SIZE],
    [word("communities"), _any_word("the first community"), _any_word("the second community")],
    [word("rows"), _OCTET, _OCTET],
    [word("order"), _ORDER],
    [word("has"), _SWITCH, _SWITCH],
    [word("defaults"), *[_OCTET] * 9],
    [word("first"), LONG],
)
PERMANENT = [word("permanent"), TEXT, OWNER, _OCTET, _OCTET, _OCTET]
FONT = [
    *(word("font"), number(1, 255), word("height"), number(1, 32), word("space"), number(0, 32)),
    *(word("line"), number(0, 32), word("version"), VERSION),
]
GLYPH = [word("glyph"), number(1, 65535), number(1, 32), _PICTURE]
END = [word("end")]
EVENTS: dict[bytes, list[Wanted]] = {
    b"publish": [_OCTET, _SIZE, TEXT, OWNER, _OCTET, _OCTET, _OCTET, _SIZE, _OCTET, ADDRESS],
    b"blank": [_SIZE, _SIZE, _OCTET, ADDRESS],
    b"activate": [_CODE],
    b"sign-tick": [],
    b"centre-tick": [],
    b"to-sign": [LONG],
    b"to-centre": [LONG],
    b"power-lost": [],
    b"power-back": [LONG],
    b"centre-restart": [],
    b"forge-sign": [_DATAGRAM],
    b"forge-centre": [_DATAGRAM],
}
FIRMWARE_CALLS: dict[bytes, list[Wanted]] = {
    b"no-object": [_any_word("a name")],
    b"fonts": [],
    b"objects": [],
}
SIGN_CALLS: dict[bytes, list[Wanted]] = {
    b"datagram": [_DATAGRAM],
    b"ticks": [LONG],
    b"power-back": [LONG],
    **{keyword: [] for keyword in (b"tick", b"heard", b"power-lost", b"show", b"state", b"save")},
}
CENTRE_CALLS: dict[bytes, list[Wanted]] = {
    **{keyword: EVENTS[keyword] for keyword in (b"publish", b"blank", b"activate")},
    b"datagram": [_DATAGRAM],
    **{keyword: [] for keyword in (b"tick", b"restart", b"status", b"save")},
}
STATUS_LAST = [word("status"), word("last")]


def fault(form: list[Wanted], line: bytes) -> str | None:
    """What is wrong with the first word of a line that is not what its form wants."""
    found = line.split(b" ")
    for place, wanted in enumerate(form):
        if place == len(found):
            return f"word {place + 1}: the line ends where {wanted.words} is wanted"
        if not found[place]:
            return empty(place)
        if not wanted.takes(found[place]):
            return f"word {place + 1}: {wanted.words} is wanted"
    return None if len(found) == len(form) else more(len(form), found[len(form)])


def more(place: int, found: bytes) -> str:
    """What is wrong where the line should have ended, and goes on with this word."""
    return f"word {place + 1}: no more words are wanted" if found else empty(place)


def empty(place: int) -> str:
    return f"word {place + 1}: two spaces, or a space at an end of the line"

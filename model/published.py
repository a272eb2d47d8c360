"""Lines of a live sign that publish objects, and what they print."""

import re

from . import forms, text, wire
from .device import Access, Object

_NO_ACCESS = "after the value an access is wanted, as number 0 7, or the end of the line"
_LEAST, _MOST = -(2**31), 2**32 - 1
_COUNTED = {b"Counter": wire.COUNTER, b"Gauge": wire.GAUGE, b"TimeTicks": wire.TICKS}
_WORDS = {
    wire.INTEGER: "INTEGER",
    wire.OCTETS: "OCTET STRING",
    wire.NULL: "NULL",
    wire.NAME: "OBJECT IDENTIFIER",
    wire.ADDRESS: "IpAddress",
    wire.OPAQUE: "Opaque",
} | {tag: word.decode() for word, tag in _COUNTED.items()}


def _large(word: bytes) -> int:
    return text.number(word, 0, _MOST, 10)


def _integer(word: bytes) -> int:
    """A number that may have a minus before its digits."""
    if not re.fullmatch(rb"-?[0-9]{1,10}", word) or not _LEAST <= int(word) <= _MOST:
        raise ValueError
    return int(word)


def name(word: bytes) -> wire.Name:
    """The numbers of a name; raises ValueError."""
    numbers = tuple(map(_large, word.split(b".")))
    if not 2 <= len(numbers) <= 128:
        raise ValueError
    first, second = numbers[:2]
    if first > 2 or first < 2 and second >= 40 or 40 * first + second > _MOST:
        raise ValueError
    return numbers


def _value(words: list[bytes]) -> tuple[wire.Tagged, list[bytes]]:
    """The value that the first words say, and the words after it; raises ValueError or IndexError."""
    word = words[0]
    if word == b"INTEGER":
        return (wire.INTEGER, _integer(words[1])), words[2:]
    if words[:2] == [b"OCTET", b"STRING"]:
        return (wire.OCTETS, text.octets(words[2])), words[3:]
    if word == b"Opaque":
        return (wire.OPAQUE, text.octets(words[1])), words[2:]
    if word == b"NULL":
        return (wire.NULL, b""), words[1:]
    if words[:2] == [b"OBJECT", b"IDENTIFIER"]:
        return (wire.NAME, name(words[2])), words[3:]
    if word == b"IpAddress":
        return (wire.ADDRESS, text.address(words[1])), words[2:]
    if word in _COUNTED:
        return (_COUNTED[word], _large(words[1])), words[2:]
    raise ValueError


def _access(words: list[bytes]) -> Access | None:
    """What a manager may write; None where there are no words."""
    if not words:
        return None
    kind, least, most = words
    if kind == b"number":
        return Access(wire.INTEGER, _integer(least), _integer(most))
    if kind == b"octets":
        return Access(wire.OCTETS, text.number(least), text.number(most))
    raise ValueError


def valued(words: list[bytes]) -> tuple[wire.Name, wire.Tagged, list[bytes]]:
    """A name, its value, and the words after it; raises ValueError, which says what is not there."""
    named = named_by(words)
    try:
        return named, *_value(words[1:])
    except (ValueError, IndexError):
        raise ValueError("word 3: a value is wanted, as INTEGER 7") from None


def assigned(words: list[bytes]) -> tuple[wire.Name, wire.Tagged]:
    """The name and the value of a line `set`; raises ValueError, which says what is not there, or is too much."""
    named, value, more = valued(words[1:])
    if more:
        raise ValueError(forms.more(len(words) - len(more), more[0]))
    return named, value


def published(words: list[bytes]) -> Object:
    """The object of a line's words behind the first; raises ValueError, which says what is not there."""
    named, value, rest = valued(words)
    try:
        return Object(named, value, _access(rest))
    except ValueError:
        raise ValueError(_NO_ACCESS) from None


def named_by(words: list[bytes]) -> wire.Name:
    """The name that a line's words behind the first begin with; raises ValueError, which says that there is none."""
    try:
        return name(words[0])
    except (ValueError, IndexError):
        raise ValueError("word 2: the name of an object is wanted, as 1.3.6.1") from None


def dotted(numbers: wire.Name) -> str:
    """A name as it is printed."""
    return ".".join(map(str, numbers))


def printed(value: wire.Tagged) -> str:
    """A value as its words."""
    tag, held = value
    if tag == wire.NAME:
        return f"{_WORDS[tag]} {dotted(held)}"
    if tag == wire.ADDRESS:
        return f"{_WORDS[tag]} {dotted(tuple(held))}"
    if isinstance(held, int):
        return f"{_WORDS[tag]} {held}"
    return _WORDS[tag] if tag == wire.NULL else f"{_WORDS[tag]} {held.hex() or '-'}"

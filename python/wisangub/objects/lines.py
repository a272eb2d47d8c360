"""Lines that publish objects, as docs/PROFILE.md has them ("A live sign"): read, and why one is none; and written."""

import re
from dataclasses import dataclass

from wisangub.snmp import wire
from wisangub.snmp.names import TYPES

_LEAST, _MOST = -(2**31), 2**32 - 1
_MOST_LENGTH = 65_535
_MOST_NUMBERS = 128  # of a name
_ROOTS, _BELOW_ROOT = 2, 40  # a name's first number is at most this one, and below 2 the second is below that one
_TAGS = {word: tag for tag, word in TYPES.items()}
_COUNTED = (wire.COUNTER, wire.GAUGE, wire.TICKS)
UNFIT = "the value is not one that its access takes"


class Bad(Exception):
    """Why words publish no object."""


@dataclass(frozen=True)
class Access:
    """What a manager may write: values of this type, a number or a length from a least to a most."""

    tag: int  # INTEGER or OCTETS
    least: int
    most: int

    def takes(self, value: wire.Tagged) -> bool:
        """Whether a value is one of these."""
        tag, held = value
        return tag == self.tag and self.least <= (held if tag == wire.INTEGER else len(held)) <= self.most

    def words(self) -> str:
        """As a line says it."""
        return f" {'number' if self.tag == wire.INTEGER else 'octets'} {self.least} {self.most}"


@dataclass(frozen=True)
class Object:
    """An object: its name, what it reads, and what a manager may write; None where it is read alone."""

    name: wire.Name
    value: wire.Tagged
    access: Access | None = None

    def line(self) -> bytes:
        """The line that publishes it."""
        return f"object {dotted(self.name)} {words_of(self.value)}{self.access.words() if self.access else ''}".encode()


def dotted(numbers: wire.Name) -> str:
    """A name as numbers with dots between them."""
    return ".".join(map(str, numbers))


def words_of(value: wire.Tagged) -> str:
    """A value as a line says it."""
    tag, held = value
    if tag == wire.NULL:
        return TYPES[tag]
    if tag == wire.NAME:
        said = dotted(held)
    elif tag == wire.ADDRESS:
        said = dotted(tuple(held))
    else:
        said = str(held) if isinstance(held, int) else held.hex() or "-"
    return f"{TYPES[tag]} {said}"


def _number(word: str, least: int, most: int) -> int:
    if not re.fullmatch(r"-?[0-9]{1,10}", word, re.ASCII) or not least <= int(word) <= most:
        raise Bad(f"{word} is no number from {least} to {most}")
    return int(word)


def _counted(word: str, most: int) -> int:
    """A number without a sign."""
    if word.startswith("-"):
        raise Bad(f"{word} is no number from 0 to {most}")
    return _number(word, 0, most)


def name_of(word: str) -> wire.Name:
    """The numbers of a name."""
    if not re.fullmatch(r"[0-9]{1,10}(\.[0-9]{1,10})+", word, re.ASCII):
        raise Bad(f"{word} is no name: numbers with dots between them")
    numbers = tuple(map(int, word.split(".")))
    first, second = numbers[:2]
    is_rooted = first == _ROOTS or first < _ROOTS and second < _BELOW_ROOT
    if len(numbers) > _MOST_NUMBERS or not is_rooted or max(*numbers, 40 * first + second) > _MOST:
        raise Bad(f"{word} is no name of an object")
    return numbers


def _octets(word: str) -> bytes:
    if word == "-":
        return b""
    if not re.fullmatch(r"([0-9a-fA-F]{2})+", word):
        raise Bad(f"{word[:40]} is no pairs of hexadecimal digits, nor - for none")
    return bytes.fromhex(word)


def _address(word: str) -> bytes:
    if not re.fullmatch(r"[0-9]{1,3}(\.[0-9]{1,3}){3}", word, re.ASCII) or max(map(int, word.split("."))) > 255:
        raise Bad(f"{word} is no address, as 192.0.2.1")
    return bytes(map(int, word.split(".")))


def _typed(tag: int, word: str) -> wire.Tagged:
    """The value of this type that a word says."""
    if tag == wire.INTEGER:
        return tag, _number(word, _LEAST, _MOST)
    if tag in _COUNTED:
        return tag, _counted(word, _MOST)
    if tag == wire.NAME:
        return tag, name_of(word)
    return tag, _address(word) if tag == wire.ADDRESS else _octets(word)


def _value(words: list[str]) -> tuple[wire.Tagged, list[str]]:
    """The value that the first words say, and the words after it."""
    for size in (1, 2):
        tag = _TAGS.get(" ".join(words[:size])) if len(words) >= size else None
        if tag == wire.NULL:
            return (tag, b""), words[1:]
        if tag is not None and len(words) == size:
            raise Bad(f"the line ends where a value of {TYPES[tag]} is wanted")
        if tag is not None:
            return _typed(tag, words[size]), words[size + 1 :]
    raise Bad(f"a type is wanted, one of {', '.join(_TAGS)}")


def _access(words: list[str]) -> Access | None:
    """What a manager may write."""
    if not words:
        return None
    if len(words) != 3 or words[0] not in ("number", "octets"):
        raise Bad("behind the value stands nothing, or number LEAST MOST, or octets LEAST MOST")
    least, most = words[1:]
    if words[0] == "number":
        return Access(wire.INTEGER, _number(least, _LEAST, _MOST), _number(most, _LEAST, _MOST))
    return Access(wire.OCTETS, _counted(least, _MOST_LENGTH), _counted(most, _MOST_LENGTH))


def object_of(words: list[str]) -> Object:
    """The object of the words behind `object`; raises Bad."""
    if not words:
        raise Bad("the line ends where a name is wanted")
    name, (value, rest) = name_of(words[0]), _value(words[1:])
    made = Object(name, value, _access(rest))
    if made.access is not None and not made.access.takes(value):
        raise Bad(UNFIT)
    return made

"""What a sign claims to support of the profile, in the manner of NTCIP 1203's list of requirements: `--claims FILE`.

The file is TOML, as signs/claims.toml. What it does not name is claimed as the profile has it.
"""

import pathlib
import tomllib
from dataclasses import dataclass, field
from typing import Any, Iterator

from wisangub.refusal import Refusal, reason
from wisangub.snmp import wire
from wisangub.snmp.names import OBJECTS
from wisangub.tester.requests.objects import DEFAULTS, RANGES, Binding, Name, Value
from wisangub.tester.requests.texts import TAGS

from . import device_claims
from .described import Description
from .device_claims import DeviceClaim

# without these nothing can be tested
NEEDED = (
    "vmsSignHeightPixels",
    "dmsMessageMemoryType",
    "dmsMessageNumber",
    "dmsMessageMultiString",
    "dmsMessageCRC",
    "dmsMessageStatus",
    "dmsActivateMessage",
)


@dataclass(frozen=True)
class Claims:
    """The objects and tags that a sign has not, narrower ranges of those that it has, and what it has besides."""

    missing: frozenset[str] = frozenset()
    ranges: dict[str, tuple[int, int]] = field(default_factory=dict)
    tags: frozenset[str] = frozenset()
    device: tuple[DeviceClaim, ...] = ()  # beside the profile's objects

    def is_missing(self, name: Name) -> bool:
        """Whether it is an instance of an object that the sign has not."""
        return bool(self.missing) and object_word(name) in self.missing

    def is_outside(self, name: Name, value: Value) -> bool:
        """Whether it is a number that the profile's sign takes, and this one does not claim to take."""
        word = object_word(name) if self.ranges else ""
        if word not in self.ranges or not isinstance(value[1], int):
            return False
        least, most = self.ranges[word]
        return not least <= value[1] <= most

    def range_of(self, word: str) -> tuple[int, int]:
        """The numbers that an object takes."""
        return self.ranges.get(word, RANGES[word])

    def is_taken(self, bound: Binding) -> bool:
        """Whether a SET of this binding may be taken."""
        return not self.is_missing(bound[0]) and not self.is_outside(*bound)


def object_word(name: Name) -> str:
    """The profile's object whose instance this is; no word for what is none."""
    return _WORDS.get(name[:-2], "") or _WORDS.get(name[:-1], "")


_WORDS = {name: word for word, name in OBJECTS.items()}


def claims_of(path: pathlib.Path | None, sign: Description) -> Claims:
    """The claims of a file, or all of the profile. Raises Refusal where a default of the description is not claimed."""
    claims = read(path) if path is not None else Claims()
    for name, value in zip(DEFAULTS, sign.face.defaults):
        if claims.is_outside(name, (wire.INTEGER, value)):
            raise Refusal(f"{path}: {object_word(name)} is {value} in the description, which is not claimed")
    return claims


def read(path: pathlib.Path) -> Claims:
    """The claims of a file. Raises Refusal that says what is at fault."""
    try:
        held = tomllib.loads(path.read_text(encoding="utf-8"))
    except OSError as fault:
        raise Refusal(f"the claims cannot be read: {reason(fault)}") from None
    except ValueError as fault:
        raise Refusal(f"{path}: {fault}") from None
    others = [word for word in held if word not in ("objects", "ranges", "tags", "device")]
    if others or not all(isinstance(part, dict) for part in held.values()):
        raise Refusal(
            f"{path}: claims have the parts [objects], [ranges], [tags] and [device], not {', '.join(others) or 'this'}"
        )
    missing = frozenset(_refused(path, held.get("objects", {}), tuple(OBJECTS)))
    needed = missing & set(NEEDED)
    if needed:
        raise Refusal(f"{path}: without {', '.join(sorted(needed))} nothing can be tested")
    tags = frozenset(_refused(path, held.get("tags", {}), TAGS))
    device = device_claims.read(path, held.get("device", {}))
    return Claims(missing, dict(_narrower(path, held.get("ranges", {}))), tags, device)


def _refused(path: pathlib.Path, held: dict[str, Any], known: tuple[str, ...]) -> Iterator[str]:
    """The words of a part that are false."""
    for word, is_supported in held.items():
        if word not in known:
            raise Refusal(f"{path}: {word} is none of {', '.join(known)}")
        if not isinstance(is_supported, bool):
            raise Refusal(f"{path}: {word} is true or false")
        if not is_supported:
            yield word


def _narrower(path: pathlib.Path, held: dict[str, Any]) -> Iterator[tuple[str, tuple[int, int]]]:
    """The ranges, each within the profile's."""
    for word, ends in held.items():
        if word not in RANGES:
            raise Refusal(f"{path}: {word} is none of {', '.join(RANGES)}")
        is_pair = isinstance(ends, list) and len(ends) == 2 and all(type(end) is int for end in ends)
        if not is_pair or not RANGES[word][0] <= ends[0] <= ends[1] <= RANGES[word][1]:
            raise Refusal(f"{path}: {word} is [LEAST, MOST], from {RANGES[word][0]} to {RANGES[word][1]} at most")
        yield word, (ends[0], ends[1])

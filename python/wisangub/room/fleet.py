"""A fleet: the signs that are driven, read from a TOML file; a fault is told with its file, line and reason."""

import hashlib
import pathlib
import re
import stat
import tomllib
from dataclasses import dataclass, replace
from typing import NoReturn

from wisangub.endpoint.sockets import host_and_port
from wisangub.process import description
from wisangub.refusal import Refusal, reason
from wisangub.room.output import LOG

from .addresses import of_places

_TYPES: dict[str, tuple[type, ...]] = {
    "name": (str,),
    "place": (str,),
    "address": (str,),
    "description": (str,),
    "order": (str,),
    "poll": (int, float),
    "first": (int,),
}
_NEEDED = ("name", "address", "description")
_MOST_NAME = 64
_MOST_NAMED = 5  # files in one line
NAMES = f"a name has 1 to {_MOST_NAME} printable characters"
LAST_NUMBER = 2**31 - 1
_EVERY = 10.0  # seconds between polls where the fleet does not say it
_ORDER = re.compile(rb"^order (?:high|swapped)(?=\r?$)", re.MULTILINE)
_COMMUNITIES = re.compile(rb"^communities ([^ \r\n]+) ([^ \r\n]+)\r?$", re.MULTILINE)
_OWN = re.compile(rb"^(communities|order|first) .*\n", re.MULTILINE)  # of a sign, and not of its kind
_PLACE = re.compile(r" \(at (?:line (\d+), column \d+|end of document)\)$")


@dataclass(frozen=True)
class Sign:
    """A sign of the fleet. `text` is its description in the fleet's order of checksums, `reader` its reading community,
    `poll` the seconds between two readings, `first` the number of the first request that a centre ever sends it,
    `every` all that its address resolved to as the fleet was read, `path` the file of its description."""

    name: str
    place: str
    host: str
    port: int
    text: bytes
    reader: bytes
    poll: float
    first: int
    every: frozenset[str] = frozenset()
    path: str = ""

    @property
    def address(self) -> str:
        return f"{self.host}:{self.port}"

    @property
    def writer(self) -> bytes:
        """The writing community."""
        return description.communities_of(self.text)[1]

    @property
    def digest(self) -> str:
        return description.digest(self.text)

    @property
    def kind(self) -> str:
        """Which kind of signs it is of: one has its matrix, fonts and rows. No community goes into it."""
        return kind_of(self.text)


def kind_of(text: bytes) -> str:
    """The kind of signs that a description is of."""
    return hashlib.sha256(_OWN.sub(b"", text)).hexdigest()[:16]


def is_name(word: str) -> bool:
    """Whether a sign may have this name."""
    return 1 <= len(word) <= _MOST_NAME and word.isprintable()


class Source:
    """The file's text, in which lines are looked for."""

    def __init__(self, path: pathlib.Path) -> None:
        self.path = path
        try:
            self.text = path.read_text(encoding="utf-8")
        except OSError as fault:
            raise Refusal(reason(fault)) from fault
        except UnicodeDecodeError as fault:
            raise Refusal(f"{path}: octet {fault.start} is no UTF-8") from fault

    def refuse(self, line: int, words: str) -> NoReturn:
        raise Refusal(f"{self.path}: line {line}: {words}")

    def tables(self) -> dict[str, object]:
        """What the file says as TOML."""
        try:
            return tomllib.loads(self.text)
        except tomllib.TOMLDecodeError as fault:
            words = str(fault)
            found = _PLACE.search(words)
            line = int(found[1]) if found and found[1] else len(self.text.splitlines()) or 1
            self.refuse(line, words[: found.start()] if found else words)

    def line_of(self, at: int | None, key: str | None = None) -> int:
        """The line of the key in the sign `at` (before all signs for none), else of that sign's header."""
        header, found = -1, 1
        for number, line in enumerate(self.text.splitlines(), 1):
            if re.match(r"\s*\[\[\s*\"?sign\"?\s*\]\]", line):
                header += 1
                found = number if header == at else found
            is_within = header == (-1 if at is None else at)
            if is_within and key and re.match(rf"\s*\[*\s*\"?{re.escape(key)}\"?\s*[=\].]", line):
                return number
        return found


class Entry:
    """A table `[[sign]]` of the file."""

    def __init__(self, source: Source, at: int, held: dict[str, object]) -> None:
        self.source, self.at, self.held = source, at, held

    def refuse(self, key: str | None, words: str) -> NoReturn:
        self.source.refuse(self.source.line_of(self.at, key), words)

    def check(self) -> None:
        """Refuses keys that are unknown, missing or of another type."""
        for key, value in self.held.items():
            if key not in _TYPES:
                self.refuse(key, f"a sign has no {key!r}: it has {', '.join(_TYPES)}")
            if not isinstance(value, _TYPES[key]) or isinstance(value, bool):
                self.refuse(key, f"{key} wants {'a text' if _TYPES[key] == (str,) else 'a number'}")
        for key in _NEEDED:
            if key not in self.held:
                self.refuse(None, f"this sign has no {key}")

    def word(self, key: str) -> str:
        return str(self.held.get(key, ""))

    def name(self) -> str:
        name = self.word("name")
        if not is_name(name):
            self.refuse("name", NAMES)
        return name

    def address(self) -> tuple[str, int]:
        try:
            return host_and_port(self.word("address"))
        except Refusal as refused:
            self.refuse("address", str(refused))

    def poll(self) -> float:
        poll = self.held.get("poll", _EVERY)
        assert isinstance(poll, (int, float))
        if not 1 <= poll <= 86_400:
            self.refuse("poll", f"{poll} is no time between polls: 1 to 86400 seconds")
        return float(poll)

    def text(self) -> bytes:
        """The description, in the order of checksums that the fleet names."""
        try:
            text = description.read(str(self.source.path.parent / self.word("description")))
        except Refusal as refused:
            self.refuse("description", str(refused))
        order = self.held.get("order")
        if order not in (None, "high", "swapped"):
            self.refuse("order", f"{order!r} is no order of checksums: high or swapped")
        assert text is not None
        return text if order is None else _ORDER.sub(b"order " + str(order).encode(), text, count=1)

    def first(self, text: bytes) -> int:
        first = self.held.get("first", description.first_of(text))
        assert isinstance(first, int)
        if not 0 <= first <= LAST_NUMBER:
            self.refuse("first", f"{first} is no number of a request: 0 to {LAST_NUMBER}")
        return first

    def sign(self) -> Sign:
        self.check()
        host, port = self.address()
        text = self.text()
        found = _COMMUNITIES.search(text)
        if found is None:
            self.refuse("description", "the description has no line `communities READER WRITER`")
        return Sign(
            self.name(),
            self.word("place"),
            host,
            port,
            text,
            found[1],
            self.poll(),
            self.first(text),
            path=str(self.source.path.parent / self.word("description")),
        )


def _is_open(path: str) -> bool:
    """Whether others than its owner and its group can read a file: the file and each folder above it let them."""
    place = pathlib.Path(path).resolve()
    try:
        return bool(place.stat().st_mode & stat.S_IROTH) and all(
            folder.stat().st_mode & stat.S_IXOTH for folder in place.parents
        )
    except OSError:
        return False


def tell_open(signs: list[Sign]) -> None:
    """Names descriptions that others can read, since communities stand in them."""
    found = [path for path in sorted({sign.path for sign in signs}) if _is_open(path)]
    if found:
        more = f" and {len(found) - _MOST_NAMED} more" if len(found) > _MOST_NAMED else ""
        words = f"{', '.join(found[:_MOST_NAMED])}{more}"
        LOG.warning(f"others on this machine can read {words}, where communities stand: chmod o-r")


def _entries(source: Source) -> list[Entry]:
    """The tables of the signs; nothing else stands in the file."""
    tables = source.tables()
    for key in tables:
        if key != "sign":
            source.refuse(source.line_of(None, key), f"a fleet has no {key!r}: it has tables [[sign]]")
    held = tables.get("sign", [])
    if not isinstance(held, list) or not held:
        source.refuse(source.line_of(None), "a fleet has tables [[sign]], one a sign")
    return [Entry(source, at, table) for at, table in enumerate(held)]


def read(path: str | pathlib.Path) -> list[Sign]:
    """The signs of a file. No two have one name, and no two one address, however it is spelled: two centres would send
    one sign the same numbers."""
    found = [(entry, entry.sign()) for entry in _entries(Source(pathlib.Path(path)))]
    known = of_places((sign.host, sign.port) for _, sign in found)
    names: set[str] = set()
    owners: dict[str, str] = {}
    signs: list[Sign] = []
    for entry, sign in found:
        sign = replace(sign, every=known[sign.host, sign.port].every)
        if sign.name in names:
            entry.refuse("name", f"{sign.name!r} is the name of an earlier sign")
        for address in sorted({sign.address, *sign.every} & owners.keys()):
            entry.refuse("address", f"{entry.word('address')} is the address of {owners[address]!r}")
        names.add(sign.name)
        owners.update({address: sign.name for address in (sign.address, *sign.every)})
        signs.append(sign)
    return signs

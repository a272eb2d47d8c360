"""Lines to the live bench sign that publish objects and let fonts be read, requests that name these, and answers."""

import functools
from collections.abc import Iterator

from model import coprocess, text, wire
from model.agent import Agent
from model.objects import DMS
from model.published import dotted

from .messages import NULL, Case, request, scalar

_Named = tuple[str, list[str]]
_DESCRIPTION: wire.Name = (1, 3, 6, 1, 2, 1, 1, 1, 0)  # sysDescr, before all that the sign has
_TYPE, _ILLUMINATION = DMS + (1, 2, 0), DMS + (7, 1, 0)  # before the sign's too, and after them
_BRIGHTNESS, _TAGS, _NEXT_ROW = DMS + (7, 6, 0), DMS + (4, 14, 0), DMS + (5, 8, 1, 9, 3, 3)  # after them, and between
_TIME: wire.Name = (1, 3, 6, 1, 4, 1, 1206, 4, 2, 6, 3, 1, 0)  # globalTime, behind all
_LONGEST = ".".join(["1", "3"] + ["4294967295"] * 126)
_VALUES = (
    *("INTEGER 0", "INTEGER -1", "INTEGER -0", "INTEGER -2147483648", "INTEGER 4294967295", "INTEGER 0000000001"),
    *("INTEGER -2147483649", "INTEGER 4294967296", "INTEGER +1", "INTEGER", "Integer 1", "INTEGER 00000000001"),
    *("OCTET STRING -", "OCTET STRING 4A4b", "OCTET STRING 4", "OCTET STRING", "OCTET 41", "STRING 41"),
    *("Opaque 00ff", "Opaque -", "NULL", "NULL -", "OBJECT IDENTIFIER 0.0", "OBJECT IDENTIFIER 3.1"),
    *("IpAddress 192.0.2.1", "IpAddress 192.0.2", "IpAddress 192.0.2.256", "Counter 4294967295", "Counter -1"),
    *("Gauge 7", "Gauge 4294967296", "TimeTicks 100", "TimeTicks 0000000100", "Counter64 1"),
)
_WRITABLE = (
    *("INTEGER 3 number 0 9", "INTEGER 3 number 3 3", "INTEGER 3 number 4 9", "INTEGER 3 number 9 0"),
    *("INTEGER -5 number -2147483648 4294967295", "INTEGER 3 number 0 4294967296", "INTEGER 3 number 0"),
    *("INTEGER 3 number 0 9 9", "INTEGER 3 octets 0 9", "Gauge 3 number 0 9", "NULL number 0 9"),
    *("OCTET STRING - octets 0 0", "OCTET STRING 41 octets 0 65535", "OCTET STRING 41 octets 2 2"),
    *("OCTET STRING 41 octets 0 65536", "OCTET STRING 41 octets -1 9", "OCTET STRING 41 number 0 9"),
    *("Opaque 41 octets 0 9", "INTEGER 3 Number 0 9"),
)
_NAMES = (
    *(
        "0.0",
        "0.39",
        "0.40",
        "1.39",
        "1.40",
        "2.40",
        "2.4294967215",
        "2.4294967216",
        "3.1",
        "1",
        "1.3.",
        ".1.3",
        "1..3",
    ),
    *("01.0000000003", "1.3.00000000001", "1.3.4294967296", _LONGEST, f"{_LONGEST}.1", "1.3.-1"),
    *(dotted(DMS + (2, 3)), dotted(DMS + (2, 3, 0)), dotted(DMS + (2, 3, 0, 0)), dotted(DMS + (5, 8, 1, 9, 3, 1))),
)
_PUBLISHED = [
    f"object {dotted(_DESCRIPTION)} OCTET STRING 61207369676e",
    f"object {dotted(_TYPE)} INTEGER 6",
    f"object {dotted(_TAGS)} OCTET STRING 00000003",
    f"object {dotted(_NEXT_ROW)} INTEGER 1",
    f"object {dotted(_ILLUMINATION)} OCTET STRING - octets 0 4",
    f"object {dotted(_BRIGHTNESS)} INTEGER 3 number 0 9",
    f"object {dotted(_TIME)} Counter 1795543676",
]


def _handed(kind: int, *bindings: wire.Binding, community: bytes = b"admin") -> str:
    return f"datagram {request(kind, bindings, community).hex()}"


def _get(*names: wire.Name) -> str:
    return _handed(wire.GET, *((name, NULL) for name in names), community=b"public")


def _after(*names: wire.Name) -> str:
    return _handed(wire.GET_NEXT, *((name, NULL) for name in names), community=b"public")


def _spellings() -> Iterator[_Named]:
    for value in (*_VALUES, *_WRITABLE):
        name = (1, 3, 6, 1)
        yield f"object with {value}", [f"object {dotted(name)} {value}", _get(name), f"no-object {dotted(name)}"]
    for word in _NAMES:
        shown = word if len(word) < 40 else f"a name of {word.count('.') + 1} numbers"
        yield f"object named {shown}", [f"object {word} NULL", f"no-object {word}", f"no-object {word}"]
    for line in ("object", "object 1.3", "no-object", "no-object 1.3 1", "objects 1", "fonts 1", "Object 1.3 NULL"):
        yield f"the line {line}", [line]


def _reads() -> Iterator[_Named]:
    names = [_DESCRIPTION, _TYPE, _TAGS, _NEXT_ROW, _ILLUMINATION, _BRIGHTNESS, _TIME]
    yield "Get of each object", [*_PUBLISHED, *map(_get, names)]
    yield "Get of all and of the sign's width", [*_PUBLISHED, _get(*names, scalar("vmsSignWidthPixels"))]
    yield "Get of an object that is not published", [*_PUBLISHED, _get(_DESCRIPTION, _DESCRIPTION[:-2] + (9, 0))]
    yield "GetNext before and behind each", [*_PUBLISHED, *(_after(one[:-1], one) for one in names)]
    yield "GetNext of the sign's last object and of 0.0", [*_PUBLISHED, _after((0, 0)), _after(DMS + (6, 24, 0))]
    yield "GetNext past the last object", [*_PUBLISHED, _after(_TIME)]
    yield "a reply that is too big", [f"object 1.3 OCTET STRING {'41' * 700}", _get((1, 3)), _get((1, 3), (1, 3))]
    taken = [f"no-object {dotted(one)}" for one in names]
    yield "without objects again", [*_PUBLISHED, *taken, _get(_DESCRIPTION), _after((0, 0))]


def _sets() -> Iterator[_Named]:
    four, ten, gauge = (wire.INTEGER, 4), (wire.INTEGER, 10), (wire.GAUGE, 4)
    bright, dial = (_BRIGHTNESS, four), (_ILLUMINATION, (wire.OCTETS, b"\xff" * 4))
    colour: wire.Binding = (scalar("defaultForegroundColor"), (wire.INTEGER, 3))
    sets: list[tuple[str, list[wire.Binding]]] = [
        ("a number in range", [bright]),
        ("a number out of range", [(_BRIGHTNESS, ten)]),
        ("a value of another type", [(_BRIGHTNESS, gauge)]),
        ("octets", [dial]),
        ("octets that are too many", [(_ILLUMINATION, (wire.OCTETS, bytes(5)))]),
        ("two objects", [bright, dial]),
        ("an object that is read alone", [(_TYPE, four)]),
        ("a good value, and one that is not", [dial, (_BRIGHTNESS, ten)]),
        ("a name twice", [bright, bright]),
        ("a bad value of a name that was given", [bright, (_BRIGHTNESS, ten)]),
        ("an object, and one of the sign", [bright, colour]),
        ("an object of the sign, and another", [colour, bright]),
        ("an object that is not published", [((1, 3), four)]),
        ("no bindings", []),
        ("an object of the sign", [colour]),
    ]
    for name, bindings in sets:
        seen = [_get(_BRIGHTNESS, _ILLUMINATION), "objects", "objects"]
        yield f"Set of {name}", [*_PUBLISHED, _handed(wire.SET, *bindings), *seen]
        by_reader = _handed(wire.SET, *bindings, community=b"public")
        yield f"Set of {name} by the reader", [*_PUBLISHED, by_reader, *seen]
    again = f"object {dotted(_BRIGHTNESS)} INTEGER 7 number 0 9"
    yield "what is published is newer", [*_PUBLISHED, _handed(wire.SET, bright), again, _get(_BRIGHTNESS), "objects"]
    yield "what was set is withdrawn", [
        *_PUBLISHED,
        _handed(wire.SET, bright, dial),
        f"no-object {dotted(_BRIGHTNESS)}",
        "objects",
    ]


def _values() -> Iterator[_Named]:
    """Values that are put back as managers set them, and what is saved of them."""
    bright, dial = f"set {dotted(_BRIGHTNESS)}", f"set {dotted(_ILLUMINATION)}"
    for words in ("INTEGER 9", "INTEGER -0", "INTEGER 10", "Gauge 4", "NULL", "OCTET STRING 04"):
        yield f"set to {words}", [*_PUBLISHED, f"{bright} {words}", "objects", "objects", "save"]
    for words in ("OCTET STRING -", "OCTET STRING 4A4b4c4D", "OCTET STRING 4142434445", "Opaque 41"):
        yield f"set to {words}", [*_PUBLISHED, f"{dial} {words}", _get(_ILLUMINATION), "save"]
    for word in (dotted(_TYPE), dotted(DMS + (2, 3, 0)), "1.3", f"01{dotted(_BRIGHTNESS)[1:]}"):
        yield f"set of {word}", [*_PUBLISHED, f"set {word} INTEGER 6", "save"]
    for line in ("set", "set 3.1 NULL", "set 1.3", f"{bright} INTEGER", f"{bright} INTEGER 4294967296"):
        yield f"the line {line}", [*_PUBLISHED, line]
    for words in ("INTEGER 4 number 0 9", "NULL -", "OCTET STRING 41 42", "INTEGER 4 ", "INTEGER 4  5", " INTEGER 4"):
        yield f"more words than set to {words!r}", [*_PUBLISHED, f"{bright} {words}", "objects"]
    both = _handed(wire.SET, (_BRIGHTNESS, (wire.INTEGER, 4)), (_ILLUMINATION, (wire.OCTETS, b"\xff")))
    yield "what managers set is saved, told or not", [*_PUBLISHED, "save", both, "save", "objects", "save"]
    yield "what is set by a line too", [*_PUBLISHED, both, "objects", f"{bright} INTEGER 4", "objects", "save"]
    withdrawn = f"no-object {dotted(_ILLUMINATION)}"
    yield "what firmware publishes anew is not saved", [*_PUBLISHED, both, _PUBLISHED[5], "save", withdrawn, "save"]
    yield "set without power", [*_PUBLISHED, "power-lost", f"{bright} INTEGER 4", "save", "power-back 3", "save"]
    yield "set leaves the silence", ["ticks 59", *_PUBLISHED, f"{bright} INTEGER 4", "ticks 1", "save"]


def _power() -> Iterator[_Named]:
    off = [*_PUBLISHED, "power-lost", _get(_DESCRIPTION), "objects", "object 1.3 NULL", "no-object 1.3"]
    yield "without power", [*off, "fonts", "power-back 3", _get(_DESCRIPTION)]
    silence = _handed(wire.SET, (scalar("dmsTimeCommLoss"), (wire.INTEGER, 1)))
    yield "an answer ends a silence", [*_PUBLISHED, silence, "ticks 59", _get(_DESCRIPTION), "ticks 59", "state"]
    yield "a line of firmware's does not", [silence, "ticks 59", *_PUBLISHED, "objects", "tick", "state"]


def _fonts() -> Iterator[_Named]:
    face, table, characters = text.bench().face, DMS + (3, 2, 1), DMS + (3, 4, 1)
    for number in (1, 3, 5):
        yield f"fonts: Get of object {number}", ["fonts", _get(DMS + (3, number, 0)), _after(DMS + (3, number))]
    for column in range(10):
        fonts = [table + (column, i) for i in range(4)]
        yield f"fonts: column {column} of fontTable", ["fonts", *map(_get, fonts), *map(_after, fonts)]
    for column in range(5):
        rows = [characters + (column, i, n) for i in (1, 2, 3) for n in sorted(face.fonts[0].glyphs) + [0, 255]]
        yield f"fonts: column {column} of characterTable", ["fonts", *map(_get, rows), *map(_after, rows)]
    put = _handed(wire.SET, (table + (4, 1), (wire.INTEGER, 9)))
    yield "fonts: Set", ["fonts", put, _get(table + (4, 1))]
    own = f"object {dotted(DMS + (3, 1, 0))} INTEGER 9"
    yield "fonts: an object of their name", [
        "fonts",
        own,
        f"object {dotted(DMS + (3, 2, 0))} NULL",
        _after(DMS + (3, 1, 0)),
    ]
    yield "fonts: behind an object", [own, "fonts", _get(DMS + (3, 1, 0)), _get(DMS + (3, 3, 0))]
    yield "fonts: none", [_get(DMS + (3, 1, 0)), _after(DMS + (3,))]


def cases() -> Iterator[Case]:
    for some in (_spellings, _reads, _sets, _values, _power, _fonts):
        for name, lines in some():
            answer = functools.partial(coprocess.sign_answer, Agent(text.bench()))
            said = [{"line": line, "answer": coprocess.answered(answer, line.encode())} for line in lines]
            yield {"name": name, "lines": said}

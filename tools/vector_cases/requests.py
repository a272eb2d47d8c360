"""Requests to the bench sign as it begins: the reply of each, and whether it changes the sign."""

from collections.abc import Iterator

from model import text, wire
from model.objects import DMS
from model.sign import Sign
from wisangub.snmp.names import COLUMNS, SCALARS

from .messages import NULL, Case, cell, request, scalar

_Named = tuple[str, bytes]
_STATUS = "dmsMessageStatus"


def _put(name: wire.Name, tag: int, held: object) -> bytes:
    """A Set of one object by the writer."""
    return request(wire.SET, [(name, (tag, held))])


def _of_scalars() -> Iterator[_Named]:
    for key, word in SCALARS.items():
        yield f"Get {word}", request(wire.GET, [(DMS + key + (0,), NULL)], b"public")
        yield f"GetNext before {word}", request(wire.GET_NEXT, [(DMS + key, NULL)], b"public")
        yield f"Get {word} without its instance", request(wire.GET, [(DMS + key, NULL)])
        held = Sign(text.bench()).objects.value(DMS + key + (0,))
        assert held is not None
        yield f"Set {word} to what it is, by the writer", request(wire.SET, [(DMS + key + (0,), held)])
        yield f"Set {word} by the reader", request(wire.SET, [(DMS + key + (0,), held)], b"public")
        yield f"Set {word} with a value of another type", _put(DMS + key + (0,), wire.GAUGE, 1)


def _of_cells() -> Iterator[_Named]:
    rows = ((2, 1), (2, 2), (3, 1), (3, 2), (3, 3), (4, 1), (5, 1), (7, 1), (7, 255), (7, 256), (6, 1), (3, 0))
    for column in COLUMNS.values():
        for memory, number in rows:
            name = f"Get {column}.{memory}.{number}"
            yield name, request(wire.GET, [(cell(column, memory, number), NULL)], b"public")
        yield f"GetNext of {column}", request(wire.GET_NEXT, [(cell(column)[:-2], NULL)], b"public")
        yield f"GetNext after {column}.2.1", request(wire.GET_NEXT, [(cell(column, 2, 1), NULL)], b"public")
        yield f"GetNext after {column}.7.255", request(wire.GET_NEXT, [(cell(column, 7, 255), NULL)], b"public")
        yield f"Set {column}.2.1, a permanent row", _put(cell(column, 2, 1), wire.INTEGER, 6)
        is_text = column in ("dmsMessageMultiString", "dmsMessageOwner")
        value = (wire.OCTETS, b"A") if is_text else (wire.INTEGER, 1)
        yield f"Set {column}.3.1 while the row is not used", _put(cell(column), *value)


def ranges() -> Iterator[_Named]:
    greatest = {
        "defaultBackgroundColor": 9,
        "defaultForegroundColor": 9,
        "defaultFlashOn": 255,
        "defaultFont": 2,
        "defaultJustificationLine": 4,
        "defaultJustificationPage": 4,
        "defaultPageOnTime": 255,
        "dmsShortPowerLossTime": 65535,
        "dmsTimeCommLoss": 65535,
    }
    for word, most in greatest.items():
        for number in sorted({-1, 0, 1, 2, most, most + 1}):
            yield f"Set {word} to {number}", _put(scalar(word), wire.INTEGER, number)
    for size in (4, 5, 6):
        name = f"Set dmsEndDurationMessage to {size} octets"
        yield name, _put(scalar("dmsEndDurationMessage"), wire.OCTETS, bytes(size))


def commands() -> Iterator[_Named]:
    for word, code in (
        ("the permanent message", "ffffff020001750200000000"),
        ("another checksum", "ffffff020001750300000000"),
        ("a row that is not used", "ffffff0300019a6600000000"),
        ("a row that there is not", "ffffff0200029a6600000000"),
        ("no type of memory", "ffffff0600019a6600000000"),
        ("a priority below that of what is shown", "ffff00020001750200000000"),
        ("blank message 7", "ffffff070007000000000000"),
        ("what is shown", "ffffff050001000000000000"),
        ("five minutes", "0005ff0200017502c0000201"),
    ):
        yield f"activate {word}", _put(scalar("dmsActivateMessage"), wire.OCTETS, bytes.fromhex(code))
    for status in (5, 6, 7, 8, 9):
        yield f"ask row 3.1 for status {status}", _put(cell(_STATUS), wire.INTEGER, status)


def _of_many() -> Iterator[_Named]:
    """Of several bindings."""
    one: wire.Binding = (cell(_STATUS), (wire.INTEGER, 6))
    two: wire.Binding = (cell(_STATUS, 4, 1), (wire.INTEGER, 6))
    colour: wire.Binding = (scalar("defaultForegroundColor"), (wire.INTEGER, 3))
    bad: wire.Binding = (scalar("defaultForegroundColor"), (wire.INTEGER, 10))
    unknown: wire.Binding = ((1, 3), NULL)
    sets: list[tuple[str, list[wire.Binding]]] = [
        ("two commands", [one, two]),
        ("a name twice", [colour, colour]),
        ("a value and a command", [colour, one]),
        ("a bad value after a good one", [one, bad]),
        ("no bindings", []),
        ("a bad value before an unknown name", [bad, unknown]),
        ("an unknown name before a bad value", [unknown, bad]),
    ]
    for name, bindings in sets:
        yield f"a Set with {name}", request(wire.SET, bindings)
    scheme: wire.Binding = (scalar("dmsColorScheme"), NULL)
    for count in (2, 30, 100, 200):
        yield f"a Get of {count} objects", request(wire.GET, [scheme] * min(count, 70), b"public")
        yield f"a Get of {count} short names that there are not", request(wire.GET, [unknown] * count, b"public")
        yield f"a GetNext of {count} short names", request(wire.GET_NEXT, [unknown] * count, b"public")
    yield "a GetNext past the last object", request(wire.GET_NEXT, [(DMS + (6, 24, 0), NULL)], b"public")
    yield "a GetNext of 0.0", request(wire.GET_NEXT, [((0, 0), NULL)], b"public")
    yield "a Response", request(wire.RESPONSE, [])
    yield "a community that is neither", request(wire.GET, [], b"Public")
    yield "an error-status and an error-index in a Get", request(wire.GET, [scheme], b"public", 7, 5, 9)
    yield "octets that spell no message", b"\x30\x00"


def requests() -> Iterator[_Named]:
    for some in (_of_scalars, _of_cells, ranges, commands, _of_many):
        yield from some()


def cases() -> Iterator[Case]:
    for name, octets in requests():
        sign = Sign(text.bench())
        before = {key: repr(held) for key, held in vars(sign.state).items()}
        reply, _ = sign.receive(octets)
        changes = before != {key: repr(held) for key, held in vars(sign.state).items()}
        yield {
            "name": name,
            "request": octets.hex(),
            "reply": None if reply is None else reply.hex(),
            "changes": changes,
        }

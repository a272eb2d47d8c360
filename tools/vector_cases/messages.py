"""Requests by the names of their objects."""

from collections.abc import Sequence
from typing import Any

from model import wire
from model.objects import DMS
from wisangub.snmp.names import COLUMNS, SCALARS

Case = dict[str, Any]  # a line of a file of vectors, as JSON has it
_Bindings = Sequence[wire.Binding]
NULL: wire.Tagged = (wire.NULL, b"")


def scalar(name: str) -> wire.Name:
    return DMS + next(key for key, word in SCALARS.items() if word == name) + (0,)


def cell(column: str, memory: int = 3, number: int = 1) -> wire.Name:
    return DMS + (5, 8, 1, next(key for key, word in COLUMNS.items() if word == column), memory, number)


def request(
    kind: int, bindings: _Bindings, community: bytes = b"admin", number: int = 1, status: int = 0, index: int = 0
) -> bytes:
    return wire.written(wire.Message(kind, community, number, status, index, list(bindings)))


GET_STATUS = request(wire.GET, [(cell("dmsMessageStatus"), NULL)], b"public")

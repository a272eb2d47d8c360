"""What our sign says of texts: whether one fits, and its pages."""

import re
from typing import Protocol, Sequence

from wisangub.snmp import wire
from wisangub.snmp.names import Memory, RowStatus, scalar
from wisangub.tester.requests.objects import DEFAULTS, Binding, Column, Row, integer, octets
from wisangub.tester.requests.steps import get, put

from .described import described
from .oracle import CoProcessOracle, program_of

Fault = tuple[int, int]  # a code of dmsMultiSyntaxError and its offset in octets
MOST_TEXT, TOO_BIG = 512, 5
_NO_FAULT = 2
_NOBODY = bytes(4)
_ROWS = re.compile(rb"(?m)^rows [0-9]+ [0-9]+")
_ROW = Row(Memory.CHANGEABLE, 1)
_VERDICT = (scalar("dmsMultiSyntaxError"), scalar("dmsMultiSyntaxErrorPosition"), _ROW.cell(Column.CRC))


class Judge(Protocol):
    """Who decides on texts."""

    def fault(self, text: bytes, defaults: Sequence[int]) -> Fault | None:
        """The fault of a text under these defaults, None where it fits."""

    def pages(self, text: bytes) -> list[str]:
        """The pages of a text as lines, as `signtool pages` prints them; none where it is refused."""

    def end(self) -> None:
        """It is needed no more."""


class SignJudge:
    """The program as a sign with one row, in which each text is validated. Raises what the oracle does."""

    def __init__(self, named: str, description: bytes) -> None:
        self._sign = CoProcessOracle(program_of(named), _ROWS.sub(b"rows 1 0", description, count=1))
        sign = described(description)
        self._communities, self._own = (sign.reader, sign.writer), sign.face.defaults
        self._defaults = self._own
        self._known: dict[tuple[bytes, tuple[int, ...]], Fault | None] = {}

    def fault(self, text: bytes, defaults: Sequence[int]) -> Fault | None:
        key = (text, tuple(defaults))
        if key not in self._known:
            self._known[key] = self._validated(*key)
        return self._known[key]

    def pages(self, text: bytes) -> list[str]:
        if self._validated(text, self._own) is not None:
            return []
        code = bytes([255, 255, 255, _ROW.memory, 0, _ROW.number]) + self._read()[2].to_bytes(2, "big") + _NOBODY
        self._put((scalar("dmsActivateMessage"), octets(code)))
        return [line.decode("latin-1") for line in self._sign.lines(b"show")[:-1]]

    def end(self) -> None:
        self._sign.end()

    def _validated(self, text: bytes, defaults: tuple[int, ...]) -> Fault | None:
        """The fault of a text, which stands in the row afterwards."""
        if len(text) > MOST_TEXT:
            return TOO_BIG, MOST_TEXT
        if defaults != self._defaults:
            self._put(*[(name, integer(value)) for name, value in zip(DEFAULTS, defaults)])
            self._defaults = defaults
        self._put(_ROW.status(RowStatus.MODIFY_REQ))
        self._put(_ROW.text(text))
        self._put(_ROW.status(RowStatus.VALIDATE_REQ))
        self._sign.tick()
        code, offset, _ = self._read()
        return None if code == _NO_FAULT else (code, offset)

    def _put(self, *bindings: Binding) -> None:
        self._sign.datagram(put(*bindings).octets(1, self._communities))

    def _read(self) -> list[int]:
        """The code of the fault, its offset, and the row's checksum."""
        reply = self._sign.datagram(get(*_VERDICT).octets(1, self._communities))
        return [int(held) for _, (_, held) in wire.read(reply or b"").bindings]

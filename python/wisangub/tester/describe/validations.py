"""A row of the sign in which texts are validated, and what the sign says of each."""

from dataclasses import dataclass, field

from wisangub.snmp import wire
from wisangub.snmp.names import RowStatus, scalar
from wisangub.tester.requests.objects import Column, Name, Row, Value, integer, octets
from wisangub.tester.sign.way import Stopped

from .client import Client

NONE, BEACONS, PIXELS, SYNTAX = 2, 3, 4, 5  # values of dmsValidateMessageError
NO_TAG, TOO_BIG, NO_FONT, NO_CHARACTER = 3, 5, 6, 7  # values of dmsMultiSyntaxError
_VERDICT = [scalar(word) for word in ("dmsValidateMessageError", "dmsMultiSyntaxError", "dmsMultiSyntaxErrorPosition")]
_FIELDS = (Column.TEXT, Column.OWNER, Column.BEACON, Column.PIXEL_SERVICE, Column.PRIORITY)
_LONGEST, _TRIES = 20.0, 12  # seconds that a row may validate; times that a text is written until it stays
_POLL, _EARLY = 0.015, 0.03  # seconds between two looks, and before the second at which the row is to settle


class Unlike(Exception):
    """The sign does not do what the profile says, in words; so texts do not tell what it is."""


@dataclass(frozen=True)
class Verdict:
    """What a validation found: dmsValidateMessageError, the fault of the text with its offset, and the row's checksum
    as it reads."""

    error: int
    code: int
    at: int
    checksum: int

    @property
    def is_fit(self) -> bool:
        return self.error == NONE


@dataclass
class Validations:
    """Texts are written to one row and validated, one a second of the sign. `before` is what the row held."""

    client: Client
    row: Row
    count: int = 0
    before: dict[Name, Value] = field(default_factory=dict)
    verdict: dict[Name, Value] = field(default_factory=dict)  # the last one of before
    _settled_at: float | None = None

    def begin(self) -> None:
        """What the row holds is read, to be put back."""
        names = [self.row.cell(column) for column in (*_FIELDS, Column.STATUS)]
        self.before = self.client.read(names)
        self.verdict = self.client.read(_VERDICT)

    def has(self, column: Column) -> bool:
        """Whether the row has this column."""
        return self.row.cell(column) in self.before

    def ask(self, text: bytes, beacon: int = 0, pixel: int = 0) -> Verdict:
        """What the sign says of a text. Raises Unlike where it does not take it, Stopped where it does not answer."""
        for _ in range(_TRIES):
            if self._written(text, beacon, pixel) and (verdict := self._verdict(text)) is not None:
                self.count += 1
                return verdict
        raise Unlike(f"a text that is written to {self._name()} does not stay there, or is not validated")

    def _name(self) -> str:
        return f"row {self.row.memory}.{self.row.number}"

    def _written(self, text: bytes, beacon: int, pixel: int) -> bool:
        """Whether the row is asked to validate this text."""
        row, client = self.row, self.client
        if client.put(row.status(RowStatus.MODIFY_REQ)) != wire.NO_ERROR:
            self._wait()  # it may be validating since a request came late
            return False
        fields = [row.text(text)]
        fields += [row.beacon(beacon)] if self.has(Column.BEACON) else []
        fields += [row.pixel(pixel)] if self.has(Column.PIXEL_SERVICE) else []
        if client.put(*fields) != wire.NO_ERROR:
            return False
        client.put(row.status(RowStatus.VALIDATE_REQ))  # refused where it came before and its reply was lost
        return True

    def _wait(self) -> None:
        """Until the row is not validating any more."""
        self._looked([])

    def _looked(self, names: list[Name]) -> dict[Name, Value]:
        """What the row's status and these names read once the row is not validating. Raises Unlike after too long."""
        status, clock = self.row.cell(Column.STATUS), self.client.port.clock
        begun, is_seen = clock.now(), False
        due = begun
        if self._settled_at is not None:
            due = self._settled_at + int(begun - self._settled_at) + 1 - _EARLY
        while (read := self.client.read([status, *names])).get(status) == integer(RowStatus.VALIDATING):
            if clock.now() > begun + _LONGEST:
                raise Unlike(f"{self._name()} is validating for longer than {_LONGEST:g} s")
            is_seen = True
            clock.sleep_until(max(clock.now() + _POLL, due))
        if is_seen:
            self._settled_at = clock.now()
        return read

    def _verdict(self, text: bytes) -> Verdict | None:
        """The verdict on the row; None where it is not of this text, or the row was not validated."""
        status, held, checksum = (self.row.cell(column) for column in (Column.STATUS, Column.TEXT, Column.CRC))
        read = self._looked([held, checksum, *_VERDICT])
        found = {name: value for name, (_, value) in read.items() if isinstance(value, int)}
        if found.get(status) not in (RowStatus.VALID, RowStatus.ERROR) or read.get(held) != octets(text):
            return None
        error, code, at = (found.get(name, 0) for name in _VERDICT)
        if (error == NONE) != (found[status] == RowStatus.VALID):
            return None
        return Verdict(error, code, at, found.get(checksum, 0))

    def put_back(self) -> None:
        """The row as it was, and if it can be the last verdict."""
        row, status = self.row, self.row.cell(Column.STATUS)
        if not self.is_verdict_back() and self.verdict.get(_VERDICT[0]) == integer(NONE):
            self.ask(b"")
        self._wait()
        if self.before.get(status) in (None, integer(RowStatus.NOT_USED)):
            self.client.put(row.status(RowStatus.NOT_USED_REQ))
            return
        self.client.put(row.status(RowStatus.MODIFY_REQ))
        for name in (row.cell(column) for column in _FIELDS):
            if name in self.before:
                self.client.put((name, self.before[name]))
        if self.before[status] != integer(RowStatus.MODIFYING):
            self.client.put(row.status(RowStatus.VALIDATE_REQ))
            self._wait()

    def not_back(self) -> list[str]:
        """The row in words, where it does not read as before; of one that was not used the status alone counts."""
        status = self.row.cell(Column.STATUS)
        is_used = self.before.get(status) != integer(RowStatus.NOT_USED)
        before = self.before if is_used else {status: self.before[status]}
        return [] if self.client.read(list(before)) == before else [self._name()]

    def is_verdict_back(self) -> bool:
        """Whether the last verdict on a text reads as before."""
        return self.client.read(_VERDICT) == self.verdict


def unused(client: Client, rows: list[Row]) -> Row:
    """A row that is not in use; where all are, the last, which is put back as it was. Raises Stopped for no row."""
    if not rows:
        raise Stopped("the sign has no row in which a text could be validated")
    for at in range(len(rows) - 1, -1, -10):
        some = rows[max(0, at - 9) : at + 1]
        read = client.numbers([row.cell(Column.STATUS) for row in some])
        for row in reversed(some):
            if read.get(row.cell(Column.STATUS)) == RowStatus.NOT_USED:
                return row
    return rows[-1]

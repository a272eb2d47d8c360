"""The rows of the signs' tables: the status of each, and what those hold that are in use."""

import json
import re
from functools import partial
from typing import Iterable, Mapping

from wisangub.endpoint.asking import Name, Values
from wisangub.room.fleet import Sign
from wisangub.room.store.messages import RowSaid
from wisangub.room.store.store import Store
from wisangub.snmp.names import Memory, RowStatus, cell

from .gets import Gets
from .passes import Pass, Passes

_EVERY = 600.0  # seconds from one reading of a sign's table to the next, where nobody wants it before
_STATUSES = 30  # rows whose status one Get asks for, so that its reply fits a datagram
_STATUS = "dmsMessageStatus"
_CELLS = {
    "text": "dmsMessageMultiString",
    "owner": "dmsMessageOwner",
    "checksum": "dmsMessageCRC",
    "beacon": "dmsMessageBeacon",
    "pixel": "dmsMessagePixelService",
    "priority": "dmsMessageRunTimePriority",
}
_ROWS = re.compile(rb"^rows ([0-9]+) ([0-9]+)\r?$", re.MULTILINE)
_PERMANENT = re.compile(rb"^permanent ", re.MULTILINE)
_Place = tuple[int, int]  # memory and number


def _places(sign: Sign) -> list[_Place]:
    """The rows that the description gives the sign: permanent (2), changeable (3) and volatile (4) ones."""
    found = _ROWS.search(sign.text)
    changeable, volatile = (int(found[1]), int(found[2])) if found else (0, 0)
    counts = {
        Memory.PERMANENT: len(_PERMANENT.findall(sign.text)),
        Memory.CHANGEABLE: changeable,
        Memory.VOLATILE: volatile,
    }
    return [(memory, number) for memory, count in counts.items() for number in range(1, count + 1)]


class TablePass(Pass):
    """One reading of one sign's table, a Get after the other."""

    def __init__(self, tables: "Tables", sign_id: int, sign: Sign) -> None:
        super().__init__(sign_id, sign)
        self.tables = tables
        self.to_ask = _places(sign)
        self.used: list[tuple[_Place, int]] = []

    @property
    def is_done(self) -> bool:
        return not self.to_ask and not self.used

    def go_on(self, number: int) -> None:
        """The next Get: for the statuses first, then for the rows that are in use."""
        if self.to_ask:
            asked, self.to_ask = self.to_ask[:_STATUSES], self.to_ask[_STATUSES:]
            names = [cell(_STATUS, *place) for place in asked]
            self.ask(number, names, partial(self.statuses, asked))
        else:
            place, status = self.used.pop(0)
            names = [cell(column, *place) for column in _CELLS.values()]
            self.ask(number, names, partial(self.held, place, status))

    def ask(self, number: int, names: list[Name], take: "partial[None]") -> None:
        self.tables.gets.begin(self.sign, number, names, partial(self.end, take, number))

    def end(self, take: "partial[None]", number: int, values: Values | str) -> None:
        """A sign that does not answer is asked again at the next time; else its table is read on."""
        if isinstance(values, str):
            self.tables.going.discard(self.sign_id)
            return
        take(number, values)
        self.tables.ready.append(self)

    def statuses(self, asked: list[_Place], number: int, values: Values) -> None:
        for place, status in zip(asked, values):
            if isinstance(status, int) and status != RowStatus.NOT_USED:
                self.used.append((place, status))
            elif isinstance(status, int):
                self.tables.said.append(RowSaid(self.sign_id, *place, number, status, None))

    def held(self, place: _Place, status: int, number: int, values: Values) -> None:
        cells = json.dumps(dict(zip(_CELLS, values)))
        self.tables.said.append(RowSaid(self.sign_id, *place, number, status, cells))


class Tables(Passes[TablePass]):
    """The tables that are being read."""

    def __init__(self, store: Store, signs: dict[int, Sign], gets: Gets) -> None:
        super().__init__(store, signs, gets)
        self.said: list[RowSaid] = []

    def to_read(self) -> list[int]:
        return self.store.messages.to_read(_EVERY)

    def due(self, signs: Mapping[int, Sign]) -> Iterable[TablePass]:
        return [TablePass(self, one, signs[one]) for one in self.store.messages.due([*signs], _EVERY)]

    def keep(self) -> None:
        """Puts what was said since the last time into the database."""
        said, self.said = self.said, []
        self.store.messages.keep(said)

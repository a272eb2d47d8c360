"""What the page asks the sign for by Gets of the reading community: rows, defaults, and what was refused last.

A Get that is answered ends a silence. So it is handed over only where there is none: where dmsTimeCommLoss is 0, which
counts no second, or where a datagram was answered since the last one. There it changes nothing at all, and so needs no
record in a journal.
"""

from collections.abc import Iterator, Sequence
from dataclasses import dataclass

from wisangub.endpoint.sign_front_end import line_of
from wisangub.process.coprocess import CoProcess
from wisangub.snmp import wire
from wisangub.snmp.names import DMS, Memory, Name, RowStatus, cell, scalar

DEFAULTS = tuple((*DMS, 4, number, 0) for number in range(1, 10))  # in a description's order
SIZES = {
    Memory.PERMANENT: scalar("dmsNumPermanentMsg"),
    Memory.CHANGEABLE: scalar("dmsMaxChangeableMsg"),
    Memory.VOLATILE: scalar("dmsMaxVolatileMsg"),
}
OF_SHOWN = tuple(
    cell(word, Memory.CURRENT, 1) for word in ("dmsMessageOwner", "dmsMessageBeacon", "dmsMessagePixelService")
)
SILENCE = scalar("dmsTimeCommLoss")
REQUESTER = scalar("dmsMsgRequesterID")
REPORTS = tuple(
    scalar(word)
    for word in (
        "dmsActivateMsgError",
        "dmsActivateErrorMsgCode",
        "dmsValidateMessageError",
        "dmsMultiSyntaxError",
        "dmsMultiSyntaxErrorPosition",
    )
)
SCALARS = (*DEFAULTS, *SIZES.values(), *OF_SHOWN, SILENCE, REQUESTER, *REPORTS)
COLUMNS = (
    "dmsMessageMultiString",
    "dmsMessageOwner",
    "dmsMessageCRC",
    "dmsMessageBeacon",
    "dmsMessagePixelService",
    "dmsMessageRunTimePriority",
)
MOST_NAMES = 40  # of a Get: what it answers fits a datagram
Place = tuple[Memory, int]


@dataclass(frozen=True)
class Row:
    """A row of the message table that is used."""

    memory: Memory
    number: int
    status: int
    text: bytes
    owner: bytes
    checksum: int
    beacon: int
    pixel: int
    priority: int


@dataclass(frozen=True)
class Reading:
    """The values of objects by their names, the rows that are used, and how many are not."""

    values: dict[Name, wire.Tagged]
    rows: tuple[Row, ...]
    unused: dict[Memory, int]

    def number(self, name: Name) -> int:
        """The number that an object has."""
        return int(self.values[name][1])

    def octets(self, name: Name) -> bytes:
        """The octets that an object has."""
        return bytes(self.values[name][1])

    @property
    def defaults(self) -> tuple[int, ...]:
        return tuple(map(self.number, DEFAULTS))

    @property
    def silence(self) -> int:
        """dmsTimeCommLoss, in minutes."""
        return self.number(SILENCE)

    @property
    def is_validating(self) -> bool:
        """Whether the next second changes a row."""
        return any(row.status == RowStatus.VALIDATING for row in self.rows)


def grouped(names: Sequence[Name]) -> Iterator[Sequence[Name]]:
    """Names for one Get after the other."""
    for at in range(0, len(names), MOST_NAMES):
        yield names[at : at + MOST_NAMES]


class Asker:
    """Asks a sign that answers its reading community."""

    def __init__(self, sign: CoProcess, reader: bytes) -> None:
        self.sign, self.reader, self.number = sign, reader, 0

    def values(self, groups: Sequence[Sequence[Name]]) -> list[wire.Tagged] | None:
        """The values of the names, a Get a group; None where the sign does not answer, since its power is off."""
        lines = []
        for names in groups:
            self.number = self.number % 1_000_000 + 1
            lines.append(line_of(wire.get(self.reader, self.number, names)))
        found: list[wire.Tagged] = []
        for answer in self.sign.hand(lines) if lines else []:
            word, _, rest = answer.partition(b" ")
            reply = wire.spelled(bytes.fromhex(rest.decode("ascii"))) if word == b"reply" else None
            if reply is None or reply.status:
                return None
            found += [value for _, value in reply.bindings]
        return found

    def read(self) -> Reading | None:
        """All that the page shows of objects."""
        found = self.values([SCALARS])
        if found is None:
            return None
        values = dict(zip(SCALARS, found))
        places = [(memory, row) for memory, name in SIZES.items() for row in range(1, int(values[name][1]) + 1)]
        statuses = self.values(list(grouped([cell("dmsMessageStatus", *place) for place in places])))
        if statuses is None:
            return None
        used = [(place, int(status[1])) for place, status in zip(places, statuses) if status[1] != RowStatus.NOT_USED]
        rows = self.rows(used)
        unused = {memory: int(values[SIZES[memory]][1]) for memory in SIZES}
        for (memory, _), _ in used:
            unused[memory] -= 1
        return Reading(values, rows, unused) if rows is not None else None

    def rows(self, used: list[tuple[Place, int]]) -> tuple[Row, ...] | None:
        """The rows at these places, which have these statuses."""
        found = self.values([[cell(word, *place) for word in COLUMNS] for place, _ in used])
        if found is None:
            return None
        held = [[value for _, value in found[at : at + len(COLUMNS)]] for at in range(0, len(found), len(COLUMNS))]
        return tuple(Row(*place, status, *values) for (place, status), values in zip(used, held))

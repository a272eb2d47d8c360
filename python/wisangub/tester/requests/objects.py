"""The objects of a sign by name, and requests about them."""

import enum
from dataclasses import dataclass

from wisangub.snmp import wire
from wisangub.snmp.names import COLUMNS, DMS, SCALARS, TABLE, Memory, RowStatus, scalar

Name = tuple[int, ...]
Value = tuple[int, int | bytes | Name]
Binding = tuple[Name, Value]

NULL: Value = (wire.NULL, b"")
NO_ADDRESS = bytes(4)
# the defaults in the order of a description
DEFAULTS = tuple(
    scalar(word)
    for word in (
        "defaultBackgroundColor",
        "defaultForegroundColor",
        "defaultFlashOn",
        "defaultFlashOff",
        "defaultFont",
        "defaultJustificationLine",
        "defaultJustificationPage",
        "defaultPageOnTime",
        "defaultPageOffTime",
    )
)
# codes of what the sign activates by itself
OWN_CODES = tuple(
    scalar(word)
    for word in (
        "dmsShortPowerRecoveryMessage",
        "dmsLongPowerRecoveryMessage",
        "dmsCommunicationsLossMessage",
        "dmsPowerLossMessage",
        "dmsEndDurationMessage",
    )
)
# the numbers that objects take
RANGES: dict[str, tuple[int, int]] = {
    "defaultBackgroundColor": (0, 9),
    "defaultForegroundColor": (0, 9),
    "defaultFlashOn": (0, 255),
    "defaultFlashOff": (0, 255),
    "defaultJustificationLine": (2, 4),
    "defaultJustificationPage": (2, 4),
    "defaultPageOnTime": (0, 255),
    "defaultPageOffTime": (0, 255),
    "dmsShortPowerLossTime": (0, 65535),
    "dmsTimeCommLoss": (0, 65535),
    "dmsMessageTimeRemaining": (0, 65535),
    "dmsMessageBeacon": (0, 1),
    "dmsMessagePixelService": (0, 1),
    "dmsMessageRunTimePriority": (1, 255),
}
COMMANDS = ("dmsActivateMessage", "dmsMessageTimeRemaining")  # what a SET writes and a sign acts on


class Column(enum.IntEnum):
    """Columns of dmsMessageTable."""

    MEMORY_TYPE, NUMBER, TEXT, OWNER, CRC, BEACON, PIXEL_SERVICE, PRIORITY, STATUS = range(1, 10)


class SourceMode(enum.IntEnum):
    """Values of dmsMsgSourceMode that this profile has."""

    CENTRAL, POWER_RECOVERY, COMM_LOSS, POWER_LOSS, END_DURATION = 8, 10, 12, 13, 14


class Cause(enum.IntEnum):
    """Values of dmsActivateMsgError."""

    OTHER, NONE, PRIORITY, STATUS, MEMORY_TYPE, NUMBER, CRC, SYNTAX = range(1, 9)


def instance(group: int, member: int) -> Name:
    """The instance 0 of what has this place below dms, be there such an object or not."""
    return (*DMS, group, member, 0)


def cell(column: int, memory: int, number: int) -> Name:
    """A cell of the message table, be there such a row and column or not."""
    return (*TABLE, int(column), int(memory), number)


def after_dms(name: Name) -> Name | None:
    """What stands after dms, or None where the name does not begin with it."""
    return name[len(DMS) :] if name[: len(DMS)] == DMS else None


def column_of(name: Name) -> int | None:
    """The column of a cell of the message table."""
    rest = after_dms(name)
    return rest[3] if rest and len(rest) == 6 and rest[:3] == (5, 8, 1) else None


def row_of(name: Name) -> tuple[int, int] | None:
    """Type of memory and number of a cell of the message table."""
    rest = after_dms(name)
    return (rest[4], rest[5]) if rest and len(rest) == 6 and rest[:3] == (5, 8, 1) else None


def is_validation(name: Name, value: Value) -> bool:
    """Whether a binding asks a row to validate."""
    return column_of(name) == Column.STATUS and value == (wire.INTEGER, RowStatus.VALIDATE_REQ)


def object_of(name: Name) -> tuple[int, ...]:
    """A name without its instance."""
    rest = after_dms(name) or ()
    return rest[:4] if rest[:3] == (5, 8, 1) else rest[:2]


def word_of(name: Name) -> str:
    """The scalar whose instance .0 this is; no word for what is none."""
    rest = after_dms(name)
    return SCALARS.get((rest[0], rest[1]), "") if rest and len(rest) == 3 and rest[2] == 0 else ""


def spoken(name: Name) -> str:
    """A name for readers: the object and its instance, or its numbers."""
    rest = after_dms(name)
    if rest is None:
        return ".".join(map(str, name))
    if len(rest) > 1 and (rest[0], rest[1]) in SCALARS:
        return ".".join([SCALARS[rest[0], rest[1]], *map(str, rest[2:])])
    if rest[:3] == (5, 8, 1) and len(rest) > 3 and rest[3] in COLUMNS:
        return ".".join([COLUMNS[rest[3]], *map(str, rest[4:])])
    return ".".join(["dms", *map(str, rest)])


def integer(number: int) -> Value:
    """An INTEGER of a binding."""
    return wire.INTEGER, int(number)


def octets(held: bytes) -> Value:
    """An OCTET STRING of a binding."""
    return wire.OCTETS, held


@dataclass(frozen=True)
class Row:
    """A row of the message table by its name."""

    memory: int
    number: int

    def cell(self, column: int) -> Name:
        return cell(column, self.memory, self.number)

    def text(self, held: bytes) -> Binding:
        return self.cell(Column.TEXT), octets(held)

    def owner(self, held: bytes) -> Binding:
        return self.cell(Column.OWNER), octets(held)

    def beacon(self, held: int) -> Binding:
        return self.cell(Column.BEACON), integer(held)

    def pixel(self, held: int) -> Binding:
        return self.cell(Column.PIXEL_SERVICE), integer(held)

    def priority(self, held: int) -> Binding:
        return self.cell(Column.PRIORITY), integer(held)

    def status(self, asked: int) -> Binding:
        return self.cell(Column.STATUS), integer(asked)


# how many rows there are and may be, and what is free for them
COUNTS = tuple(
    scalar(word)
    for word in (
        "dmsNumPermanentMsg",
        "dmsNumChangeableMsg",
        "dmsMaxChangeableMsg",
        "dmsFreeChangeableMemory",
        "dmsNumVolatileMsg",
        "dmsMaxVolatileMsg",
        "dmsFreeVolatileMemory",
    )
)
_FIXED = (
    "vmsSignHeightPixels",
    "vmsSignWidthPixels",
    "dmsColorScheme",
    "dmsNumPermanentMsg",
    "dmsMaxChangeableMsg",
    "dmsMaxVolatileMsg",
)
# what a SET may change, and what reports of it: every scalar that is not fixed
STATE_SCALARS = [scalar(word) for word in SCALARS.values() if word not in _FIXED]
SHOWN_CELLS = [cell(column, Memory.CURRENT, 1) for column in Column]
REPORTS = (
    "dmsValidateMessageError",
    "dmsActivateMessage",
    "dmsMessageTimeRemaining",
    "dmsMsgTableSource",
    "dmsMsgRequesterID",
    "dmsMsgSourceMode",
    "dmsActivateMsgError",
    "dmsMultiSyntaxError",
    "dmsMultiSyntaxErrorPosition",
    "dmsActivateErrorMsgCode",
)
EXECUTIVE = [scalar(word) for word in REPORTS]

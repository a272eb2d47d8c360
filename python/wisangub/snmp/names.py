"""Objects of a sign by the names of the MIB, and the words of kinds, types and statuses. mibs/DMS-PROFILE-MIB has the
same names (a test compares them), with the words of values: `mib` reads it where it is here."""

import enum

from . import wire

Name = tuple[int, ...]
DMS: Name = (1, 3, 6, 1, 4, 1, 1206, 4, 2, 3)
TABLE: Name = (*DMS, 5, 8, 1)  # an entry of dmsMessageTable
COLUMNS = {
    1: "dmsMessageMemoryType",
    2: "dmsMessageNumber",
    3: "dmsMessageMultiString",
    4: "dmsMessageOwner",
    5: "dmsMessageCRC",
    6: "dmsMessageBeacon",
    7: "dmsMessagePixelService",
    8: "dmsMessageRunTimePriority",
    9: "dmsMessageStatus",
}
SCALARS = {
    (2, 3): "vmsSignHeightPixels",
    (2, 4): "vmsSignWidthPixels",
    (4, 1): "defaultBackgroundColor",
    (4, 2): "defaultForegroundColor",
    (4, 3): "defaultFlashOn",
    (4, 4): "defaultFlashOff",
    (4, 5): "defaultFont",
    (4, 6): "defaultJustificationLine",
    (4, 7): "defaultJustificationPage",
    (4, 8): "defaultPageOnTime",
    (4, 9): "defaultPageOffTime",
    (4, 11): "dmsColorScheme",
    (5, 1): "dmsNumPermanentMsg",
    (5, 2): "dmsNumChangeableMsg",
    (5, 3): "dmsMaxChangeableMsg",
    (5, 4): "dmsFreeChangeableMemory",
    (5, 5): "dmsNumVolatileMsg",
    (5, 6): "dmsMaxVolatileMsg",
    (5, 7): "dmsFreeVolatileMemory",
    (5, 9): "dmsValidateMessageError",
    (6, 3): "dmsActivateMessage",
    (6, 4): "dmsMessageTimeRemaining",
    (6, 5): "dmsMsgTableSource",
    (6, 6): "dmsMsgRequesterID",
    (6, 7): "dmsMsgSourceMode",
    (6, 8): "dmsShortPowerRecoveryMessage",
    (6, 9): "dmsLongPowerRecoveryMessage",
    (6, 10): "dmsShortPowerLossTime",
    (6, 12): "dmsCommunicationsLossMessage",
    (6, 13): "dmsTimeCommLoss",
    (6, 14): "dmsPowerLossMessage",
    (6, 15): "dmsEndDurationMessage",
    (6, 17): "dmsActivateMsgError",
    (6, 18): "dmsMultiSyntaxError",
    (6, 19): "dmsMultiSyntaxErrorPosition",
    (6, 24): "dmsActivateErrorMsgCode",
}
# without the number of an instance
OBJECTS: dict[str, Name] = {word: (*DMS, *place) for place, word in SCALARS.items()} | {
    word: (*TABLE, column) for column, word in COLUMNS.items()
}
KINDS = {wire.GET: "Get", wire.GET_NEXT: "GetNext", wire.RESPONSE: "Response", wire.SET: "Set"}
TYPES = {
    wire.INTEGER: "INTEGER",
    wire.OCTETS: "OCTET STRING",
    wire.NULL: "NULL",
    wire.NAME: "OBJECT IDENTIFIER",
    wire.ADDRESS: "IpAddress",
    wire.COUNTER: "Counter",
    wire.GAUGE: "Gauge",
    wire.TICKS: "TimeTicks",
    wire.OPAQUE: "Opaque",
}
_STATUSES = ("noError", "tooBig", "noSuchName", "badValue", "readOnly", "genErr")


class Memory(enum.IntEnum):
    """Values of dmsMessageMemoryType (NTCIP 1203)."""

    PERMANENT, CHANGEABLE, VOLATILE, CURRENT, SCHEDULE, BLANK = range(2, 8)


class RowStatus(enum.IntEnum):
    """Values of dmsMessageStatus; the last three are written alone."""

    NOT_USED, MODIFYING, VALIDATING, VALID, ERROR, MODIFY_REQ, VALIDATE_REQ, NOT_USED_REQ = range(1, 9)


def scalar(word: str) -> Name:
    """The instance of a scalar by its name: `scalar("dmsActivateMessage")`."""
    return (*OBJECTS[word], 0)


def cell(word: str, memory: int, number: int) -> Name:
    """A cell of the message table by its column's name: `cell("dmsMessageStatus", Memory.CHANGEABLE, 1)`."""
    return (*OBJECTS[word], memory, number)


def status_word(status: int) -> str:
    """An error-status in RFC 1157's word."""
    return _STATUSES[status] if 0 <= status < len(_STATUSES) else str(status)

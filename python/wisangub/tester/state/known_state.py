"""The known state, object by object, and what is told of an object that cannot be brought there."""

from dataclasses import dataclass
from typing import Iterable

from wisangub.snmp import wire
from wisangub.snmp.names import Memory, RowStatus, scalar
from wisangub.tester.context import Context
from wisangub.tester.requests.messages import spelled
from wisangub.tester.requests.objects import (
    DEFAULTS,
    NO_ADDRESS,
    OWN_CODES,
    Cause,
    Column,
    Name,
    Row,
    SourceMode,
    Value,
    integer,
    octets,
)
from wisangub.tester.requests.steps import Ask, Step, Wait, get, put

_A_ROW = 512  # octets of text for which a row is free
VERDICTS = (scalar("dmsValidateMessageError"), scalar("dmsMultiSyntaxError"), scalar("dmsMultiSyntaxErrorPosition"))


class Unreachable(Exception):
    """The known state cannot be reached: these objects stay."""

    def __init__(self, unreached: "list[Unreached]") -> None:
        super().__init__(f"{len(unreached)} objects cannot be brought to the known state")
        self.unreached = unreached


@dataclass
class Unreached:
    """An object that cannot be brought to its value, with the last request for it and the reply."""

    name: Name
    wanted: Value
    read: Value | None
    request: Ask
    reply: bytes | None

    def is_refused(self) -> bool:
        """Whether the sign did not take the request that is to bring it there."""
        message = spelled(self.reply or b"")
        is_set = self.request.kind == wire.SET and self.name != scalar("dmsActivateErrorMsgCode")
        return is_set and (message is None or message.status != wire.NO_ERROR)

    def steps(self, row: Row | None) -> list[Step]:
        """What is to bring the object there, and a read of it."""
        if self.name in VERDICTS and row is not None:
            return [
                put(row.status(RowStatus.MODIFY_REQ)),
                put(row.status(RowStatus.VALIDATE_REQ)),
                Wait(1),
                get(self.name),
            ]
        return [self.request, get(self.name)] if self.request.kind == wire.SET else [self.request]


@dataclass
class KnownState:
    """What the objects of a sign read in the known state."""

    context: Context

    def settings(self) -> dict[Name, Value]:
        """What is set directly."""
        wanted = {name: integer(value) for name, value in zip(DEFAULTS, self.context.defaults)}
        wanted |= {name: octets(self.context.blank) for name in OWN_CODES}
        wanted |= {scalar("dmsShortPowerLossTime"): integer(0), scalar("dmsTimeCommLoss"): integer(0)}
        return self._taken(wanted)

    def verdicts(self) -> dict[Name, Value]:
        """What a validation of an empty row leaves."""
        if not self.context.rows:
            return {}
        return {
            scalar("dmsValidateMessageError"): integer(2),
            scalar("dmsMultiSyntaxError"): integer(2),
            scalar("dmsMultiSyntaxErrorPosition"): integer(0),
        }

    def shown(self) -> dict[Name, Value]:
        """What the activation of blank message 1 leaves."""
        return {
            scalar("dmsActivateMessage"): octets(self.context.known_code),
            scalar("dmsMessageTimeRemaining"): integer(65535),
            scalar("dmsMsgTableSource"): octets(self.context.blank),
            scalar("dmsMsgRequesterID"): (wire.ADDRESS, NO_ADDRESS),
            scalar("dmsMsgSourceMode"): integer(SourceMode.CENTRAL),
            scalar("dmsActivateMsgError"): integer(Cause.NONE),
        }

    def refused(self) -> dict[Name, Value]:
        """What a refused activation leaves."""
        return {scalar("dmsActivateErrorMsgCode"): octets(self.context.refused_code)}

    def unused(self) -> dict[Name, Value]:
        """The status of every row and what is free for texts, where no row is used."""
        free = {Memory.CHANGEABLE: "dmsFreeChangeableMemory", Memory.VOLATILE: "dmsFreeVolatileMemory"}
        counts = {memory: sum(row.memory == memory for row in self.context.rows) for memory in free}
        held = {scalar(word): integer(_A_ROW * counts[memory]) for memory, word in free.items()}
        return held | {row.cell(Column.STATUS): integer(RowStatus.NOT_USED) for row in self.context.rows}

    def emptied(self, row: Row) -> dict[Name, Value]:
        """The fields of a row that is not used."""
        return self._taken(dict([row.text(b""), row.owner(b""), row.beacon(0), row.pixel(0), row.priority(1)]))

    def is_steady(self, name: Name) -> bool:
        """Whether an object is set directly, and reads the same whatever seconds pass."""
        return name in self.settings()

    def _taken(self, wanted: dict[Name, Value]) -> dict[Name, Value]:
        """Those that the sign claims to take."""
        return {name: value for name, value in wanted.items() if self.context.claims.is_taken((name, value))}

    def all(self, rows: Iterable[Row]) -> dict[Name, Value]:
        """Everything, for these rows."""
        rows = list(rows)
        wanted: dict[Name, Value] = {row.cell(Column.STATUS): integer(RowStatus.NOT_USED) for row in rows}
        for row in rows:
            wanted |= self.emptied(row)
        return wanted | self.settings() | self.verdicts() | self.refused() | self.shown()

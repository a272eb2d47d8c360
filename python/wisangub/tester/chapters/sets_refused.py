"""SET: one that is refused writes nothing of what is beside the cause, before it and behind it."""

from typing import Iterator

from wisangub.snmp.names import RowStatus, scalar
from wisangub.tester.context import Context, activation
from wisangub.tester.requests.objects import Binding, Row, integer, octets
from wisangub.tester.requests.steps import Step, put

from .block import Block, fill, look, modify
from .sets_values import other_values


def _causes(context: Context) -> Iterator[tuple[str, str, Binding]]:
    """Bindings that are refused, or commands that fail, by their rules."""
    yield "a name that is not written", "order of causes", (scalar("vmsSignHeightPixels"), integer(1))
    yield "a bad value", "order of causes", (scalar("dmsMessageTimeRemaining"), integer(65536))
    yield "a code of eleven octets", "order of causes", (scalar("dmsActivateMessage"), octets(bytes(11)))
    yield "an activation that fails", "failed command", activation(context.code(Row(9, 1), 0x77))
    for row in context.rows[:1]:
        code = activation(context.code(row, context.crc(context.character())))
        yield "an activation of a row that is modified", "failed command", code
        yield "a status that is none", "order of causes", row.status(RowStatus.NOT_USED_REQ + 1)
    for row in context.rows[1:][-1:]:
        yield "a validation that fails", "failed command", row.status(RowStatus.VALIDATE_REQ)
        yield "a field of a row that is not used", "order of causes", row.owner(b"C")


def refused(context: Context) -> Iterator[Block]:
    """All that may be written and the fields of a row beside each cause, and beside a name that is given twice."""
    rows = context.rows[:1]
    beside = other_values(context)
    for row in rows:
        beside += fill(row, b"A", b"B", 1, 1, 9).bindings
    begun: list[Step] = [modify(row) for row in rows]
    for name, rule, wrong in _causes(context):
        steps = [put(*beside, wrong), *look(*rows), put(wrong, *beside), *look(*rows)]
        yield Block(f"{name} beside all that may be written", rule, [*begun, *steps], True)
    again = [put(*beside, beside[0]), *look(*rows), put(beside[-1], *beside), *look(*rows)]
    yield Block("a name twice beside all that may be written", "twice", [*begun, *again], True)

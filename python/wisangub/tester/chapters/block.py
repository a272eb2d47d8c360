"""What a chapter is made of, and the steps that many chapters begin with."""

from dataclasses import dataclass
from typing import Callable, Iterator, Sequence

from wisangub.snmp.names import RowStatus
from wisangub.tester.context import Context
from wisangub.tester.findings.trace import Case
from wisangub.tester.requests.objects import EXECUTIVE, SHOWN_CELLS, STATE_SCALARS, Binding, Column, Name, Row
from wisangub.tester.requests.steps import Ask, Step, Wait, get, looks, put


@dataclass
class Block:
    """Steps that belong together. `rule` is broken by a difference in a step that names none itself.

    A `fresh` block begins in the known state; another in the state that the one before it left.
    """

    name: str
    rule: str
    steps: Sequence[Step]
    is_fresh: bool = False
    parts: Sequence["Block"] = ()  # what tells it more closely where this block differs
    texts: tuple[bytes, ...] = ()  # of those that validation knows, what it sends
    plain: "Block | None" = None  # the same without a text that it carries besides
    alone: "Block | None" = None  # the same without what was done before it, where that is in its steps
    case: Case | None = None  # its place in the report


@dataclass
class Chapter:
    """The cases about one part of the profile."""

    name: str
    title: str
    blocks: Callable[[Context], Iterator[Block]]
    is_slow: bool = False
    is_never_empty: bool = False  # it has cases for any sign
    is_of_claims: bool = False  # it is about what a sign claims beside the profile, and is asked for nothing else


def modify(row: Row) -> Ask:
    """A row is asked to modify."""
    return put(row.status(RowStatus.MODIFY_REQ), rule="statuses")


def fill(
    row: Row, text: bytes, owner: bytes = b"", beacon: int = 0, pixel: int = 0, priority: int = 1, rule: str = "set"
) -> Ask:
    """All fields of a row that is modifying."""
    return put(
        row.text(text), row.owner(owner), row.beacon(beacon), row.pixel(pixel), row.priority(priority), rule=rule
    )


def validate(row: Row) -> Ask:
    """A row is asked to validate."""
    return put(row.status(RowStatus.VALIDATE_REQ), rule="statuses")


def unuse(row: Row) -> Ask:
    """A row is asked to be not used."""
    return put(row.status(RowStatus.NOT_USED_REQ), rule="statuses")


def settle(row: Row, rule: str = "settled") -> list[Step]:
    """A row is asked to validate, and a tick passes."""
    return [validate(row), Wait(1), get(row.cell(Column.STATUS), rule=rule)]


def message(
    row: Row, text: bytes, owner: bytes = b"", beacon: int = 0, pixel: int = 0, priority: int = 1
) -> list[Step]:
    """A row with this message, validated."""
    return [modify(row), fill(row, text, owner, beacon, pixel, priority), *settle(row)]


def look(*rows: Row, rule: str = "", more: Sequence[Name] = ()) -> list[Ask]:
    """Reads of these rows, their statuses first, and of all that a command may change."""
    cells = [row.cell(column) for row in rows for column in (9, 3, 4, 5, 6, 7, 8)]
    return looks([*cells, *STATE_SCALARS, *SHOWN_CELLS, *more], rule=rule, share=30)


def look_at(*names: Name, rule: str = "") -> Ask:
    """A read of these names."""
    return get(*names, rule=rule)


def reports(rule: str = "") -> Ask:
    """What a validation and an activation report, and what is shown."""
    return get(*EXECUTIVE, *SHOWN_CELLS, rule=rule)


def alone(bindings: Sequence[Binding], rule: str = "", is_writer: bool = True) -> list[Ask]:
    """A SET for each binding."""
    return [put(bound, rule=rule, is_writer=is_writer) for bound in bindings]

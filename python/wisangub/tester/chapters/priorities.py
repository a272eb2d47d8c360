"""Priorities: the activation's against the run-time priority of what is shown."""

from typing import Iterator

from wisangub.snmp.names import Memory
from wisangub.tester.context import Context, activate
from wisangub.tester.requests.objects import Row
from wisangub.tester.requests.steps import Step

from .block import Block, Chapter, look, message, reports


def _against(context: Context, shown: Row, crc: int, priority: int) -> list[Step]:
    """Something of this run-time priority is shown; codes with priorities around it."""
    around = [value for value in (0, 1, priority - 1, priority, priority + 1, 254, 255) if 0 <= value <= 255]
    tries: list[Step] = []
    for value in dict.fromkeys(around):
        tries += [activate(context.code(shown, crc)), activate(context.blank_code(1, value)), reports()]
    return tries


def _blanks(context: Context) -> Iterator[Block]:
    for number in (1, 2, 100, 128, 254, 255):
        yield Block(
            f"blank message {number} is shown",
            "priority",
            _against(context, Row(Memory.BLANK, number), 0, number),
            True,
        )
    low = [
        activate(context.blank_code(200, 255)),
        activate(context.blank_code(3, 200)),
        activate(context.blank_code(2, 2)),
        reports(),
        activate(context.blank_code(2, 3)),
        reports(),
    ]
    yield Block("the run-time priority counts, not the code's", "priority", low, True)
    buffer = [
        activate(context.blank_code(200, 255)),
        activate(context.code(Row(Memory.CURRENT, 1), 0, 199)),
        reports(),
        activate(context.code(Row(Memory.CURRENT, 1), 0, 200)),
        reports(),
    ]
    yield Block("a code of the current buffer", "priority", buffer, True)


def _order(context: Context) -> Iterator[Block]:
    """The checksum is looked at before the priority."""
    shown = activate(context.blank_code(200, 255))
    for row, held in zip(context.permanent[:1], context.described.permanent):
        crc = context.crc(held.text, held.beacon, held.pixel)
        tries = [
            activate(context.code(row, crc ^ 1, 5)),
            reports(),
            activate(context.code(row, crc, 5)),
            reports(),
            activate(context.code(row, crc, 200)),
        ]
        yield Block("a checksum and a priority", "priority", [shown, *tries, reports()], True)
        yield Block("a permanent message is shown", "priority", _against(context, row, crc, held.priority), True)


def _rows(context: Context, row: Row) -> Iterator[Block]:
    text = context.character()
    for priority in (1, 120, 255) if context.is_slow else (1, 255):
        steps = [
            *message(row, text, b"", 0, 0, priority),
            *_against(context, row, context.crc(text), priority),
            *look(row),
        ]
        yield Block(f"a row of priority {priority} is shown", "priority", steps, True)


def _of_a_row(context: Context, row: Row) -> Iterator[Block]:
    """A row is activated with priorities around what is shown."""
    text = context.character()
    crc = context.crc(text)
    steps: list[Step] = [*message(row, text, b"", 0, 0, 50), activate(context.blank_code(200))]
    steps += [step for value in (49, 199, 200) for step in (activate(context.code(row, crc, value)), reports())]
    yield Block("a code of a row", "priority", steps, True)


def _blocks(context: Context) -> Iterator[Block]:
    yield from _blanks(context)
    yield from _order(context)
    for row in context.rows[:1]:
        yield from _rows(context, row)
    for row in dict.fromkeys((*context.rows[:1], *context.rows[-1:])):
        yield from _of_a_row(context, row)


CHAPTER = Chapter("priorities", "Priorities", _blocks)

"""Activation: each cause, and what is shown where there is none."""

from typing import Iterator

from wisangub.snmp.names import Memory, scalar
from wisangub.tester.context import ADDRESS, Context, activate, activation, remaining
from wisangub.tester.requests.objects import Row, integer
from wisangub.tester.requests.steps import Step, Wait, get, put

from .block import Block, Chapter, fill, look, message, modify, reports, unuse, validate
from .telling import telling


def _tried(
    context: Context, row: Row, crc: int, priority: int = 255, minutes: int = 65535, address: bytes = ADDRESS
) -> list[Step]:
    return [activate(context.code(row, crc, priority, minutes, address)), reports()]


def _without_rows(context: Context) -> Iterator[Block]:
    for memory in (0, 1, 6, 8, 255):
        yield Block("no type of memory", "deciding", _tried(context, Row(memory, 1), 0))
    above = [(memory, number) for memory in (2, 3, 4, 5, 7) for number in (257, 65535)]
    numbers = [*context.beyond, (7, 0), (7, 256), *above]
    for row in numbers:
        yield Block("no such row", "deciding", _tried(context, Row(*row), 0))
    for number, crc in ((1, 0), (2, 0), (255, 0x1234), (77, 0xFFFF)):
        steps = [activate(context.code(Row(Memory.BLANK, number), crc)), *look()]
        yield Block("a blank message", "shown", steps, True)
    yield Block(
        "an address", "shown", [activate(context.blank_code(3, address=bytes([255, 0, 1, 254]))), *look()], True
    )
    for crc in (0, 0x0F47, 1):
        yield Block(
            "the current buffer while it is blank", "deciding", [*_tried(context, Row(Memory.CURRENT, 1), crc)], True
        )
    named: list[Step] = [
        activate(context.code(Row(Memory.BLANK, 9), 0x1234)),
        *_tried(context, Row(Memory.CURRENT, 1), 0x1234),
    ]
    yield Block(
        "the current buffer while it is blank", "deciding", [*named, *_tried(context, Row(Memory.CURRENT, 1), 0)], True
    )
    ended: list[Step] = [put(remaining(0), rule="remaining"), reports(rule="own activation")]
    kept: list[Step] = [*ended, *_tried(context, Row(Memory.CURRENT, 1), 0, minutes=9), *look()]
    yield Block("the current buffer after an end", "current buffer", kept, True)


def _permanent(context: Context) -> Iterator[Block]:
    for row, held in zip(context.permanent, context.described.permanent):
        crc = context.crc(held.text, held.beacon, held.pixel)
        swapped = crc >> 8 | (crc & 255) << 8
        for other in (crc ^ 1, crc ^ 0x8000, swapped, 0):
            if other != crc:
                yield Block(
                    "another checksum", "codes" if other == swapped else "deciding", _tried(context, row, other)
                )
        yield Block("a permanent message", "shown", [activate(context.code(row, crc)), *look()], True)


def _changeable(context: Context, row: Row) -> Iterator[Block]:
    described, text = context.described, context.character()
    beacon, pixel = int(described.beacons), int(described.pixels)
    crc = context.crc(text, beacon, pixel)
    put_up: list[Step] = [*message(row, text, b"owner", beacon, pixel, 3), activate(context.code(row, crc)), *look(row)]
    yield Block("a message of one's own", "shown", put_up, True)
    yield Block(
        "the current buffer",
        "current buffer",
        [*_tried(context, Row(Memory.CURRENT, 1), crc, address=bytes([10, 0, 0, 1])), *look()],
    )
    ending = activate(context.code(Row(Memory.CURRENT, 1), crc, minutes=30))
    yield Block("the current buffer with an end", "current buffer", [ending, *look()])
    yield Block("the current buffer, another checksum", "deciding", _tried(context, Row(Memory.CURRENT, 1), crc ^ 1))
    yield Block("the current buffer, no second", "deciding", _tried(context, Row(Memory.CURRENT, 2), crc))
    changed: list[Step] = [modify(row), put(row.text(b""), row.owner(b""), row.priority(9)), *look(rule="copied")]
    yield Block("the row is modified", "copied", changed)
    yield Block("a row that is modified", "deciding", [*_tried(context, row, crc), *_tried(context, row, 0)])
    yield Block(
        "the current buffer outlives the row",
        "current buffer",
        [unuse(row), *_tried(context, Row(Memory.CURRENT, 1), crc)],
    )
    yield Block(
        "a row that is not used", "deciding", [*_tried(context, row, 0), *_tried(context, row, context.crc(b""))]
    )
    yield Block("blank again", "accepted", [activate(context.blank_code(1)), *look()])


def _errors(context: Context, row: Row) -> Iterator[Block]:
    bad = b"[zz]"
    steps: list[Step] = [*message(row, bad), *_tried(context, row, context.crc(bad)), *_tried(context, row, 0)]
    yield Block("a row with an error", "deciding", steps, True)
    good = activate(context.blank_code(2))
    yield Block("a success leaves the fault of a text", "accepted", [good, reports()])
    text = context.character()
    begun: list[Step] = [
        modify(row),
        fill(row, text),
        *_tried(context, row, context.crc(text)),
        *_tried(context, row, 0),
    ]
    begun += [Wait(0), validate(row), *_tried(context, row, context.crc(text)), *_tried(context, row, 0)]
    yield Block("a row that is modified, and one that validates", "deciding", begun, True)


def _unfit(context: Context, row: Row) -> Iterator[Block]:
    """A row whose text does not fit under the defaults of now, by a code with another checksum."""
    for held in telling(context)[:1]:
        steps: list[Step] = [held.good, *message(row, held.text), held.bad]
        steps += _tried(context, row, context.crc(held.text) ^ 1)
        yield Block("another checksum of a text that does not fit", "deciding", steps, True)


def _order(context: Context) -> Iterator[Block]:
    """Codes with more than one cause."""
    several = [Row(9, 0), Row(Memory.CHANGEABLE, 0), Row(0, 65535)]
    for row in several:
        yield Block("more than one cause", "deciding", _tried(context, row, 0x1234, priority=0))
    for row in context.rows[:1]:
        yield Block("more than one cause", "deciding", _tried(context, row, 0x1234, priority=0))
    for row in context.permanent[:1]:
        yield Block("more than one cause", "deciding", _tried(context, row, 0x1234, priority=0))


def _reported(context: Context) -> Iterator[Block]:
    good, bad = context.blank_code(2), context.code(Row(6, 7), 0x1122, 33, 44)
    steps: list[Step] = [
        activate(bad),
        reports(),
        activate(good),
        reports(rule="last refused"),
        activate(bad),
        reports(rule="refused"),
    ]
    yield Block("what is reported", "refused", steps, True)
    both = put((scalar("defaultPageOnTime"), integer(12)), activation(bad))
    yield Block("a refusal leaves the rest", "refused", [both, *look()], True)
    accepted = put(
        (scalar("defaultPageOnTime"), integer(12)), activation(good), (scalar("dmsShortPowerLossTime"), integer(3))
    )
    yield Block(
        "an activation with other values", "accepted", [accepted, *look(), get(scalar("dmsActivateMessage"))], True
    )


def _blocks(context: Context) -> Iterator[Block]:
    yield from _without_rows(context)
    yield from _permanent(context)
    yield from _order(context)
    yield from _reported(context)
    for row in dict.fromkeys((*context.rows[:1], *context.rows[-1:])):
        yield from _changeable(context, row)
    for row in context.rows[:1]:
        yield from _errors(context, row)
        yield from _unfit(context, row)


CHAPTER = Chapter("activation", "Activation", _blocks)

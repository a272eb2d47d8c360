"""What rows hold: each of them its own, any octets, and a checksum of what was written last."""

from typing import Iterator

from wisangub.snmp.names import Memory
from wisangub.tester.context import Context, activate
from wisangub.tester.requests.objects import COUNTS, Column, Row
from wisangub.tester.requests.steps import Step, Wait, get, looks, put

from .block import Block, fill, look, look_at, message, modify, reports, settle, unuse

_MOST_ROWS = 12  # that one case writes
_OCTETS = bytes(range(256))


def _own(row: Row) -> bytes:
    """Octets that no other row has."""
    return b"%d.%d" % (row.memory, row.number)


def _between(context: Context) -> list[Row]:
    """A row in the middle of each memory; with --slow each that is neither the first nor the last."""
    rows = [row for row in context.rows if row not in context.outermost]
    if context.is_slow:
        return rows
    memories = [[row for row in rows if row.memory == memory] for memory in (Memory.CHANGEABLE, Memory.VOLATILE)]
    return [held[len(held) // 2] for held in memories if held]


def each(context: Context) -> Iterator[Block]:
    """Each row is written, and read when all are; one is emptied, and no other. One in the middle is shown too."""
    for at in range(0, len(context.rows), _MOST_ROWS):
        rows = context.rows[at : at + _MOST_ROWS]
        written = [
            step for row in rows for step in (modify(row), fill(row, _own(row), _own(row)[::-1], 0, 1, row.number))
        ]
        cells = [row.cell(column) for row in context.rows for column in (Column.TEXT, Column.OWNER, Column.PRIORITY)]
        own = looks([row.cell(column) for row in rows for column in Column], share=30)
        emptied: list[Step] = [unuse(rows[0]), *looks(cells, share=60)]
        yield Block("each row holds its own", "set", [*written, *own, *emptied], is_fresh=not at)
    for row in _between(context):
        code = context.code(row, context.crc(context.character()), minutes=9)
        steps: list[Step] = [*message(row, context.character(), b"owner", 0, 0, 9), *look(row)]
        yield Block("a row in the middle", "shown", [*steps, get(*COUNTS), activate(code), *look(row)], True)


def any_octets(row: Row) -> Iterator[Block]:
    """Every octet, and what might be taken off at the ends, stays as it is written."""
    kept: list[Step] = [modify(row), put(row.text(_OCTETS), row.owner(_OCTETS[:127])), *look(row)]
    for owner in (_OCTETS[127:254], _OCTETS[129:], _OCTETS[::-1][:127]):
        kept += [put(row.owner(owner)), look_at(row.cell(Column.OWNER))]
    for end in (b" ", b"\0", b"\r\n", b"\t", b"\xff", b"  "):
        for held in (end, b"A" + end, end + b"A", b"a" + end + b"A"):
            kept += [put(row.text(held), row.owner(held)), look_at(row.cell(Column.TEXT), row.cell(Column.OWNER))]
    yield Block("octets stay as they are written", "set", kept, True)


def one_by_one(context: Context, row: Row) -> Iterator[Block]:
    """The checksum is that of the fields as they were written last, each in a request of its own."""
    sides = (int(context.described.beacons), int(context.described.pixels))
    one, both = context.character(), context.character() * 2
    begun: list[Step] = [modify(row), put(row.text(one)), put(row.beacon(sides[0])), put(row.pixel(sides[1]))]
    again: list[Step] = [modify(row), put(row.beacon(0)), *settle(row), *look(row)]
    again += [modify(row), put(row.pixel(0)), put(row.owner(b"you")), *settle(row), *look(row)]
    text: list[Step] = [modify(row), put(row.text(both if context.fault(both) is None else b"")), *settle(row)]
    yield Block("fields one by one", "checksum", [*begun, *settle(row), *look(row), *again, *text, *look(row)], True)


def outlived(context: Context, row: Row) -> Iterator[Block]:
    """What is shown stays over the seconds in which its row is written anew, validated and emptied."""
    one = context.character()
    code = context.code(row, context.crc(one), minutes=30, address=bytes([10, 9, 8, 7]))
    anew: list[Step] = [modify(row), fill(row, b"", b"you", 0, 0, 9), *settle(row), *look(row, rule="copied")]
    gone: list[Step] = [unuse(row), Wait(1), *look(row, rule="copied"), activate(context.blank_code(1, 49)), reports()]
    shown: list[Step] = [*message(row, one, b"me", 0, 0, 50), activate(code)]
    yield Block("what is shown outlives its row", "copied", [*shown, *anew, *gone], True)

"""A row's statuses: each of them asked for each command, and its fields written."""

from typing import Iterator

from wisangub.snmp.names import Memory, RowStatus, scalar
from wisangub.tester.context import Context, activate, remaining
from wisangub.tester.requests.objects import COUNTS, Column, Row, octets
from wisangub.tester.requests.steps import Step, Wait, put
from wisangub.tester.sign.judge import MOST_TEXT

from .block import Block, Chapter, fill, look, look_at, message, modify, reports, settle, unuse, validate
from .rows_held import any_octets, each, one_by_one, outlived

_BAD_TEXT = b"[zz]"


def _reaching(context: Context, row: Row, status: int) -> list[Step]:
    """Steps that bring a row that is not used to a status."""
    text = context.character()
    if status == 1:
        return []
    if status in (2, 3):
        filled: list[Step] = [modify(row), fill(row, text, b"me", 0, 0, 9)]
        return filled + ([Wait(0), validate(row)] if status == 3 else [])
    return message(row, text if status == 4 else _BAD_TEXT, b"me", 0, 0, 9)


def _writes(row: Row) -> list[Step]:
    """A SET for each field."""
    fields = [row.text(b"A"), row.owner(b"B"), row.beacon(0), row.pixel(0), row.priority(3)]
    return [put(bound, rule="fields") for bound in fields]


def _transitions(context: Context, row: Row, is_settled: bool = True) -> Iterator[Block]:
    """Each status asked for each command; those after a validation only where ticks are waited for."""
    asks = {value: put(row.status(value)) for value in (6, 7, 8)}
    for status in (1, 2):
        for value, ask in asks.items():
            if (status, value) == (2, 7):  # as the block of status 3 begins
                continue
            yield Block(
                f"status {status} asked {value}", "statuses", [*_reaching(context, row, status), ask, *look(row)], True
            )
        yield Block(
            f"status {status}: fields", "fields", [*_reaching(context, row, status), *_writes(row), *look(row)], True
        )
    refused = [step for ask in (*asks.values(), *_writes(row)) for step in (ask, look_at(row.cell(Column.STATUS)))]
    yield Block("status 3 asked and written", "statuses", [*_reaching(context, row, 3), *refused, *look(row)], True)
    # a valid row is emptied in `counts`, one in error modified in `settling`
    for status, last in ((4, 6), (5, 8)) if is_settled else ():
        steps = [*_reaching(context, row, status), *_writes(row), *look(row)]
        yield Block(f"status {status}: fields", "fields", steps, True)
        steps = [asks[7], *look(row), Wait(1), *look(row), asks[last], *look(row)]
        yield Block(f"status {status} asked 7, and {last}", "statuses", steps)


def _two_rows(context: Context, row: Row, other: Row) -> Iterator[Block]:
    text = context.character()
    begun: list[Step] = [modify(row), fill(row, text), modify(other), fill(other, text), Wait(0), validate(row)]
    tried: list[Step] = [
        put(other.status(RowStatus.VALIDATE_REQ)),
        look_at(row.cell(Column.STATUS), other.cell(Column.STATUS)),
        put(other.status(RowStatus.NOT_USED_REQ)),
        look_at(other.cell(Column.STATUS)),
        put(other.status(RowStatus.MODIFY_REQ)),
        fill(other, text),
        Wait(1),
        *look(row, other),
    ]
    yield Block("one row validates", "one validates", [*begun, *tried], True)
    yield Block("one after the other", "one validates", [*settle(other), *look(row, other)])


def _emptied(context: Context, row: Row) -> Iterator[Block]:
    filled = [modify(row), fill(row, b"A" * 20, b"owner", 1, 1, 200)]
    yield Block("a row that is emptied", "emptied", [*filled, unuse(row), *look(row, rule="emptied")], True)
    yield Block(
        "a row that begins anew", "emptied", [*filled, unuse(row), modify(row), *look(row, rule="emptied")], True
    )
    yield Block("a row that is modified keeps its fields", "statuses", [*filled, modify(row), *look(row)], True)
    kept = [
        *message(row, context.character(), b"me", 0, 0, 50),
        *look(row),
        modify(row),
        *look(row),
        put(row.owner(b"you")),
        *look(row),
    ]
    yield Block("a valid row that is modified", "statuses", kept, True)


def _apart(context: Context, row: Row, other: Row) -> Iterator[Block]:
    """What one row is asked leaves another as it is."""
    text = context.character()
    begun: list[Step] = [modify(row), fill(row, text, b"me"), modify(other), fill(other, text, b"you")]
    asked: list[Step] = [unuse(other), *look(row, other), modify(other), unuse(row), *look(row, other)]
    yield Block("one of two rows is emptied", "statuses", [*begun, *look(row, other), *asked], True)


def _counts(context: Context) -> Iterator[Block]:
    for memory in (3, 4):
        rows = [row for row in context.rows if row.memory == memory]
        if not rows:
            continue
        used = list(dict.fromkeys((*rows[:2], *rows[-1:])))
        steps: list[Step] = []
        for row in used:
            steps += [
                modify(row),
                look_at(row.cell(Column.STATUS), rule="statuses"),
                look_at(*COUNTS, rule="free memory"),
            ]
        steps += [fill(used[0], context.character()), *settle(used[0]), look_at(*COUNTS, rule="counts")]
        steps += [
            unuse(used[0]),
            look_at(used[0].cell(Column.STATUS), rule="statuses"),
            look_at(*COUNTS, rule="free memory"),
        ]
        steps += look(*used)
        yield Block("how many rows there are", "counts", steps, True)


def _settling(context: Context, row: Row) -> Iterator[Block]:
    """The tick at which a row settles; with --slow the next one too, at which nothing happens."""
    begun: list[Step] = [modify(row), fill(row, _BAD_TEXT), Wait(0), validate(row), *look(row), Wait(1), *look(row)]
    yield Block("a row settles at a tick", "settled", begun, True)
    yield Block("nothing settles twice", "settled", [Wait(int(context.is_slow)), *look(row), modify(row), *look(row)])


def _at_their_edges(context: Context, row: Row) -> Iterator[Block]:
    """A row with the most that its fields hold is stored, validated and shown; while that is shown the same row with
    the least; and the most but for its text: all of it is read. Last it is emptied of the most."""
    sides = (int(context.described.beacons), int(context.described.pixels))
    text, owner, current = b"[cf]" * (MOST_TEXT // 4), b"o" * 127, Row(Memory.CURRENT, 1)
    least: list[Step] = [modify(row), fill(row, b"", b"", 0, 0, 1), *look_at_each(current, rule="shown")]
    most: list[Step] = [
        *_shown(context, row, text, owner, sides, 255),
        *[activate(context.blank_code(1, 254)), reports(), *least],
    ]
    yield Block("the most is stored and shown", "set", most, True)
    after_the_most: list[Step] = [
        *message(row, text, owner, *sides, 255),
        *[activate(context.code(row, context.crc(text, *sides), minutes=30)), *least],
        *_shown(context, row, b"", b"", (0, 0), 1),
        *[activate(context.blank_code(1, 0)), activate(context.blank_code(1, 1)), reports()],
        *look_at_each(current, rule="shown"),
    ]
    yield Block("the least is stored and shown after the most", "set", after_the_most, True)
    but_for_its_text = _shown(context, row, b"", owner, sides, 255)
    yield Block("the most is stored and shown, but for its text", "set", but_for_its_text, True)
    lengths: list[Step] = [modify(row)]
    for length in (1, 63, 64, 65, 126, 127, 128, 255, 256, 257, 511):
        lengths += [put(row.text(b"t" * length), row.owner(b"o" * min(length, 127))), *look_at_each(row)[2:4]]
    yield Block("other lengths are stored", "set", lengths, True)
    emptied = [modify(row), fill(row, text, owner, *sides, 255), unuse(row), modify(row), *look(row, rule="emptied")]
    yield Block("the most is emptied", "emptied", emptied, True)


def _shown(context: Context, row: Row, text: bytes, owner: bytes, sides: tuple[int, int], priority: int) -> list[Step]:
    """A row is written, validated and shown for some minutes; what is shown is shown again, and the row at an end."""
    crc, current = context.crc(text, *sides), Row(Memory.CURRENT, 1)
    end = scalar("dmsEndDurationMessage"), octets(context.message_code(row, crc))
    return [
        *message(row, text, owner, *sides, priority),
        *[*look_at_each(row), look_at(*COUNTS, rule="counts")],
        activate(context.code(row, crc, minutes=30)),
        *[*look_at_each(current, rule="shown"), reports(rule="shown")],
        activate(context.code(current, crc, minutes=31)),
        *[*look_at_each(current, rule="current buffer"), reports(rule="current buffer")],
        *[activate(context.blank_code(1, minutes=3)), put(end, remaining(0), rule="remaining")],
        *[*look_at_each(current, rule="own activation"), reports(rule="own activation")],
    ]


def look_at_each(row: Row, rule: str = "") -> list[Step]:
    """A read of each field of a row, the status and the checksum among them, in a request of its own."""
    return [look_at(row.cell(column), rule=rule) for column in Column]


def _blocks(context: Context) -> Iterator[Block]:
    rows = context.rows
    if not rows:
        return
    first, last = rows[0], rows[-1]
    yield from _emptied(context, first)
    yield from _transitions(context, first)
    if last != first:
        yield from _transitions(context, last, context.is_slow)
        yield from _two_rows(context, first, last)
        yield from _apart(context, first, last)
    if len(rows) > 2 and context.is_slow:
        yield from _two_rows(context, first, rows[1])
    yield from _counts(context)
    yield from _settling(context, last)
    yield from each(context)
    yield from any_octets(last)
    yield from one_by_one(context, first)
    yield from outlived(context, first)
    for row in dict.fromkeys((first, last)):
        yield from _at_their_edges(context, row)


CHAPTER = Chapter("rows", "A row's statuses", _blocks)

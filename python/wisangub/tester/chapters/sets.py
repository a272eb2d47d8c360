"""SET: what may be written, each range one past each end, the order of causes, names twice, two commands."""

from typing import Iterator

from wisangub.snmp.names import Memory, RowStatus, scalar
from wisangub.tester.context import Context, activate, activation, remaining
from wisangub.tester.requests.objects import (
    COMMANDS,
    COUNTS,
    OWN_CODES,
    REPORTS,
    Binding,
    Column,
    Name,
    Row,
    cell,
    instance,
    integer,
    octets,
)
from wisangub.tester.requests.steps import Ask, Step, put

from .block import Block, Chapter, alone, look, look_at, message, modify
from .sets_refused import refused
from .sets_values import cells, numbers_of, scalars
from .telling import Telling, telling

_READ_ONLY: list[Name] = [
    scalar("vmsSignHeightPixels"),
    scalar("vmsSignWidthPixels"),
    scalar("dmsColorScheme"),
    *COUNTS,
    *[scalar(word) for word in REPORTS if word not in COMMANDS],
]
_NOTHING: list[Name] = [
    instance(4, 10),
    instance(6, 11),
    scalar("dmsActivateMessage")[:-1],
    scalar("dmsMessageTimeRemaining")[:-1] + (1,),
    (1, 3, 6, 1, 2, 1, 1, 5, 0),
    (0, 0),
]


def _refused_names(context: Context) -> Iterator[Block]:
    yield Block("not to be written", "not to be written", alone([(name, integer(1)) for name in _READ_ONLY + _NOTHING]))
    yield Block("not to be written", "not to be written", alone([(name, octets(bytes(5))) for name in _READ_ONLY]))
    rows = [
        (2, 1),
        (5, 1),
        (7, 1),
        (7, 255),
        (3, 0),
        (4, 0),
        (3, context.described.changeable + 1),
        (4, context.described.volatile + 1),
    ]
    for memory, number in rows:
        cells: list[Binding] = [
            (cell(column, memory, number), octets(b"") if column in (3, 4) else integer(6 if column == 9 else 1))
            for column in range(1, 10)
        ]
        yield Block("rows that are not written", "written rows", alone(cells))
    steps: list[Step] = [
        step for row in context.outermost for step in (put(row.status(RowStatus.MODIFY_REQ)), put(row.priority(7)))
    ]
    yield Block("rows that are written", "written rows", [*steps, *look(*context.outermost)], True)
    if context.rows:
        row = context.rows[0]
        fixed: list[Binding] = [(row.cell(column), integer(1)) for column in (1, 2, 5)]
        yield Block("columns that are not written", "not to be written", [modify(row), *alone(fixed), *look(row)], True)


def _causes(context: Context) -> Iterator[Block]:
    """Bindings with each cause, in pairs, in each order."""
    wrong: dict[str, Binding] = {
        "noSuchName": (scalar("vmsSignHeightPixels"), integer(1)),
        "badValue": (scalar("defaultBackgroundColor"), integer(10)),
        "good": (scalar("defaultFlashOn"), integer(7)),
        "other": (scalar("defaultFlashOff"), integer(9)),
    }
    if context.rows:
        wrong["genErr"] = context.rows[0].text(b"A")
        wrong["failing"] = context.rows[0].status(RowStatus.VALIDATE_REQ)
    for first in wrong.values():
        for second in wrong.values():
            yield Block(
                "the order of causes",
                "order of causes" if first != second else "twice",
                [put(first, second), put(wrong["good"], first, second)],
            )
    yield Block("nothing of it was written", "order of causes", look(*context.rows[:1]))


def _twice(context: Context) -> Iterator[Block]:
    """A name twice, and two commands."""
    good, bad = (scalar("defaultPageOnTime"), integer(11)), (scalar("defaultPageOnTime"), integer(256))
    nowhere = (instance(2, 5), integer(1))
    lists = [
        [good, good],
        [good, bad],
        [bad, good],
        [nowhere, nowhere],
        [good, (scalar("defaultPageOnTime"), octets(b""))],
        [good, (scalar("defaultPageOffTime"), integer(3)), good],
    ]
    yield Block(
        "a name twice",
        "twice",
        [*[put(*bound) for bound in lists], look_at(scalar("defaultPageOnTime"), scalar("defaultPageOffTime"))],
    )
    blank = activation(context.blank_code(9))
    commands = [
        [blank, remaining(3)],
        [remaining(3), blank],
        [remaining(3), remaining(3)],
        [remaining(3), (scalar("dmsActivateMessage"), octets(b""))],
    ]
    commands += [
        [(scalar("dmsActivateMessage"), octets(b"")), remaining(3)],
        [remaining(3), (scalar("vmsSignHeightPixels"), integer(1)), blank],
    ]
    if context.rows:
        commands += [
            [context.rows[0].status(RowStatus.MODIFY_REQ), remaining(3)],
            [remaining(3), context.rows[0].status(RowStatus.NOT_USED_REQ)],
        ]
        commands += [
            [context.rows[0].status(RowStatus.MODIFY_REQ), context.rows[-1].status(RowStatus.MODIFY_REQ)],
            [context.rows[0].status(RowStatus.MODIFY_REQ), context.rows[0].status(RowStatus.MODIFY_REQ)],
        ]
    yield Block("two commands", "twice", [*[put(*bound) for bound in commands], *look(*context.rows[:1])])


def _everything(context: Context) -> list[Step]:
    """All that may be written and the fields of some rows, with a command, in one SET."""
    rows = context.rows[:4]
    bound: list[Binding] = [(name, integer(least)) for name, least, _ in numbers_of(context)]
    bound += [(scalar("defaultFont"), integer(context.defaults[4]))]
    bound += [(name, octets(context.message_code(Row(Memory.BLANK, name[-2]), 0))) for name in OWN_CODES]
    for at, row in enumerate(rows, 1):
        bound += [row.text(b"A" * at), row.owner(b"B" * at), row.beacon(at % 2), row.pixel(at % 2), row.priority(at)]
    return [*[modify(row) for row in rows], put(*bound, remaining(9)), *look(*rows)]


def _together(context: Context) -> Iterator[Block]:
    many: list[Binding] = [
        (name, integer(least)) for name, least, _ in numbers_of(context) if name != scalar("dmsTimeCommLoss")
    ]
    yield Block("all at once", "set", [put(*many), *look()], True)
    yield Block("as much as may be written at once", "set", _everything(context), True)
    bad: list[Binding] = [(name, integer(most)) for name, _, most in numbers_of(context)] + [
        (scalar("defaultBackgroundColor"), integer(10))
    ]
    yield Block("all or nothing", "order of causes", [put(*bad), *look()], True)
    refused = activation(context.code(Row(9, 1), 0))
    yield Block(
        "a command that fails",
        "failed command",
        [
            put((scalar("defaultPageOnTime"), integer(77)), refused, (scalar("defaultPageOffTime"), integer(78))),
            *look(),
        ],
        True,
    )
    if not context.rows:
        return
    row = context.rows[0]
    failing: list[Step] = [
        put(
            (scalar("defaultPageOnTime"), integer(77)),
            row.status(RowStatus.VALIDATE_REQ),
            (scalar("dmsShortPowerLossTime"), integer(5)),
        ),
        *look(row),
    ]
    yield Block("a command that fails", "failed command", failing, True)
    both = put(row.text(b"A"), row.status(RowStatus.NOT_USED_REQ), row.owner(b"B"))
    yield Block("fields and a command", "set", [modify(row), both, *look(row)], True)
    early: list[Ask] = [
        put(row.status(RowStatus.MODIFY_REQ), row.text(b"A")),
        put(row.text(b"A"), row.status(RowStatus.MODIFY_REQ)),
    ]
    yield Block("judged on the state before", "order of causes", [*early, *look(row)], True)
    yield Block(
        "the command is judged after",
        "set",
        [
            modify(row),
            put(row.status(RowStatus.VALIDATE_REQ), row.text(context.character())),
            look_at(row.cell(Column.TEXT), row.cell(Column.STATUS)),
        ],
        True,
    )
    order = [
        put(
            (scalar("defaultJustificationPage"), integer(2)),
            row.status(RowStatus.MODIFY_REQ),
            (scalar("defaultJustificationLine"), integer(2)),
        ),
        *look(row),
    ]
    yield Block("a command between", "set", order, True)
    for held in telling(context)[:1]:
        yield Block("a default and an activation at once", "set", _under_default(context, row, held), True)


def _under_default(context: Context, row: Row, held: Telling) -> list[Step]:
    """An activation is judged under the default that is written with it."""
    code = activation(context.code(row, context.crc(held.text)))
    good, bad = put(*held.good.bindings, code), put(*held.bad.bindings, code, rule="fits now")
    steps: list[Step] = [held.good, *message(row, held.text), held.bad, good, *look()]
    return [*steps, activate(context.blank_code(1)), bad, *look()]


def _blocks(context: Context) -> Iterator[Block]:
    yield from scalars(context)
    yield from _refused_names(context)
    for row in dict.fromkeys((*context.rows[:1], *context.rows[-1:])):
        yield from cells(context, row)
    yield from _causes(context)
    yield from _twice(context)
    yield from _together(context)
    yield from refused(context)


CHAPTER = Chapter("set", "SET", _blocks)

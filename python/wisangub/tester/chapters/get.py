"""Get: every instance, and names that are none."""

from dataclasses import replace
from typing import Iterator

from wisangub.snmp import wire
from wisangub.snmp.names import DMS, SCALARS, scalar
from wisangub.tester.context import Context, activate
from wisangub.tester.requests.objects import (
    NULL,
    SHOWN_CELLS,
    Column,
    Name,
    Row,
    cell,
    column_of,
    instance,
    integer,
    octets,
    row_of,
)
from wisangub.tester.requests.steps import Ask, Step, get, looks, put

from .block import Block, Chapter, fill, look, message, modify
from .sets_values import other_values

_NO_INSTANCES: list[Name] = [
    scalar("vmsSignHeightPixels")[:-1],
    scalar("vmsSignHeightPixels")[:-1] + (1,),
    scalar("vmsSignHeightPixels") + (0,),
    instance(4, 10),
    instance(4, 12),
    instance(5, 8),
    instance(5, 10),
    instance(6, 1),
    instance(6, 2),
    instance(6, 11),
    instance(6, 16),
    instance(6, 20),
    instance(6, 25),
    instance(7, 1),
    instance(1, 1),
    DMS,
    DMS + (5, 8, 1, 3),
    DMS + (5, 8, 1, 3, 3),
    DMS + (5, 8, 1, 0, 3, 1),
    DMS + (5, 8, 1, 10, 3, 1),
    DMS + (5, 8, 1, 3, 3, 1, 0),
    DMS + (5, 8, 0, 3, 3, 1),
    DMS + (5, 8, 2, 3, 3, 1),
    (1, 3, 6, 1, 2, 1, 1, 1, 0),
    (0, 0),
    (2, 999, 3),
    DMS[:-1] + (4, 2, 3, 0),
    DMS[:-1] + (2, 2, 3, 0),
    DMS + (5, 8, 1, 3, 3, 2**32 - 1),
    DMS + (5, 8, 1, 3, 3, 65537),
    DMS + (5, 8, 1, 9, 259, 1),
    DMS + (5, 8, 1, 259, 3, 1),
    instance(4, 257),
    instance(260, 1),
    scalar("dmsActivateMessage")[:-1] + (256,),
]


def _no_rows(context: Context) -> list[Name]:
    """Cells of rows that the sign has not, by one."""
    rows = [
        (1, 1),
        *context.beyond,
        (6, 1),
        (7, 0),
        (7, 256),
        (8, 1),
        *[(memory, 257) for memory in (2, 3, 4, 5, 7)],
    ]
    return [cell(column, *row) for row in rows for column in (3, 9)]


def _rule_for(name: Name) -> str:
    """What the values of an object are to be by."""
    row = row_of(name)
    if row is not None and row[0] == 7:
        return "blank checksum" if column_of(name) == Column.CRC else "blank rows"
    if row is not None:
        return "checksum" if column_of(name) == Column.CRC else "the table's rows"
    place = tuple(name[len(DMS) : len(DMS) + 2])
    rules: dict[Name, str] = {(5, 2): "counts", (5, 5): "counts", (5, 4): "free memory", (5, 7): "free memory"}
    return rules.get(place, "values")


def _alike(names: list[Name]) -> list[tuple[str, list[Name]]]:
    """The names by the rule of their values."""
    found: dict[str, list[Name]] = {}
    for name in names:
        found.setdefault(_rule_for(name), []).append(name)
    return list(found.items())


def _blocks(context: Context) -> Iterator[Block]:
    for rule, names in _alike(context.instances):
        for step in looks(names, share=40):
            yield Block("every instance", rule, [step])
    for step in looks(context.instances, rule="reader reads"):
        yield Block("every instance by the reader", "reader reads", [replace(step, is_writer=False)])
    for name in _NO_INSTANCES + _no_rows(context):
        yield Block("no instance", "get", [get(name), get(name, is_writer=False)])
    here, none = scalar("vmsSignHeightPixels"), instance(2, 5)
    lists: list[list[Name]] = [
        [],
        [here, here],
        [none, here],
        [here, none],
        [here, here, none, none],
        [none, none],
        [here] * 20 + [none] + [here] * 20,
    ]
    for names in lists:
        yield Block("several names", "get", [get(*names)])
    values = [integer(7), octets(b"A"), (wire.ADDRESS, bytes(4)), (wire.NAME, (1, 3))]
    asks = [Ask(wire.GET, ((here, value), (here, NULL))) for value in values]
    yield Block("values of a request", "get", asks)
    if context.rows:
        row = context.rows[0]
        yield Block(
            "a row that is valid",
            "row checksum",
            [*message(row, context.character(), b"owner", 0, 0, 7), *look(row)],
            True,
        )
        yield Block("a row of a beacon", "checksum", _filled(context, row), True)
    yield from _alone(context)


def _alone(context: Context) -> Iterator[Block]:
    """Each object and each cell of a row in a request of its own, when nothing is as a sign begins."""
    asked: list[Step] = [put(*other_values(context)), activate(context.code(Row(9, 1), 7))]
    asked += [activate(context.blank_code(3, 255, 9, bytes([10, 9, 8, 7])))]
    rows = list(dict.fromkeys((*context.outermost[:1], *context.outermost[-1:])))
    asked += [step for row in rows for step in (modify(row), fill(row, b"text", b"owner", 1, 1, 8))]
    names = [*map(instance, *zip(*SCALARS)), *SHOWN_CELLS]
    names += [row.cell(column) for row in rows for column in Column]
    for at in range(0, len(names), 40):
        reads = [get(name) for name in names[at : at + 40]]
        yield Block("one instance", "values", [*asked, *reads], True)


def _filled(context: Context, row: Row) -> list[Step]:
    """A row that is valid with all that the sign has."""
    described = context.described
    text = context.character() + b"[np]" + context.character(1)
    return [*message(row, text, b"", int(described.beacons), int(described.pixels), 255), *look(row)]


CHAPTER = Chapter("get", "Get", _blocks)

"""Communities: who reads, who writes, and who is not answered."""

from dataclasses import replace
from typing import Iterator

from wisangub.snmp import wire
from wisangub.snmp.names import Memory, RowStatus, scalar
from wisangub.tester.context import Context, activate
from wisangub.tester.requests.objects import NULL, SHOWN_CELLS, STATE_SCALARS, Row, cell, instance, integer
from wisangub.tester.requests.steps import Ask, Step, get, get_next, looks, put

from .block import Block, Chapter, fill, look, message, modify
from .sets_values import other_values


def _strangers(communities: tuple[bytes, bytes]) -> list[bytes]:
    """Communities that are neither, many of them by one octet."""
    found = [b"", b"\0", b"x", b"private", b"x" * 32, b"x" * 33, b"x" * 300]
    for known in communities:
        found += [
            known[:-1],
            known[1:],
            known + b"\0",
            known + b" ",
            b" " + known,
            known.swapcase(),
            known * 2,
            known[:-1] + bytes([known[-1] ^ 1]),
            bytes([known[0] ^ 0x80]) + known[1:],
        ]
    return [name for name in dict.fromkeys(found) if name not in communities]


def _by_the_reader(context: Context) -> Iterator[Block]:
    """The reader writes each object that may be written, in a request of its own: nothing of it is taken."""
    settings: list[Step] = [put(bound, is_writer=False) for bound in other_values(context)]
    yield Block("the reader writes each object", "reader writes", [*settings, *look()], True)
    for row in context.outermost:
        fields = fill(row, b"A", b"B", 1, 1, 7).bindings
        written: list[Step] = [put(bound, is_writer=False) for bound in (*fields, row.status(RowStatus.NOT_USED_REQ))]
        yield Block("the reader writes a row", "reader writes", [modify(row), *written, *look(row)], True)


def _changed(context: Context) -> Iterator[Block]:
    """Both communities read the same, when nothing is as a sign begins. What the writer is answered is about the rule
    of what it asks, and not about communities."""
    asked: list[Step] = [put(bound) for bound in other_values(context) if bound[0] != scalar("dmsTimeCommLoss")]
    asked += [put((scalar("dmsTimeCommLoss"), integer(65535)))]
    for row in context.outermost[-1:]:
        asked += message(row, context.character(), b"owner", 0, 0, 9)
    asked += [modify(row) for row in context.outermost[:-1]]
    asked += [fill(row, b"text", b"owner", 1, 1, 8) for row in context.outermost[:-1]]
    asked += [activate(context.code(Row(9, 1), 7)), activate(context.blank_code(3, 255, 9))]
    names = [row.cell(column) for row in context.outermost for column in range(3, 10)] + STATE_SCALARS + SHOWN_CELLS
    before = [(*name[:-1], name[-1] - 1) if name[-1] else name[:-1] for name in names]
    reads = [*looks(names), get_next(*before[: len(before) // 2]), get_next(*before[len(before) // 2 :])]
    steps = [*reads, *[replace(read, is_writer=False, rule="reader reads") for read in reads]]
    yield Block("both read what was changed", "", [*asked, *steps], True)


def _blocks(context: Context) -> Iterator[Block]:
    reads = [
        get(scalar("vmsSignHeightPixels")),
        get_next(scalar("vmsSignHeightPixels")),
        get(cell(9, 5, 1), scalar("dmsMsgTableSource")),
    ]
    yield Block("the reader reads", "reader reads", [replace(read, is_writer=False) for read in reads])
    yield Block("the writer reads", "reader reads", reads)
    refusals = [
        put((scalar("defaultPageOnTime"), integer(10))),
        put((scalar("defaultPageOnTime"), integer(256))),
        put((instance(9, 9), integer(10))),
        put((scalar("defaultPageOnTime"), integer(10)), (scalar("defaultPageOnTime"), integer(11))),
        activate(context.blank_code(3)),
        put((scalar("dmsMessageTimeRemaining"), integer(1))),
        put((scalar("vmsSignHeightPixels"), NULL)),
    ]
    if context.rows:
        row = Row(Memory.CHANGEABLE, 1) if context.described.changeable else Row(Memory.VOLATILE, 1)
        refusals += [
            put(row.status(RowStatus.MODIFY_REQ)),
            put(row.status(RowStatus.VALIDATE_REQ)),
            put(row.text(b"A")),
        ]
    yield Block("the reader writes", "reader writes", [replace(step, is_writer=False) for step in refusals])
    yield Block("nothing was written", "reader writes", look())
    yield from _by_the_reader(context)
    yield from _changed(context)
    yield Block("the reader writes nothing", "set", [replace(put(), is_writer=False), put()])
    for at, community in enumerate(_strangers(context.communities)):
        asks = [
            Ask(wire.GET, ((scalar("vmsSignHeightPixels"), NULL),), community=community),
            Ask(wire.GET_NEXT, ((scalar("vmsSignHeightPixels"), NULL),), community=community),
            Ask(wire.SET, ((scalar("defaultPageOnTime"), integer(20)),), community=community),
        ]
        yield Block("a community that is neither", "no community", asks, is_fresh=not at)
    yield Block("nothing was written", "no community", look())


CHAPTER = Chapter("communities", "Communities", _blocks)

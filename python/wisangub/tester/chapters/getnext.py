"""GetNext: after every instance, over every gap, before the first, past the last."""

from typing import Iterator

from wisangub.snmp import wire
from wisangub.snmp.names import DMS, Memory, scalar
from wisangub.tester.context import Context
from wisangub.tester.requests.objects import NULL, Name, integer, octets, row_of
from wisangub.tester.requests.steps import Ask, get_next

from .block import Block, Chapter


def _gaps(names: list[Name]) -> list[Name]:
    """Names that are none: some in each gap between two instances, more where the object, column or memory changes."""
    found: list[Name] = []
    for first, second in zip(names, names[1:]):
        found += [first + (0,), first + (2**32 - 1, 1)]
        if first[:-1] != second[:-1]:
            found += [first[:-1] + (first[-1] + 1,), first[:-1] + (2**32 - 1,), second[:-1]]
            if second[-1]:
                found.append(second[:-1] + (second[-1] - 1,))
    return found


_OUTSIDE: list[Name] = [
    (0, 0),
    (0, 39),
    (1, 0),
    (1, 3),
    (1, 3, 6, 1, 2, 1, 1, 1, 0),
    DMS[:-1],
    DMS,
    DMS + (0,),
    DMS + (2,),
    DMS + (2, 3),
    DMS + (2, 2, 2**32 - 1),
    DMS + (5,),
    DMS + (5, 8),
    DMS + (5, 8, 0, 9),
    DMS + (5, 8, 1),
    DMS + (5, 8, 1, 0),
    DMS + (5, 8, 1, 1),
    DMS + (5, 8, 1, 9, 7, 255),
    DMS + (5, 8, 1, 9, 7, 256),
    DMS + (5, 8, 1, 10),
    DMS + (5, 8, 2),
    DMS + (6, 24),
    DMS + (5, 8, 1, 5, 2, 1, 7),
    DMS + (5, 8, 1, 5, 6, 2**32 - 1),
]
_PAST: list[Name] = [
    DMS + (6, 24, 0),
    DMS + (6, 24, 0, 0),
    DMS + (6, 24, 1),
    DMS + (6, 25),
    DMS + (7,),
    DMS[:-1] + (4,),
    (1, 4),
    (2, 0),
    (2, 999),
    (2, 2**32 - 81),
]


def walked(context: Context) -> list[Name]:
    """What is walked over a name at a time, as managers do: all but blank messages in the middle of their column,
    unless slow cases are asked for."""
    ends = (1, 2, 127, 128, 254, 255)
    rows = ((name, row_of(name)) for name in context.instances)
    return [name for name, row in rows if context.is_slow or row is None or row[0] != Memory.BLANK or row[1] in ends]


def _blocks(context: Context) -> Iterator[Block]:
    names = context.instances
    alone = [get_next(name) for name in walked(context) if name != names[-1]]
    for at in range(0, len(alone), 30):
        yield Block("after one instance", "getnext", alone[at : at + 30])
    for at in range(0, len(names) - 1, 30):
        yield Block("after every instance", "getnext", [get_next(*names[at : min(at + 30, len(names) - 1)])])
    for at in range(0, len(names) - 1, 30):
        step = get_next(*names[at : min(at + 30, len(names) - 1)], is_writer=False)
        yield Block("after every instance by the reader", "reader reads", [step])
    for name in _OUTSIDE:
        yield Block("before and between", "getnext", [get_next(name), get_next(name, is_writer=False)])
    around = _gaps(names)
    for at in range(0, len(around), 30):
        yield Block("over every gap", "order", [get_next(*around[at : at + 30])])
    here = scalar("vmsSignHeightPixels")
    for name in _PAST:
        yield Block(
            "past the last",
            "getnext",
            [get_next(name), get_next(here, name), get_next(name, here), get_next(here, name, name)],
        )
    many = [get_next(*[(0, 0)] * count, (2, 100)) for count in (126, 127, 128, 199)]
    yield Block("past the last at a high index", "getnext", many)
    yield Block("several names", "getnext", [get_next(), get_next(here, here), get_next(*[here] * 30)])
    lists = [get_next(*names[at : at + count]) for at, count in ((0, 31), (3, 40), (9, 50))]
    yield Block("many names", "getnext", lists)
    values = [integer(7), octets(b"A"), (wire.ADDRESS, bytes(4)), (wire.NAME, (1, 3))]
    asks = [Ask(wire.GET_NEXT, ((here, value), (here, NULL))) for value in values]
    yield Block("values of a request", "getnext", asks)
    yield Block("the greatest name", "getnext", [get_next((2, 5) + (2**32 - 1,) * 20)])


CHAPTER = Chapter("getnext", "GetNext", _blocks)

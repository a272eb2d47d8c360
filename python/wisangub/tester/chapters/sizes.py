"""Sizes: tooBig at the octet."""

from typing import Iterator, Sequence

from wisangub.snmp import wire
from wisangub.snmp.names import Memory, scalar
from wisangub.tester.context import Context
from wisangub.tester.requests.objects import NULL, Binding, Column, Name, Row, instance, octets
from wisangub.tester.requests.steps import FIRST_NUMBER, Ask, Step, get, get_next, put

from .block import Block, Chapter, look, modify

_MOST = wire.MOST_DATAGRAM
_SIZES = ((126, 146), (254, 278), (482, 487), (510, 515), (546, 550), (1022, 1027))  # octets, and the first behind


def _size(context: Context, bindings: Sequence[Binding]) -> int:
    """How long a Response of the writer's with these bindings is."""
    return len(wire.written(wire.Message(wire.RESPONSE, context.communities[1], FIRST_NUMBER, 0, 0, list(bindings))))


_FILLER = scalar("dmsEndDurationMessage")  # five octets in the known state


def _owner_for(context: Context, row: Row, total: int) -> tuple[list[Name], bytes] | None:
    """Names, and the owner with which a read of them is so long."""
    text, filler = octets(b"A" * 512), octets(context.message_code(Row(Memory.BLANK, 1), 0))
    for fillers in range(40):
        for length in range(128):
            owner = b"o" * length
            held = [
                (row.cell(Column.TEXT), text),
                (row.cell(Column.TEXT), text),
                (row.cell(Column.OWNER), octets(owner)),
                *[(_FILLER, filler)] * fillers,
            ]
            reached = _size(context, held)
            if reached == total:
                return [name for name, _ in held], owner
            if reached + 127 - length < total:
                break
    return None


def _before(name: Name) -> Name:
    """A name whose next instance is this one, in the first row of its memory or a scalar."""
    return scalar("dmsPowerLossMessage") if name == _FILLER else (*name[:-1], name[-1] - 1)


def _reads(context: Context, row: Row) -> Iterator[Block]:
    text = b"A" * 512
    for total in (_MOST - 1, _MOST, _MOST + 1, _MOST + 2):
        found = _owner_for(context, row, total)
        if found is None:
            continue
        names, owner = found
        prepared: list[Step] = [modify(row), put(row.text(text), row.owner(owner))]
        yield Block(f"a Get of {total} octets", "too big", [*prepared, get(*names)], True)
        yield Block(f"a GetNext of {total} octets", "too big", [*prepared, get_next(*map(_before, names))], True)
    full: list[Step] = [modify(row), put(row.text(text))]
    yield Block(
        "far too big",
        "too big",
        [
            *full,
            get(*[row.cell(Column.TEXT)] * 3),
            get(*[row.cell(Column.TEXT)] * 60),
            get(*[row.cell(Column.TEXT)] * 2),
        ],
        True,
    )
    yield Block(
        "an error before it is too big",
        "error reply",
        [get(*[row.cell(Column.TEXT)] * 3, instance(2, 5)), get(instance(2, 5), *[row.cell(Column.TEXT)] * 3)],
    )


def _filled(kind: int, name: Name, total: int, context: Context) -> Ask:
    """A request of so many octets, whose last binding has a value that fills it."""
    empty = _size(context, [(name, octets(bytes(1000)))]) - 1000
    return Ask(kind, ((name, octets(bytes(total - empty))),))


def _requests(context: Context) -> Iterator[Block]:
    """Requests as long as a datagram may be; the answers repeat them or are too big."""
    nowhere, here = instance(2, 5), scalar("vmsSignHeightPixels")
    for kind in (wire.GET, wire.GET_NEXT, wire.SET):
        yield Block(
            "an error of the greatest size",
            "never too big",
            [_filled(kind, nowhere, _MOST, context), _filled(kind, nowhere, _MOST - 1, context)],
        )
    yield Block(
        "a read that shrinks",
        "too big",
        [_filled(wire.GET, here, _MOST, context), _filled(wire.GET_NEXT, here, _MOST, context)],
    )
    many: list[Binding] = []
    while _size(context, [*many, (here, NULL)]) <= _MOST:
        many.append((here, NULL))
    yield Block(
        "as many names as there is room for",
        "too big",
        [Ask(wire.GET, tuple(many)), Ask(wire.GET_NEXT, tuple(many)), Ask(wire.GET, tuple(many[:-8]))],
    )


def _others(context: Context) -> Iterator[Block]:
    """Requests of sizes at which a length takes an octet more, or a buffer may end; each answer is as long."""
    nowhere = instance(2, 5)
    held = [(nowhere, octets(bytes(size))) for size in range(_SIZES[-1][1])]
    by_size = {_size(context, [bound]): bound for bound in held}
    for least, most in _SIZES:
        bindings = [by_size[size] for size in range(least, most) if size in by_size]
        asks = [Ask(kind, (bound,)) for bound in bindings for kind in (wire.GET, wire.SET)]
        yield Block(f"requests of {least} to {most - 1} octets", "error reply", asks)


def _writes(context: Context, row: Row) -> Iterator[Block]:
    """A SET that succeeds is never too big, in the greatest size."""
    text = b"A" * 512
    rest = _MOST - _size(context, [row.text(text), row.owner(b"")])
    owner = row.owner(b"o" * min(127, max(0, rest - 4)))
    yield Block(
        "a SET of the greatest size", "never too big", [modify(row), put(row.text(text), owner), *look(row)], True
    )
    numbers = [
        (scalar("defaultPageOnTime"), (2, 77)),
        (scalar("defaultPageOffTime"), (2, 78)),
        (scalar("dmsShortPowerLossTime"), (2, 79)),
    ]
    both = [row.text(text)]
    other = next((more for more in context.rows if more != row), None)
    if other is not None:
        both += [other.text(text)]
    yield Block(
        "a SET of two texts",
        "never too big",
        [modify(row), *([modify(other)] if other else []), put(*both, *numbers), *look(row)],
        True,
    )


def _blocks(context: Context) -> Iterator[Block]:
    yield from _requests(context)
    yield from _others(context)
    for row in context.rows[:1]:
        yield from _reads(context, row)
        yield from _writes(context, row)


CHAPTER = Chapter("sizes", "Sizes", _blocks)

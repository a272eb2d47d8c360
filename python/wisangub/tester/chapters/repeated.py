"""Datagrams repeated and out of order: each is taken as it comes."""

import itertools
from dataclasses import replace
from typing import Iterator

from wisangub.snmp.names import RowStatus, scalar
from wisangub.tester.context import Context, activate, remaining
from wisangub.tester.requests.objects import Column, Row, instance, integer, octets
from wisangub.tester.requests.steps import Ask, Step, Wait, get, get_next, put

from .block import Block, Chapter, fill, look, look_at, modify, unuse

_GROUPS = itertools.count(1)


def _again(ask: Ask, times: int = 2) -> list[Step]:
    """The same octets so many times."""
    group = next(_GROUPS)
    return [replace(ask, group=group)] * times


def _scalars(context: Context) -> Iterator[Block]:
    for ask in (
        get(scalar("vmsSignHeightPixels")),
        get_next(scalar("vmsSignHeightPixels")),
        get(instance(2, 5)),
        put((scalar("defaultPageOnTime"), integer(9))),
        put((scalar("defaultPageOnTime"), integer(256))),
    ):
        yield Block("a request repeated", "repeated", [*_again(ask, 3), look_at(scalar("defaultPageOnTime"))])
    number = next(_GROUPS)
    read, writes = get(scalar("defaultPageOnTime")), [
        put((scalar("defaultPageOnTime"), integer(value))) for value in (9, 10)
    ]
    others = [
        get(scalar("vmsSignHeightPixels")),
        get(scalar("vmsSignWidthPixels")),
        writes[0],
        read,
        writes[1],
        read,
        get_next(scalar("defaultPageOnTime")),
    ]
    shared: list[Step] = [replace(ask, group=number) for ask in others]
    yield Block(
        "other requests with one number", "not looked at", [*shared, look_at(scalar("defaultPageOnTime"))], True
    )
    first, second = (
        _again(put((scalar("defaultPageOnTime"), integer(1))))[0],
        _again(put((scalar("defaultPageOnTime"), integer(2))))[0],
    )
    yield Block(
        "an earlier request comes late",
        "repeated",
        [first, second, look_at(scalar("defaultPageOnTime")), first, look_at(scalar("defaultPageOnTime"))],
        True,
    )
    blank, refused = activate(context.blank_code(5, 255)), activate(context.code(Row(9, 1), 0x77))
    low, high = _again(activate(context.blank_code(3, 3)))[0], _again(activate(context.blank_code(9, 255)))[0]
    yield Block(
        "an activation repeated",
        "repeated",
        [*_again(blank), *look(), *_again(refused), *look(), *_again(blank), *look()],
        True,
    )
    yield Block("an activation that comes late", "repeated", [low, high, low, *look()], True)
    yield Block(
        "0 minutes repeated",
        "repeated",
        [put((scalar("dmsEndDurationMessage"), octets(b"\7\0\7\0\0"))), *_again(put(remaining(0))), *look()],
        True,
    )


def _rows(context: Context, row: Row) -> Iterator[Block]:
    filled = fill(row, context.character())
    validate = _again(put(row.status(RowStatus.VALIDATE_REQ)))
    early: list[Step] = [filled, *_again(put(row.status(RowStatus.VALIDATE_REQ))), *_again(modify(row)), *look(row)]
    yield Block("a publication out of order", "repeated", early, True)
    twice: list[Step] = [*_again(modify(row)), *_again(filled), Wait(0), *validate, Wait(1), *look(row)]
    yield Block("commands of a row repeated", "repeated", twice, True)
    late: list[Step] = [validate[0], look_at(row.cell(Column.STATUS)), *_again(unuse(row)), validate[0], *look(row)]
    yield Block("a validation that comes late", "repeated", late)


def _blocks(context: Context) -> Iterator[Block]:
    yield from _scalars(context)
    for row in context.rows[:1]:
        yield from _rows(context, row)


CHAPTER = Chapter("repeated", "Repeated and out of order", _blocks)

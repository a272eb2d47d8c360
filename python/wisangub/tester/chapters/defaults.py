"""Defaults: what they decide on, what was copied of them, and what does not follow."""

import itertools
from typing import Iterator

from wisangub.snmp.names import Memory
from wisangub.tester.context import Context, activate
from wisangub.tester.requests.objects import Row
from wisangub.tester.requests.steps import Step, Wait, put

from .block import Block, Chapter, fill, look, message, modify, reports, unuse, validate
from .telling import Telling, default, spoiling, staying, telling
from .validation import judged


def _decide(context: Context, row: Row) -> Iterator[Block]:
    """A text is judged under the defaults of now, at its validation and at its activation."""
    for at, held in enumerate(telling(context)):
        yield Block(
            f"a text under default {held.member}", "missing values", [held.other, *judged(row, held.text)], True
        )
        crc = context.crc(held.text)
        code, low = activate(context.code(row, crc)), activate(context.code(row, crc, 5))
        later = Wait(int(at == 0 or context.is_slow))
        steps: list[Step] = [
            *[held.good, *judged(row, held.text), held.bad, later, *look(row, rule="not followed"), code, *look(row)],
            *[held.good, code, *look(row), held.bad, *look(rule="copied")],
            *[activate(context.code(Row(Memory.CURRENT, 1), crc)), *look(rule="current buffer"), code, *look()],
            *[activate(context.blank_code(200)), low, reports()],
        ]
        yield Block(f"an activation under default {held.member}", "fits now", steps, True)
        if at == 0 or context.is_slow:
            yield from itertools.islice(_while_validating(row, held), 2 if context.is_slow else 1)


def _stay(context: Context, row: Row) -> Iterator[Block]:
    """Defaults of now hold on each line and page of a text that names none."""
    for member, other, text in staying(context):
        yield Block(f"default {member} stays in a text", "missing values", [other, *judged(row, text)], True)


def _last_row(context: Context, row: Row) -> Iterator[Block]:
    """The last row, of the other memory where there is one, a tick after the default has changed."""
    for held in telling(context)[:1]:
        code = activate(context.code(row, context.crc(held.text)))
        steps: list[Step] = [held.good, *judged(row, held.text), held.bad, Wait(1), *look(row, rule="not followed")]
        steps += [code, *look(row), held.good, code, *look()]
        yield Block("the last row under a default", "fits now", steps, True)


def _permanent(context: Context) -> Iterator[Block]:
    """Permanent messages are judged under the defaults of now too."""
    for row, held in zip(context.permanent, context.described.permanent):
        code = activate(context.code(row, context.crc(held.text, held.beacon, held.pixel)))
        for spoils in spoiling(context, held.text)[:1]:
            yield Block("a permanent message under a default", "fits now", [spoils, code, *look()], True)


def _while_validating(row: Row, held: Telling) -> Iterator[Block]:
    """The defaults at the tick decide, not those at the request."""
    for before, then in ((held.good, held.bad), (held.bad, held.good)):
        begun: list[Step] = [before, modify(row), fill(row, held.text), Wait(0), validate(row), then]
        yield Block("a default while a row validates", "missing values", [*begun, Wait(1), *look(row)], True)


def _copied(context: Context, row: Row) -> Iterator[Block]:
    text = context.character()
    changes: list[Step] = [
        put(*[default(member, value) for member, value in ((1, 3), (2, 4), (3, 7), (4, 8), (8, 9), (9, 10))]),
        *look(row),
    ]
    begun: list[Step] = [*message(row, text, b"owner", 0, 0, 9), activate(context.code(row, context.crc(text)))]
    after: list[Step] = [
        modify(row),
        put(row.text(b"other"), row.owner(b"you"), row.beacon(1), row.pixel(1), row.priority(200)),
        *look(row),
        unuse(row),
        *look(row),
        activate(context.blank_code(1, 8)),
        activate(context.blank_code(1, 9)),
        reports(),
    ]
    yield Block("what was copied", "copied", [*begun, *changes, *after], True)


def _kept(context: Context) -> Iterator[Block]:
    """Each default is its own object."""
    for member in range(1, 10):
        value = {5: context.described.face.fonts[-1].number, 6: 4, 7: 2}.get(member, 6)
        yield Block(f"default {member}", "set", [put(default(member, value)), *look()], True)
    yield Block(
        "after an activation",
        "copied",
        [put(default(8, 99)), activate(context.blank_code(1)), reports(), *look()],
        True,
    )


def _blocks(context: Context) -> Iterator[Block]:
    yield from _kept(context)
    yield from _permanent(context)
    for row in context.rows[1:][-1:]:
        yield from _last_row(context, row)
    for row in context.rows[:1]:
        yield from _decide(context, row)
        yield from _stay(context, row)
        yield from _copied(context, row)


CHAPTER = Chapter("defaults", "Defaults", _blocks)

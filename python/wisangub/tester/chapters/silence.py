"""Silence: what a sign does that hears nothing. It takes minutes, so it runs with --slow."""

from dataclasses import replace
from typing import Iterator

from wisangub.snmp import wire
from wisangub.snmp.names import Memory, scalar
from wisangub.tester.context import Context, activate
from wisangub.tester.requests.objects import NULL, Binding, Row, instance, integer, octets
from wisangub.tester.requests.steps import Ask, Raw, Step, Wait, fixed, get, get_next, put

from .block import Block, Chapter, look, reports


def _limit(minutes: int) -> Binding:
    return scalar("dmsTimeCommLoss"), integer(minutes)


def _begun(context: Context, code: bytes, minutes: int = 1) -> list[Step]:
    """Something is shown, and the silence counts from here on."""
    shown = activate(context.blank_code(200, 255, 65535, bytes([10, 9, 8, 7])))
    return [put((scalar("dmsCommunicationsLossMessage"), octets(code))), shown, Wait(1), put(_limit(minutes))]


def _dropped(community: bytes) -> Raw:
    """A Get that is not answered, and nothing after it."""

    def make(number: int, _: tuple[bytes, bytes]) -> bytes:
        return wire.written(wire.Message(wire.GET, community, number, 0, 0, [(scalar("vmsSignHeightPixels"), NULL)]))

    return Raw(make, is_quiet=True)


def _response() -> Raw:
    """A Response in the writer's community, and nothing after it."""

    def make(number: int, communities: tuple[bytes, bytes]) -> bytes:
        message = wire.Message(
            wire.RESPONSE, communities[1], number, 0, 0, [(scalar("vmsSignHeightPixels"), integer(1))]
        )
        return wire.written(message)

    return Raw(make, is_quiet=True)


def _blocks(context: Context) -> Iterator[Block]:
    blank = context.message_code(Row(Memory.BLANK, 7), 0)
    yield from _silences(context, blank)
    yield from _heard(context, blank)
    yield Block("a code that is refused", "own refused", [*_begun(context, b"\6\0\1\0\0"), Wait(60), *look()], True)
    yield Block(
        "a code of the current buffer", "own current", [*_begun(context, b"\5\0\1\0\0"), Wait(60), *look()], True
    )
    yield from _acted(context, blank)
    yield from _at_one_tick(context, blank)


def _silences(context: Context, blank: bytes) -> Iterator[Block]:
    """What is no answer lets a silence go on."""
    short: list[Step] = [
        *_begun(context, blank),
        Wait(59),
        reports(),
        Wait(59),
        reports(),
        Wait(60),
        reports(),
        *look(),
    ]
    yield Block("a minute of silence", "silence", short, True)
    quiet: list[Step] = [_dropped(b"nobody"), replace(fixed(b"\x30\0"), is_quiet=True), _response(), _dropped(b"")]
    waits: list[Step] = [step for ask in quiet for step in (Wait(12), ask)]
    yield Block(
        "a datagram that is dropped is silence", "heard", [*_begun(context, blank), *waits, Wait(12), *look()], True
    )


def _heard(context: Context, blank: bytes) -> Iterator[Block]:
    """What is answered ends a silence, an error too."""
    refused = Ask(wire.SET, ((scalar("vmsSignHeightPixels"), integer(1)),))
    yield Block(
        "an error is no silence",
        "heard",
        [*_begun(context, blank), Wait(30), refused, Wait(59), reports(), Wait(60), reports()],
        True,
    )
    reader = get(scalar("vmsSignHeightPixels"), is_writer=False)
    yield Block(
        "the reader is no silence", "heard", [*_begun(context, blank), Wait(30), reader, Wait(59), reports()], True
    )
    answered: list[Step] = [
        get_next(scalar("vmsSignHeightPixels")),
        get(instance(2, 5)),
        get_next(scalar("dmsActivateErrorMsgCode")),
        put(),
    ]
    answered += [
        put((scalar("defaultPageOnTime"), integer(9)), is_writer=False),
        get(*[scalar("dmsActivateMessage")] * 60),
    ]
    asked: list[Step] = [step for ask in answered for step in (Wait(30), ask)]
    steps = [*_begun(context, blank), *asked, Wait(59), reports(), Wait(60), reports()]
    yield Block("no answer is silence", "heard", steps, True)


def _acted(context: Context, blank: bytes) -> Iterator[Block]:
    """What a silence does it does once, and at its limit."""
    yield Block(
        "a silence acts once",
        "silence once",
        [*_begun(context, blank), Wait(60), reports(), Wait(60), reports(), Wait(30), reports()],
        True,
    )
    again = activate(context.blank_code(200, 255, 65535, bytes([10, 9, 8, 7])))
    yield Block(
        "a silence after a silence",
        "silence once",
        [*_begun(context, blank), Wait(60), again, Wait(59), reports(), Wait(60), reports()],
        True,
    )
    yield Block(
        "two minutes", "silence", [*_begun(context, blank, 2), Wait(119), reports(), Wait(120), reports()], True
    )
    yield Block("no limit", "silence", [*_begun(context, blank, 0), Wait(125), *look()], True)


def _at_one_tick(context: Context, blank: bytes) -> Iterator[Block]:
    ends: list[Step] = [
        put(
            (scalar("dmsEndDurationMessage"), octets(blank)),
            (scalar("dmsCommunicationsLossMessage"), octets(b"\5\0\1\0\0")),
        ),
        Wait(1),
        put((scalar("dmsActivateMessage"), octets(context.blank_code(200, 255, 1))), _limit(1)),
        Wait(60),
        *look(),
    ]
    yield Block("an end and a silence at one tick", "silence", ends, True)
    shown = context.blank_code(200, 255, 3)
    for row, held in zip(context.permanent[:1], context.described.permanent):
        shown = context.code(row, context.crc(held.text, held.beacon, held.pixel), 255, 3)
    before: list[Step] = [
        put((scalar("dmsCommunicationsLossMessage"), octets(blank))),
        Wait(1),
        put((scalar("dmsActivateMessage"), octets(shown)), _limit(1)),
    ]
    yield Block("a silence before an end", "silence", [*before, Wait(59), reports(), Wait(60), *look()], True)


CHAPTER = Chapter("silence", "Silence", _blocks, is_slow=True)

"""Durations: those of 0, what is written to the minutes, minutes as they are read, and with --slow whole minutes."""

from typing import Iterator

from wisangub.snmp.names import Memory, scalar
from wisangub.tester.context import ADDRESS, Context, activate, remaining
from wisangub.tester.requests.objects import Binding, Row, integer, octets
from wisangub.tester.requests.steps import Step, Wait, get, put

from .block import Block, Chapter, fill, look, message, modify, reports, validate
from .telling import telling

_REMAINING = scalar("dmsMessageTimeRemaining")
_OTHERS = (2, 3, 10, 59, 60, 61, 100, 255, 256, 1000, 32767, 32768, 65534)  # minutes
_ADDRESSES = (ADDRESS, bytes(4), bytes([255] * 4), bytes([10, 0, 0, 1]))  # nobody's too
_MANY = 16  # seconds: more than there are in a minute that is counted by quarters of a second, or by less
_CUT = 12015  # minutes of which the seconds are 4 in 16 bits, and in 8


def _end_code(code: bytes) -> Binding:
    return scalar("dmsEndDurationMessage"), octets(code)


def _at_end(context: Context) -> list[tuple[str, str, bytes]]:
    """End-duration codes, each with its rule."""
    codes = [
        ("blank message 7", "own activation", context.message_code(Row(Memory.BLANK, 7), 0)),
        ("blank message 1", "remaining", context.message_code(Row(Memory.BLANK, 1), 5)),
        ("the current buffer", "own current", b"\5\0\1\0\0"),
        ("the current buffer by another number", "own current", b"\5\0\7\x12\x34"),
        ("no type of memory", "own refused", b"\6\0\1\0\0"),
        ("no such row", "own refused", b"\7\1\0\0\0"),
    ]
    for row, held in zip(context.permanent[:1], context.described.permanent):
        crc = context.crc(held.text, held.beacon, held.pixel)
        codes += [
            ("a permanent message", "own activation", context.message_code(row, crc)),
            ("another checksum", "own refused", context.message_code(row, crc ^ 1)),
        ]
    for row in context.rows[:1]:
        codes.append(("a row that is not used", "own refused", context.message_code(row, 0)))
    return codes


def _at_once(context: Context) -> Iterator[Block]:
    shown = activate(context.blank_code(200, 255, 30, bytes([10, 9, 8, 7])))
    for name, rule, code in _at_end(context):
        yield Block(f"0 minutes: {name}", rule, [put(_end_code(code)), shown, put(remaining(0)), *look()], True)
    after = [shown, put(remaining(0)), put(remaining(5)), *look(), put(remaining(65535)), *look()]
    yield Block("minutes after an end", "remaining", after, True)
    failed = activate(context.code(Row(9, 9), 0x99))
    yield Block("0 minutes after a refusal", "own refused", [failed, put(remaining(0)), *look()], True)
    together = put(_end_code(context.message_code(Row(Memory.BLANK, 9), 0)), remaining(0))
    yield Block("0 minutes and their code at once", "remaining", [together, *look()], True)


def _unfit(context: Context, row: Row) -> Iterator[Block]:
    """A code of a row whose text does not fit under the defaults of now."""
    for held in telling(context)[:1]:
        code = put(_end_code(context.message_code(row, context.crc(held.text))))
        steps: list[Step] = [held.good, *message(row, held.text), code, held.bad, put(remaining(0)), *look()]
        again: list[Step] = [held.good, put(remaining(0)), *look()]
        yield Block("0 minutes: a row that does not fit", "own refused", [*steps, *again], True)


def _minutes(context: Context) -> Iterator[Block]:
    for value in (1, 2, 1000, 65534, 65535):
        yield Block(f"{value} minutes", "remaining", [put(remaining(value)), *look()], True)
    for value in (1, 2, 65534) if context.is_slow else (2,):
        steps: list[Step] = [put(remaining(value)), get(_REMAINING), Wait(1), get(_REMAINING)]
        steps += [Wait(1), get(_REMAINING)] if context.is_slow else []
        yield Block("minutes after seconds", "minutes", steps, True)
    for value in (1, 255, 65534):
        yield Block(
            f"an activation of {value} minutes", "shown", [activate(context.blank_code(4, 255, value)), *look()], True
        )
    for at, value in enumerate(_OTHERS):  # of different priorities and addresses; a block each, as a way may lose some
        code = context.blank_code(4, (4, 9, 100, 128, 254, 255)[at % 6], value, _ADDRESSES[at % len(_ADDRESSES)])
        yield Block(f"an activation of {value} minutes", "shown", [activate(code), get(_REMAINING)], True)
        written: list[Step] = [put(remaining(value)), get(_REMAINING), put(remaining(value)), get(_REMAINING)]
        yield Block(f"{value} minutes, and again", "remaining", written, True)
    for row, held in zip(context.permanent[:1], context.described.permanent):
        code = context.code(row, context.crc(held.text, held.beacon, held.pixel), 255, 2)
        yield Block("a permanent message for two minutes", "shown", [activate(code), get(_REMAINING)], True)
    yield from _units(context)
    longer: list[Step] = [put(remaining(1)), put(remaining(65535)), Wait(1), *look()]
    yield Block("no end after all", "remaining", longer, True)


def _units(context: Context) -> Iterator[Block]:
    """Minutes are no seconds and no tenths: what a minute is for does not come within seconds."""
    end, lost = (context.message_code(Row(Memory.BLANK, number), 0) for number in (7, 8))
    shown = activate(context.blank_code(200, 255, 1, bytes([10, 9, 8, 7])))
    code = scalar("dmsCommunicationsLossMessage"), octets(lost)
    quiet, longer = (put(code, (scalar("dmsTimeCommLoss"), integer(minutes))) for minutes in (1, 2))
    yield Block("a minute is no second", "ends", [put(_end_code(end)), shown, Wait(2), *look()], True)
    least: list[Step] = [put(_end_code(end)), put(remaining(1)), quiet, Wait(_MANY), *look(), put(_no_limit())]
    yield Block("minutes are no seconds", "ends", least, True)
    silent: list[Step] = [activate(context.blank_code(200)), longer, Wait(3), *look(), put(_no_limit()), *look()]
    yield Block("two minutes of silence are no seconds", "silence", silent, True)
    cut = put(code, (scalar("dmsTimeCommLoss"), integer(_CUT)))
    many: list[Step] = [activate(context.blank_code(200)), cut, Wait(5), *look(), put(_no_limit()), *look()]
    yield Block("a silence of so many seconds that 16 bits do not hold them", "silence", many, True)
    most: list[Step] = [activate(context.blank_code(4, 255, 65534)), Wait(1), *look(), put(remaining(600)), Wait(1)]
    yield Block("minutes in a second", "minutes", [*most, *look()], True)


def _no_limit() -> Binding:
    return scalar("dmsTimeCommLoss"), integer(0)


def _nothing_left(context: Context) -> Iterator[Block]:
    """A duration of 0 minutes ends at the next tick."""
    ends: list[Step] = [activate(context.blank_code(200, 255, 0, bytes([10, 9, 8, 7]))), *look(), Wait(1), *look()]
    yield Block(
        "0 minutes by an activation",
        "ends",
        [put(_end_code(context.message_code(Row(Memory.BLANK, 7), 0))), *ends],
        True,
    )
    yield Block("an end that is refused", "own refused", [put(_end_code(b"\3\0\0\0\0")), *ends], True)
    yield Block(
        "an end that keeps what is shown", "own current", [put(_end_code(b"\5\0\1\0\0")), *ends, Wait(1), *look()], True
    )
    for row in context.rows[:1]:
        text = context.character()
        begun = [
            *message(row, text, b"", 0, 0, 255),
            put(_end_code(context.message_code(row, context.crc(text)))),
            activate(context.blank_code(1, 255, 0)),
        ]
        yield Block("an end that shows a row", "own activation", [*begun, Wait(1), *look(row)], True)
        together: list[Step] = [
            modify(row),
            fill(row, text, b"", 0, 0, 255),
            put(_end_code(context.message_code(row, context.crc(text)))),
            Wait(0),
            validate(row),
            activate(context.blank_code(1, 255, 0)),
            Wait(1),
        ]
        yield Block("an end at the tick of a validation", "settled", [*together, *look(row)], True)


def _whole(context: Context) -> Iterator[Block]:
    """Whole minutes, to the tick."""
    code = put(_end_code(context.message_code(Row(Memory.BLANK, 7), 0)))
    for begin in (activate(context.blank_code(200, 255, 1)), put(remaining(1))):
        late: list[Step] = [code, Wait(1), begin, Wait(59), reports(), Wait(1), reports(), Wait(1), reports()]
        yield Block("a minute", "ends", late, True)
    steps: list[Step] = [
        Wait(1),
        put(remaining(3)),
        Wait(59),
        get(_REMAINING),
        Wait(1),
        get(_REMAINING),
        Wait(1),
        get(_REMAINING),
    ]
    yield Block("three minutes as they pass", "minutes", steps, True)
    endless: list[Step] = [put(remaining(65535)), Wait(61), get(_REMAINING)]
    yield Block("no end after a minute", "remaining", endless, True)
    shown: list[Step] = [activate(context.blank_code(200)), Wait(61), get(_REMAINING)]
    yield Block("an activation without end after a minute", "minutes", shown, True)


def _blocks(context: Context) -> Iterator[Block]:
    yield from _at_once(context)
    for row in context.rows[:1]:
        yield from _unfit(context, row)
    yield from _minutes(context)
    yield from _nothing_left(context)
    if context.is_slow:
        yield from _whole(context)


CHAPTER = Chapter("durations", "Durations", _blocks)

"""Lines that wait for a disk: what is kept in little memory leaves a sign as the lines themselves do."""

import random
from unittest import mock

from model import text, wire
from model.sign import Sign
from wisangub.endpoint import owed
from wisangub.endpoint.owed import Owed, Polls

LOSS = (1, 3, 6, 1, 4, 1, 1206, 4, 2, 3, 6, 13, 0)
MESSAGE = (1, 3, 6, 1, 4, 1, 1206, 4, 2, 3, 6, 12, 0)
SHOWN = [(1, 3, 6, 1, 4, 1, 1206, 4, 2, 3, 6, part, 0) for part in (4, 5, 6, 7, 17, 24)]
ACTIVATE = (1, 3, 6, 1, 4, 1, 1206, 4, 2, 3, 6, 3, 0)


def sign(minutes: int) -> Sign:
    """A sign that shows a blank message for three minutes, and after so many silent ones another."""
    made = Sign(text.bench())
    code = (3).to_bytes(2, "big") + bytes.fromhex("ff") + bytes.fromhex("0700090000") + bytes(4)
    for name, value in (
        (LOSS, (wire.INTEGER, minutes)),
        (MESSAGE, (wire.OCTETS, bytes.fromhex("0700080000"))),
        (ACTIVATE, (wire.OCTETS, code)),
    ):
        made.receive(wire.written(wire.Message(wire.SET, b"admin", 1, 0, 0, [(name, value)])))
    return made


def handed(made: Sign, lines: list[bytes]) -> None:
    for line in lines:
        if line == b"heard":
            made.showing.heard()
        else:
            made.showing.ticks(int(line[6:]))


def all_of(some: Owed) -> list[bytes]:
    """What is written of it, part by part."""
    lines: list[bytes] = []
    while part := some.some():
        lines += part
        some.drop(len(part))
    assert not some
    return lines


def test_polls_in_little_memory_leave_the_same_sign() -> None:
    chance = random.Random(7)
    for _ in range(9):
        some, exact = Owed(), []
        with mock.patch.object(owed, "MOST_EXACT", chance.choice([1, 4, 9])):
            for _ in range(chance.randrange(60)):
                seconds = chance.choice([0, 1, 7, 30, 59, 60, 61, 119, 120, 150, 180, 200])
                if seconds:
                    some.ticks(seconds)
                    exact.append(b"ticks %d" % seconds)
                if chance.random() < 0.8:
                    some.add([b"heard"])
                    exact.append(b"heard")
            for minutes in range(3):
                one, other = sign(minutes), sign(minutes)
                handed(one, exact)
                handed(other, all_of_copy(some))
                for more in (0, 1, 59, 60):
                    handed(one, [b"ticks %d" % more])
                    handed(other, [b"ticks %d" % more])
                    assert [one.objects.value(name) for name in SHOWN] == [other.objects.value(name) for name in SHOWN]


def all_of_copy(some: Owed) -> list[bytes]:
    copy = Owed()
    copy.first = list(some.first)
    if some.polls:
        copy.polls = Polls()
        copy.polls.parts, copy.polls.seconds = list(some.polls.parts), some.polls.seconds
        copy.polls.most = some.polls.most
    return all_of(copy)


def test_a_disk_that_refuses_for_long_takes_no_more_memory() -> None:
    some = Owed()
    for _ in range(24 * 3600):
        some.ticks(10)
        some.add([b"heard"])
    assert len(some.first) == owed.MOST_EXACT and some.polls is not None and len(some.polls.parts) == 1
    seconds = sum(int(line[6:]) for line in all_of(some) if line != b"heard")
    assert seconds == 24 * 36_000


def test_seconds_in_a_row_are_one_line() -> None:
    some = Owed()
    for _ in range(5):
        some.ticks(3)
    some.add([b"heard"])
    some.ticks(2)
    assert all_of(some) == [b"ticks 15", b"heard", b"ticks 2"]

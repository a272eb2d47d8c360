"""What waits at a sign's front end is recorded with one sync, handed over in one write, and answered in order."""

import os
import pathlib
import tempfile
from typing import Any
from unittest import mock

from model import wire
from wisangub.endpoint.clock import Moment
from wisangub.endpoint.journal import Journal
from wisangub.endpoint.keeper import Keeper
from wisangub.endpoint.limit import Limit
from wisangub.endpoint.records import Head
from wisangub.endpoint.sign_front_end import AT_ONCE, Heard, SignFrontEnd, line_of
from wisangub.endpoint.sorts import Sort, sort_of
from wisangub.refusal import Refusal

NOW = Moment("one", 1000, 10)
WHO = (b"public", b"admin")
COUNTER = (1, 3, 6, 1, 4, 1, 1206, 4, 2, 3, 6, 10, 0)


def request(kind: int, number: int, community: bytes = b"admin") -> bytes:
    value = (wire.NULL, b"") if kind == wire.GET else (wire.INTEGER, 7)
    return bytes(wire.written(wire.Message(kind, community, number, 0, 0, [(COUNTER, value)])))


class Ends:
    """A socket with datagrams that wait, a process that answers each line by its own digits, and a disk: what was done
    to them, in order."""

    def __init__(self, waiting: list[bytes]) -> None:
        self.waiting = waiting
        self.unanswered = [line_of(octets) for octets in waiting if sort_of(octets, *WHO) is Sort.UNANSWERED]
        self.done: list[Any] = []
        self.looks = 0

    def recvfrom(self, *_: Any) -> tuple[bytes, tuple[str, int]]:
        self.looks += 1
        if not self.waiting:
            raise BlockingIOError
        octets = self.waiting.pop(0)
        return octets, ("127.0.0.1", 1000 + len(octets))

    def sendto(self, octets: bytes, peer: tuple[str, int]) -> None:
        assert peer == ("127.0.0.1", 1000 + len(octets))
        self.done.append(octets)

    def hand(self, lines: list[bytes]) -> list[bytes]:
        self.done.append(lines)
        return [b"dropped" if line in self.unanswered else b"reply " + line.partition(b" ")[2] for line in lines]

    def write(self, _: int, octets: bytes) -> int:
        self.done.append("write")
        return len(octets)

    def fdatasync(self, _: int) -> None:
        self.done.append("fdatasync")


def served(waiting: list[bytes], is_kept: bool, most: int = 1000) -> tuple[list[Any], list[bytes]]:
    """What a front end does with what waits, and the lines that it records."""
    ends: Any = Ends(waiting)
    with tempfile.TemporaryDirectory() as folder:
        path = pathlib.Path(folder, "journal")
        journal = Journal.opened(str(path), Head("sign", "bench"))
        keeper = Keeper(journal)
        keeper.start(NOW, None)
        written, synced = os.write, os.fdatasync
        limit = Limit[Heard](most)
        front_end = SignFrontEnd(ends, ends, keeper if is_kept else None, None, 10.0, 0, True, WHO, limit)
        with mock.patch("os.write", lambda *words: ends.write(*words) and written(*words)):
            with mock.patch("os.fdatasync", lambda file: ends.fdatasync(file) or synced(file)):
                while found := front_end.waiting_datagrams():
                    front_end.answer(found)
        lines = [line for some in journal.lines() for line in some]
        journal.close()
    return ends.done, lines


def test_sixteen_that_wait_have_one_sync_and_one_write() -> None:
    sets = [request(wire.SET, number) for number in range(20)]
    lines = [line_of(octets) for octets in sets]
    done, kept = served(list(sets), True)
    first = ["write", "fdatasync", lines[:AT_ONCE], *sets[:AT_ONCE]]
    assert AT_ONCE == 16 and done == [*first, "write", "fdatasync", lines[AT_ONCE:], *sets[AT_ONCE:]]
    assert kept == lines
    assert served(list(sets), False)[0] == [lines[:AT_ONCE], *sets[:AT_ONCE], lines[AT_ONCE:], *sets[AT_ONCE:]]


def test_where_they_come_one_at_a_time_more_are_seldom_looked_for() -> None:
    get = request(wire.GET, 1)
    ends: Any = Ends([])
    front_end = SignFrontEnd(ends, ends, None, None, 10.0)
    for _ in range(170):
        ends.waiting.append(get)
        assert len(front_end.waiting_datagrams()) == 1
    assert ends.looks == 180
    ends.waiting += [get] * 160
    sizes: list[int] = []
    while ends.waiting:
        sizes.append(len(front_end.waiting_datagrams()))
    assert sizes.count(1) <= 16 and set(sizes[sizes.count(1) : -1]) == {AT_ONCE}, "more are looked for soon"


def test_gets_are_handed_over_first_and_leave_one_record_without_a_sync() -> None:
    gets = [request(wire.GET, number) for number in range(3)]
    lines = [line_of(octets) for octets in gets]
    assert served(list(gets), True) == ([lines, *gets, "write"], [b"heard"])


def test_gets_and_sets_that_wait_together_are_answered_in_order() -> None:
    some = [request(wire.GET, 1), request(wire.SET, 2), request(wire.GET, 3), request(wire.SET, 4)]
    lines = [line_of(octets) for octets in some]
    assert served(list(some), True) == (["write", "fdatasync", lines, *some], [lines[1], lines[3]])


def test_what_no_sign_answers_is_handed_over_and_not_recorded() -> None:
    get = request(wire.GET, 1)
    done, kept = served([b"", get], True)
    assert done == [[b"datagram -", line_of(get)], get, "write"]
    assert kept == [b"heard"]
    for octets in (request(wire.RESPONSE, 1), request(wire.SET, 1, b"none"), request(wire.SET, 1)[:-1]):
        done, kept = served([octets], True)
        assert done[0] == [line_of(octets)] and kept == []


def test_a_set_of_the_reader_is_heard() -> None:
    octets = request(wire.SET, 1, b"public")
    assert served([octets], True) == ([[line_of(octets)], octets, "write"], [b"heard"])


def test_an_answer_to_what_no_sign_answers_ends_the_front_end() -> None:
    for octets, answer in ((b"", b"reply 30"), (request(wire.GET, 1), b"accepted 00 30")):
        with mock.patch.object(Ends, "hand", lambda *_: [answer]):
            try:
                served([octets], True)
                found = ""
            except Refusal as refused:
                found = str(refused)
        assert found == "the program answered what no sign answers: it is not recorded"


def test_so_many_of_the_writer_are_recorded_and_others_wait() -> None:
    sets = [request(wire.SET, number) for number in range(100)]
    lines = [line_of(octets) for octets in sets]
    done, kept = served([*sets, request(wire.GET, 1)], True, 20)
    assert kept == lines[:20] and done[-1] == request(wire.GET, 1)

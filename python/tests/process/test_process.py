"""A co-process: small pipes, another program, what is read of a socket and of an operator."""

import contextlib
import fcntl
import os
import select
import socket
import sys
from typing import Any

from model import wire
from wisangub.endpoint import commands
from wisangub.endpoint.sockets import MOST_FAULTS, readable, received
from wisangub.process.coprocess import CoProcess
from wisangub.process.places import TOP
from wisangub.refusal import Refusal

MODEL = str(TOP / "model/signtool")
COUNTER = (1, 3, 6, 1, 4, 1, 1206, 4, 2, 3, 6, 10, 0)


def test_pipes_that_are_full_both_ways_take_all() -> None:
    process = CoProcess(MODEL, ["sign"])
    for file in (process.input, process.output):
        fcntl.fcntl(file, fcntl.F_SETPIPE_SZ, 4096)
    process.begin(b"state", "the model")
    names: list[tuple[tuple[int, ...], tuple[int, object]]] = [(COUNTER, (wire.NULL, b""))] * 60
    request = wire.written(wire.Message(wire.GET, b"public", 7, 0, 0, names))
    answers = process.hand([b"datagram " + request.hex().encode()] * 16)
    assert len(answers) == 16 and all(answer.startswith(b"reply 3082") for answer in answers)
    assert process.replay([[b"tick"] * 5000, [], [b"datagram " + request.hex().encode()] * 40]) == 5040
    assert process.hand([b"tick"]) == [b"ok"]
    process.end()


def test_a_program_that_answers_otherwise_is_refused() -> None:
    for program, words in (("/usr/bin/yes", "does not answer as signtool does"), ("/bin/false", "with status 1")):
        try:
            CoProcess(program, ["sign"]).begin(b"state", "a sign")
            found = ""
        except Refusal as refused:
            found = str(refused)
        assert words in found, (program, found)


def test_an_answer_of_many_lines_is_read_whole() -> None:
    process = CoProcess(MODEL, ["centre"])
    process.begin(b"status", "the model")
    for number in range(1, 200):
        assert process.hand([b"blank 1 65535 255 127.0.0.1"])[0].startswith(b"send ")
        assert process.hand([b"restart"]) == [b"ok"]
    answer = process.ask(b"status")
    assert len(answer) == 199 + 3 and answer[0] == b"idle" and answer[-1] == b"ok"
    process.end()


def test_a_bad_line_is_told_by_its_first_two_words() -> None:
    for answer in ("bad line", "bad line word 2: a number from 0 to 65535 is wanted"):
        process = CoProcess("/bin/sh", ["-c", f"while read -r line; do echo '{answer}'; done"])
        assert process.ask(b"blank x") == [answer.encode()]
        process.end()


class Faulty:
    """A socket that tells of faults before it has a datagram."""

    def __init__(self, faults: int) -> None:
        self.faults = faults

    def recvfrom(self, *_: Any) -> tuple[bytes, tuple[str, int]]:
        self.faults -= 1
        if self.faults >= 0:
            raise OSError(113, "No route to host")
        return b"30", ("127.0.0.1", 1)


def test_a_machine_that_is_off_is_no_datagram() -> None:
    one: Any = Faulty(3)
    assert received(one) == (b"30", ("127.0.0.1", 1))
    other: Any = Faulty(MOST_FAULTS)
    assert received(other) is None
    with socket.socket(socket.AF_INET, socket.SOCK_DGRAM) as udp_socket:
        udp_socket.bind(("127.0.0.1", 0))
        assert received(udp_socket) is None


def test_sockets_at_which_something_waits() -> None:
    with contextlib.ExitStack() as stack:
        held = [stack.enter_context(socket.socket(socket.AF_INET, socket.SOCK_DGRAM)) for _ in range(3)]
        for one in held:
            one.bind(("127.0.0.1", 0))
        assert readable([]) == set() and readable(held) == set()
        held[0].sendto(b"30", held[1].getsockname())
        assert readable(held) == {held[1].fileno()}


class Always:
    """What waits for a file, and is never interrupted."""

    is_stopped = False

    def until(self, files: list[int], seconds: float | None) -> list[int]:
        return select.select(files, [], [], seconds)[0]


def lines(octets: bytes) -> list[str | None]:
    """The lines of a standard input with these octets."""
    reader, writer = os.pipe()
    child = os.fork()
    if child == 0:
        try:
            os.close(reader)
            os.write(writer, octets)
        finally:
            os._exit(0)
    os.close(writer)
    before, waiting = sys.stdin, Always()
    try:
        with open(reader, encoding="utf-8") as file:
            sys.stdin = file
            return list(commands.lines(waiting))  # type: ignore[arg-type]
    finally:
        sys.stdin = before
        os.waitpid(child, 0)


def test_lines_of_an_operator() -> None:
    assert lines(b"") == []
    assert lines(b"\n # a\nstatus\r\n  blank 1 \n\xff\nlast") == ["status", "blank 1", None, "last"]
    assert lines(b"a" * 65_536 + b"\nb\n") == ["a" * 65_536, "b"]
    assert lines(b"a" * 65_537 + b"\nb\n") == [None, "b"]
    assert lines(b"\0" * 700_000 + b"\nb") == [None, "b"]
    assert lines(b"\0" * 700_000) == [None]

"""Standard output whose reader stands still: a sign goes on answering, and its lines wait in their order."""

import contextlib
import os
import pathlib
import select
import signal
import socket
import subprocess
import sys
import threading
import time
from collections.abc import Callable, Iterator
from typing import Any

import pytest

from wisangub.endpoint import printing
from wisangub.endpoint.printing import Printed
from wisangub.process.places import SIGND, TOP, environment
from wisangub.snmp import wire
from wisangub.snmp.names import DMS

from . import with_objects
from .test_standard_error import _emptied, _full
from .waiting import PATIENCE, until

ACTIVATE = DMS + (6, 3, 0)
BLANK = bytes.fromhex("ffffff07000100007f000001")
ACCEPTED = "accepted ffffff07000100007f000001"


def free_port() -> int:
    with socket.socket(socket.AF_INET, socket.SOCK_DGRAM) as free:
        free.bind(("127.0.0.1", 0))
        return int(free.getsockname()[1])


def stands(front_end: with_objects.Served) -> None:
    """Waits until it answers."""
    front_end.manager.settimeout(0.2)
    get = wire.written(wire.Message(wire.GET, with_objects.READER, 1, bindings=[(ACTIVATE, (wire.NULL, b""))]))

    def answers() -> bool:
        try:
            front_end.manager.send(get)
            return bool(front_end.manager.recv(2000))
        except OSError:
            return False

    until(answers, "it answers")
    while answers_more(front_end.manager):
        pass


def answers_more(manager: socket.socket) -> bool:
    """Takes an answer that came late."""
    if not select.select([manager], [], [], 0.3)[0]:
        return False
    manager.recv(2000)
    return True


def of_python(*words: str) -> list[str]:
    return with_objects.call(*words)


def of_c(*words: str) -> list[str]:
    return [str(SIGND), *words, str(TOP / "signs/bench.sign")]


FRONT_ENDS = pytest.mark.parametrize(
    "call", [of_python, pytest.param(of_c, marks=pytest.mark.skipif(not SIGND.is_file(), reason="no signd is built"))]
)


@FRONT_ENDS
def test_a_sign_answers_though_nobody_reads_what_it_prints(
    tmp_path: pathlib.Path, call: Callable[..., list[str]]
) -> None:
    """Also activations, of which it prints a line each, and a change of an object: the lines are there later."""
    objects = tmp_path / "objects"
    objects.write_text("object 1.3.6.1.2.1.1.5.0 OCTET STRING 67616e747279 octets 0 255\n")
    port, journal = free_port(), str(tmp_path / "journal")
    words = call("--port", str(port), "--objects", str(objects), "--journal", journal)
    with _full() as (read, write), socket.socket(socket.AF_INET, socket.SOCK_DGRAM) as manager:
        manager.connect(("127.0.0.1", port))
        with subprocess.Popen(words, stdout=write, stderr=subprocess.DEVNULL, env=environment()) as process:
            front_end = with_objects.Served(process, manager=manager)
            try:
                stands(front_end)
                for _ in range(3):
                    assert front_end.put((ACTIVATE, (wire.OCTETS, BLANK))) == (wire.NO_ERROR, 0)
                name = ((1, 3, 6, 1, 2, 1, 1, 5, 0), (wire.OCTETS, b"roadside"))
                assert front_end.put(name) == (wire.NO_ERROR, 0)
                assert front_end.put((ACTIVATE, (wire.OCTETS, BLANK))) == (wire.NO_ERROR, 0)
                said = [_emptied(read).lstrip(b"x")]

                def is_said() -> bool:
                    said[0] += _emptied(read)
                    return said[0].count(b"accepted") == 4

                until(is_said, "what waited")
                lines = said[0].decode().splitlines()
                wanted = [ACCEPTED] * 3 + ["set 1.3.6.1.2.1.1.5.0 OCTET STRING 726f616473696465", ACCEPTED]
                assert lines == [f"a sign at 127.0.0.1:{port}", *wanted]
            finally:
                process.kill()


@FRONT_ENDS
def test_a_reader_that_stands_still_keeps_no_sign_from_ending(call: Callable[..., list[str]]) -> None:
    port = free_port()
    with _full() as (_, write), socket.socket(socket.AF_INET, socket.SOCK_DGRAM) as manager:
        manager.connect(("127.0.0.1", port))
        words = call("--port", str(port))
        with subprocess.Popen(words, stdout=write, stderr=subprocess.DEVNULL, env=environment()) as process:
            try:
                stands(with_objects.Served(process, manager=manager))
                process.send_signal(signal.SIGTERM)
                assert process.wait(PATIENCE) == 0
            finally:
                process.kill()


@contextlib.contextmanager
def full(monkeypatch: pytest.MonkeyPatch) -> Iterator[tuple[Printed, int]]:
    """Lines to a pipe that takes nothing, and its end to read."""
    with _full() as (read, write), os.fdopen(os.dup(write), "w", encoding="utf-8") as file:
        monkeypatch.setattr(sys, "stdout", file)
        yield Printed(file.fileno()), read


def test_lines_that_are_not_taken_wait_in_their_order(monkeypatch: pytest.MonkeyPatch) -> None:
    with full(monkeypatch) as (printed, read):
        lines = [f"line {at} \u00fc" for at in range(5000)]
        for line in lines:
            printed.print(line)
        assert printed.is_waiting
        found = b""
        while printed.is_waiting:
            found += _emptied(read)
            printed.turn()
        found += _emptied(read)
        assert found.lstrip(b"x").decode().splitlines() == lines


def test_of_too_many_lines_it_is_said_how_many_were_left_out(monkeypatch: pytest.MonkeyPatch) -> None:
    """In their place: what was printed before stands before, and what is printed later after it."""
    monkeypatch.setattr(printing, "MOST", 100)
    with full(monkeypatch) as (printed, read):
        for at in range(30):
            printed.print(f"line {at:03}")
        found = _emptied(read)
        printed.print("a line of later")
        printed.turn()
        found += _emptied(read)
        lines = found.lstrip(b"x").decode().splitlines()
        assert lines == [
            *(f"line {at:03}" for at in range(11)),
            "left out 19 lines: nobody took them",
            "a line of later",
        ]


def test_what_was_left_out_last_is_said_too(monkeypatch: pytest.MonkeyPatch) -> None:
    monkeypatch.setattr(printing, "MOST", 10)
    with full(monkeypatch) as (printed, read):
        for line in ("first", "second"):
            printed.print(line)
        found = _emptied(read)
        printed.turn()
        found += _emptied(read)
        assert found.lstrip(b"x") == b"first\nleft out 1 line: nobody took them\n" and not printed.is_waiting


def test_a_long_line_is_written_in_parts(monkeypatch: pytest.MonkeyPatch) -> None:
    with full(monkeypatch) as (printed, read):
        for line in (5 * 4096 * "l", "short"):
            printed.print(line)
        found = b""
        for _ in range(20):
            found += os.read(read, 4096)
            printed.turn()
        assert (found + _emptied(read)).lstrip(b"x") == 5 * 4096 * b"l" + b"\nshort\n"


def test_where_nobody_reads_any_more_it_goes_on(monkeypatch: pytest.MonkeyPatch) -> None:
    read, write = os.pipe()
    with os.fdopen(write, "w", encoding="utf-8") as file:
        monkeypatch.setattr(sys, "stdout", file)
        os.close(read)
        printed = Printed(write)
        for _ in range(3):
            printed.print("nobody reads it")
        assert not printed.is_waiting


def test_without_standard_output_nothing_is_written_elsewhere(monkeypatch: pytest.MonkeyPatch) -> None:
    """A process that began without it may have its socket in that place."""
    read, write = os.pipe()
    try:
        for nowhere in (None, Nowhere()):
            monkeypatch.setattr(sys, "stdout", nowhere)
            Printed(write).print("a line")
        assert select.select([read], [], [], 0)[0] == []
    finally:
        os.close(read)
        os.close(write)


class Nowhere:
    """What stands in the place of standard output, and is no file."""

    def __getattr__(self, name: str) -> Any:
        raise AttributeError(name)

    def write(self, words: str) -> int:
        return len(words)

    def flush(self) -> None:
        pass


def test_the_last_lines_wait_a_moment_for_their_reader(monkeypatch: pytest.MonkeyPatch) -> None:
    with full(monkeypatch) as (printed, _):
        printed.print("the last")
        before = time.monotonic()
        printed.end()
        assert 0.9 < time.monotonic() - before < 10


class Reading(threading.Thread):
    """A reader that takes all, up to a line `end`."""

    def __init__(self, file: int) -> None:
        super().__init__(daemon=True)
        self.file, self.octets = file, b""

    def run(self) -> None:
        while not self.octets.endswith(b"\nend\n"):
            self.octets += os.read(self.file, 4096)


def test_nothing_is_left_out_for_a_reader_that_takes_lines(monkeypatch: pytest.MonkeyPatch) -> None:
    """However long it is, as the ledger of a centre: the reader has a moment to take what waits before it."""
    monkeypatch.setattr(printing, "MOST", 1000)
    with full(monkeypatch) as (printed, read):
        blocks = ["\n".join(f"line {at} of {block}" for at in range(20_000)) for block in range(3)]
        reader = Reading(read)
        printed.print(blocks[0], 10_000)
        reader.start()
        for block in (*blocks[1:], "end"):
            printed.print(block, 10_000)
        printed.end()
        reader.join(PATIENCE)
        assert reader.octets.lstrip(b"x").decode().split("\n") == [*"\n".join(blocks).split("\n"), "end", ""]


def test_a_reader_that_stands_still_is_waited_for_once(monkeypatch: pytest.MonkeyPatch) -> None:
    monkeypatch.setattr(printing, "MOST", 10)
    with full(monkeypatch) as (printed, read):
        before = time.monotonic()
        for line in ("first", "second\nin two", "third", "fourth"):
            printed.print(line, 500)
        assert 0.4 < time.monotonic() - before < 10
        found = _emptied(read)
        printed.turn()
        assert (found + _emptied(read)).lstrip(b"x") == b"first\nleft out 4 lines: nobody took them\n"

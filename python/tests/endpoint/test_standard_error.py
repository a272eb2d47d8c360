"""Standard error whose reader stands still: a front end goes on, and says later how much it left out."""

import contextlib
import os
import signal
import socket
import subprocess
import sys
import time
from collections.abc import Iterator

import pytest

from wisangub.output import LOG
from wisangub.process.places import environment

from . import with_centres, with_objects
from .waiting import PATIENCE, until


@contextlib.contextmanager
def _full() -> Iterator[tuple[int, int]]:
    """A pipe that takes nothing, as if another had filled it."""
    read, write = os.pipe()
    os.set_blocking(write, False)
    with contextlib.suppress(BlockingIOError):
        while True:
            os.write(write, 4096 * b"x")
    os.set_blocking(write, True)
    try:
        yield read, write
    finally:
        os.close(read)
        os.close(write)


def _emptied(read: int) -> bytes:
    """What the pipe has, all of it."""
    os.set_blocking(read, False)
    octets = b""
    with contextlib.suppress(BlockingIOError):
        while more := os.read(read, 1 << 16):
            octets += more
    return octets


def _said(read: int, words: bytes) -> bytes:
    """What comes next, up to these words."""
    octets = [b""]

    def is_said() -> bool:
        octets[0] += _emptied(read)
        return words in octets[0]

    until(is_said, words.decode())
    return octets[0]


def test_a_sign_answers_though_nobody_reads_its_standard_error(tmp_path: "os.PathLike[str]") -> None:
    objects = os.path.join(tmp_path, "objects")
    with open(objects, "w", encoding="utf-8") as file:
        file.write("object 1.3.6.1.2.1.1.5.0 OCTET STRING 67616e747279 octets 0 255\n")
    call = with_objects.call("--objects", objects)
    with _full() as (read, write), socket.socket(socket.AF_INET, socket.SOCK_DGRAM) as manager:
        with subprocess.Popen(call, stdout=subprocess.PIPE, stderr=write, env=environment()) as process:
            assert process.stdout is not None
            front_end = with_objects.Served(process, manager=manager)
            try:
                at = process.stdout.readline().decode()
                assert at.startswith("a sign at "), "the start says that nothing is kept"
                manager.connect(("127.0.0.1", int(at.rpartition(":")[2])))
                assert front_end.get(with_objects.COUNTER) == [(2, 0)]
                process.send_signal(signal.SIGHUP)
                time.sleep(0.3)
                assert front_end.get(with_objects.COUNTER) == [(2, 0)], "the SIGHUP says what it did"
                assert set(_emptied(read)) == {ord("x")}
                process.send_signal(signal.SIGHUP)
                front_end.get(with_objects.COUNTER)
                said = _said(read, b"are withdrawn\n").decode().splitlines()
                assert said[0] == "2 lines were left out here: nobody took what was said"
                assert [line for line in said[1:] if "objects are published" not in line] == []
            finally:
                process.kill()


def test_a_centre_goes_on_though_nobody_reads_its_standard_error() -> None:
    with with_centres.BenchSign() as sign, _full() as (_, write):
        call = with_centres.call("--to", f"127.0.0.1:{sign.port()}")
        with subprocess.Popen(
            call, stdin=subprocess.PIPE, stdout=subprocess.PIPE, stderr=write, env=environment()
        ) as process:
            try:
                printed = process.communicate(with_centres.BLANK.encode() + b"\n", PATIENCE)[0].decode()
                assert "last accepted" in printed.splitlines()
            finally:
                process.kill()


def test_why_a_front_end_ends_does_not_keep_it_from_ending() -> None:
    with _full() as (_, write):
        call = with_objects.call("--sign", "/nowhere")
        ended = subprocess.run(
            call, stdout=subprocess.DEVNULL, stderr=write, env=environment(), timeout=30, check=False
        )
    assert ended.returncode == 2


def test_a_line_that_is_long_is_begun_anew(monkeypatch: pytest.MonkeyPatch) -> None:
    """In parts, as far as they are taken; the next begins in a line of its own, behind what is said of it."""
    with _full() as (read, write), os.fdopen(os.dup(write), "w", encoding="utf-8") as file:
        monkeypatch.setattr(sys, "stderr", file)
        LOG.info("left out")
        os.read(read, 3 * 4096)
        LOG.info(5 * 4096 * "l")
        LOG.info("left out")
        _emptied(read)
        LOG.info("\u00fc is written")
        LOG.info("and so is this")
        assert _emptied(read).decode() == (
            "\n2 lines were left out here: nobody took what was said\n\u00fc is written\nand so is this\n"
        )


def test_an_error_waits_a_moment_for_its_reader(monkeypatch: pytest.MonkeyPatch) -> None:
    """Once: the next ones find that nobody reads."""
    with _full() as (_, write), os.fdopen(os.dup(write), "w", encoding="utf-8") as file:
        monkeypatch.setattr(sys, "stderr", file)
        before = time.monotonic()
        for _ in range(20):
            LOG.error("why it ends")
        assert 0.9 < time.monotonic() - before < 10

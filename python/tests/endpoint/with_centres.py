"""A centre's front end over the model, and the model's bench sign that it speaks to, for tests of its journal."""

import contextlib
import socket
import subprocess
import threading
from collections.abc import Iterator
from dataclasses import dataclass
from typing import Any, Self

from model import text, wire
from model.sign import Sign

from . import started
from .started import Started
from .waiting import PATIENCE, until

BLANK = "blank 1 65535 255 127.0.0.1"


class BenchSign(threading.Thread):
    """The model's bench sign at a port of its own: what it heard. A second passes before each datagram. It is silent
    where that is wanted."""

    def __init__(self) -> None:
        super().__init__(daemon=True)
        self.model, self.is_silent = Sign(text.bench()), False
        self.socket = socket.socket(socket.AF_INET, socket.SOCK_DGRAM)
        self.socket.bind(("127.0.0.1", 0))
        self.heard: list[bytes] = []

    def run(self) -> None:
        while octets := (found := self.socket.recvfrom(2048))[0]:
            for reply in self.replies(octets, found[1]):
                self.socket.sendto(reply, found[1])

    def replies(self, octets: bytes, _peer: Any) -> list[bytes]:
        """What it says to a datagram of a peer."""
        self.heard.append(octets)
        self.model.tick()
        reply = None if self.is_silent else self.model.receive(octets)[0]
        return [reply] if reply else []

    def port(self) -> int:
        return int(self.socket.getsockname()[1])

    def numbers(self) -> list[int]:
        """The numbers of the requests that it heard, which have each the same octets."""
        asked: dict[int, bytes] = {}
        for octets in self.heard:
            number = wire.read(octets).number
            assert asked.setdefault(number, octets) == octets, f"number {number} went out twice"
        return [*asked]

    def __enter__(self) -> Self:
        self.start()
        return self

    def __exit__(self, *_: object) -> None:
        with socket.socket(socket.AF_INET, socket.SOCK_DGRAM) as own:
            own.sendto(b"", self.socket.getsockname())
        self.join(PATIENCE)
        self.socket.close()


@dataclass
class Operated(Started):
    """The front end's process, which an operator speaks to."""

    def order(self, line: str) -> None:
        """An operator's line."""
        assert self.process.stdin is not None
        self.process.stdin.write(line.encode() + b"\n")
        self.process.stdin.flush()

    def accepted(self, line: str) -> None:
        """A command that ends accepted."""
        before = self.printed.count("last accepted")
        self.order(line)
        until(lambda: self.printed.count("last accepted") > before, f"{line} is accepted")

    def begun(self) -> None:
        """It is there, and takes lines."""
        before = len(self.printed)
        self.order("status")
        until(lambda: self.printed[before:], "a status")

    def ledger(self) -> list[str]:
        """The ledger's lines of a status, which a command comes after: what a status printed comes before that."""
        before = len(self.printed)
        self.order("status")
        until(lambda: "idle" in self.printed[before:], "a status")
        self.accepted(BLANK)
        lines = self.printed[before:]
        at = next(at for at, line in enumerate(lines) if at > 1 and line == "idle")
        return [line for line in lines[:at] if line.startswith("ledger ")]

    def end(self) -> int:
        """The exit status behind the last command."""
        assert self.process.stdin is not None
        self.process.stdin.close()
        return self.process.wait(PATIENCE)


def call(*words: str) -> list[str]:
    return started.call("wisangub-centre", "--tick", "1", *words)


def refused(*words: str) -> tuple[int, str]:
    """The exit status of a front end that does not start, and what it says."""
    return started.refused(call("--to", "127.0.0.1:9", *words))


@contextlib.contextmanager
def operated(sign: BenchSign, *words: str) -> Iterator[Operated]:
    """A front end that is there."""
    with started.begun(call("--to", f"127.0.0.1:{sign.port()}", *words), subprocess.PIPE) as process:
        front_end = Operated(process)
        with front_end.heard():
            yield front_end

"""One who asks a sign over UDP."""

import select
import socket
import time
from typing import Callable

from model import wire

from .patience import PACE

Name = tuple[int, ...]
DMS: Name = (1, 3, 6, 1, 4, 1, 1206, 4, 2, 3)


def _number_of(octets: bytes) -> int | None:
    """The request-id of a message, None of octets that spell none."""
    message = wire.spelled(octets)
    return None if message is None else message.number


class Manager:
    """One who asks a sign, a request at a time."""

    def __init__(self, port: int, community: bytes = b"admin") -> None:
        self.socket = socket.socket(socket.AF_INET, socket.SOCK_DGRAM)
        self.socket.connect(("127.0.0.1", port))
        self.community, self.number = community, 0

    def close(self) -> None:
        self.socket.close()

    def exchange(self, octets: bytes, patience: float | None = None) -> bytes | None:
        """The reply to a datagram, None where none comes. A late reply to another one is let go."""
        wanted, ends = _number_of(octets), time.monotonic() + (PACE.patience() if patience is None else patience)
        try:
            self.socket.send(octets)
            while select.select([self.socket], [], [], max(0.0, ends - time.monotonic()))[0]:
                reply = self.socket.recv(65_535)
                if _number_of(reply) == wanted:
                    return reply
        except OSError:
            pass
        return None

    def exchange_all(self, many: list[bytes], patience: float) -> list[bytes | None]:
        """The replies to datagrams that are sent at once, None for each that has none after so many seconds."""
        at = {_number_of(octets): place for place, octets in enumerate(many)}
        replies: list[bytes | None] = [None] * len(many)
        ends = time.monotonic() + patience
        try:
            for octets in many:
                self.socket.send(octets)
            while None in replies and select.select([self.socket], [], [], max(0.0, ends - time.monotonic()))[0]:
                reply = self.socket.recv(65_535)
                if _number_of(reply) in at:
                    replies[at[_number_of(reply)]] = reply
        except OSError:
            pass
        return replies

    def surely(self, octets: bytes, is_over: Callable[[], bool]) -> bytes | None:
        """The reply to a datagram; None where a Get that was sent after it was answered first, or the sign is gone."""
        wanted, after = _number_of(octets), self.request(wire.GET, [])
        ends = time.monotonic() + PACE.patience()
        try:
            self.socket.send(octets)
            self.socket.send(after)
            while time.monotonic() < ends and not is_over():
                if select.select([self.socket], [], [], 0.05)[0]:
                    reply = self.socket.recv(65_535)
                    if _number_of(reply) in (wanted, self.number):
                        return reply if _number_of(reply) == wanted else None
        except OSError:
            pass
        return None

    def request(self, kind: int, bindings: list[tuple[Name, tuple[int, object]]]) -> bytes:
        """A request under a new number."""
        self.number += 1
        return bytes(wire.written(wire.Message(kind, self.community, self.number, 0, 0, bindings)))

    def get(self, names: list[Name], patience: float | None = None) -> list[tuple[Name, tuple[int, object]]]:
        """The values of names; none where no reply came."""
        reply = self.exchange(self.request(wire.GET, [(name, (wire.NULL, b"")) for name in names]), patience)
        message = None if reply is None else wire.spelled(reply)
        return [] if message is None or message.status else list(message.bindings)

    def values(self, names: list[Name], at_once: int = 20) -> dict[Name, tuple[int, object]]:
        """The values of many names."""
        found: dict[Name, tuple[int, object]] = {}
        for at in range(0, len(names), at_once):
            some = self.get(names[at : at + at_once])
            found |= dict(some or [one for name in names[at : at + at_once] for one in self.get([name])])
        return found

"""Gets with the reading community, and Sets of the device's objects, from sockets of their own, with request numbers
below 0."""

import socket
import time
from typing import Callable, Mapping

from wisangub.endpoint.asking import Name, Values, said
from wisangub.endpoint.sockets import connected, received, sent
from wisangub.refusal import Refusal, reason
from wisangub.room.device import ASKED, SET
from wisangub.room.fleet import Sign
from wisangub.snmp import wire

_SENDS, _PATIENCE = 3, 1.0  # how often a Get goes out, and the seconds from one time to the next
_SET_PATIENCE = 3.0  # seconds that a Set has for its answer
NO_REPLY = "no reply"
_End = Callable[[Values | str], None]


class Get:
    """A Get that waits for its Response; `end` takes the values, or why there are none."""

    most, patience = _SENDS, _PATIENCE

    def __init__(self, sign: Sign, number: int, asked: list[Name], end: _End) -> None:
        self.sign, self.number, self.asked, self.end = sign, number, asked, end
        self.community, self.octets = self.spelled()
        self.udp_socket: socket.socket = connected(sign.host, sign.port)
        self.sends, self.due = 0, 0.0

    def spelled(self) -> tuple[bytes, bytes]:
        """The community, and the octets of the request."""
        return self.sign.reader, wire.get(self.sign.reader, self.number, self.asked)

    def send(self, now: float) -> None:
        """The same octets each time; one that is lost is sent again later."""
        self.sends, self.due = self.sends + 1, now + self.patience
        sent(self.udp_socket, self.octets)

    def heard(self) -> Values | str | None:
        """What the Response says, where one waits."""
        while (heard := received(self.udp_socket)) is not None:
            found = said(heard[0], self.community, self.number, self.asked)
            if found is not None:
                return found
        return None


class Set(Get):
    """A Set of objects of the device's, which goes out once."""

    most, patience = 1, _SET_PATIENCE

    def __init__(self, sign: Sign, number: int, written: Mapping[str, int], end: _End) -> None:
        for name in written:
            if name not in SET:
                raise Refusal(f"{name} is written by a centre alone")
        self.values = list(written.values())
        super().__init__(sign, number, [ASKED[name] for name in written], end)

    def spelled(self) -> tuple[bytes, bytes]:
        bindings = [(name, (wire.INTEGER, value)) for name, value in zip(self.asked, self.values)]
        community = self.sign.writer
        return community, wire.written(wire.Message(wire.SET, community, self.number, bindings=bindings))


class Gets:
    """All Gets and Sets that wait, by their sockets' files."""

    def __init__(self) -> None:
        self.waiting: dict[int, Get] = {}

    def begin(self, sign: Sign, number: int, asked: list[Name], end: _End) -> None:
        """Sends a Get; one that cannot be sent ends at once."""
        self._begin(lambda: Get(sign, number, asked, end), end)

    def set(self, sign: Sign, number: int, written: Mapping[str, int], end: _End) -> None:
        """Sends a Set, once; one that cannot be sent ends at once."""
        self._begin(lambda: Set(sign, number, written, end), end)

    def _begin(self, made: Callable[[], Get], end: _End) -> None:
        try:
            get = made()
        except (Refusal, OSError) as fault:
            end(reason(fault) if isinstance(fault, OSError) else str(fault))
            return
        get.send(time.monotonic())
        self.waiting[get.udp_socket.fileno()] = get

    def heard(self, file: int) -> None:
        """Takes the Response, where what waits is one."""
        found = self.waiting[file].heard()
        if found is not None:
            self.end(file, found)

    def again(self) -> None:
        """Sends again what had no reply in time, or gives it up."""
        now = time.monotonic()
        for file, get in list(self.waiting.items()):
            if get.due > now:
                continue
            if get.sends < get.most:
                get.send(now)
            else:
                self.end(file, NO_REPLY)

    def end(self, file: int, found: Values | str) -> None:
        """Lets a Get go, and tells what came of it."""
        get = self.waiting.pop(file)
        get.udp_socket.close()
        get.end(found)

    def close(self) -> None:
        """Lets all go."""
        for get in self.waiting.values():
            get.udp_socket.close()
        self.waiting.clear()

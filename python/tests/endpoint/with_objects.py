"""A sign's front end with a file of objects, over the model, for tests that ask it as a manager and as firmware."""

import contextlib
import re
import signal
import socket
from collections.abc import Iterator
from dataclasses import dataclass, field

from wisangub.snmp import wire
from wisangub.snmp.names import DMS

from . import started
from .started import Started
from .waiting import PATIENCE, until

READER, WRITER = b"public", b"admin"
NULL: wire.Tagged = (wire.NULL, b"")
COUNTER = DMS + (6, 10, 0)  # what tests count with, dmsShortPowerLossTime


@dataclass
class Served(Started):
    """The front end's process, and a manager's socket."""

    manager: socket.socket = field(kw_only=True)
    number: int = 0

    def ask(self, kind: int, *bindings: wire.Binding, community: bytes = READER) -> wire.Message:
        """The reply to a request."""
        self.number += 1
        self.manager.send(wire.written(wire.Message(kind, community, self.number, bindings=list(bindings))))
        self.manager.settimeout(PATIENCE)
        return wire.read(self.manager.recv(2000))

    def get(self, *names: wire.Name) -> list[wire.Tagged] | int:
        """What names read, or the error-status."""
        found = self.ask(wire.GET, *((name, NULL) for name in names))
        return found.status or [value for _, value in found.bindings]

    def put(self, *bindings: wire.Binding) -> tuple[int, int]:
        """What a Set of the writer is answered with."""
        found = self.ask(wire.SET, *bindings, community=WRITER)
        return found.status, found.index

    def count(self, numbers: range) -> None:
        """Each number is written, and answered."""
        for number in numbers:
            assert self.put((COUNTER, (wire.INTEGER, number))) == (wire.NO_ERROR, 0)

    def end(self, number: int = signal.SIGTERM) -> int:
        """The exit status after this signal, all that it printed read."""
        self.process.send_signal(number)
        return self.process.wait(PATIENCE)


def call(*words: str) -> list[str]:
    return started.call("wisangub-sign", "--port", "0", *words)


def refused(*words: str) -> tuple[int, str]:
    """The exit status of a front end that does not start, and what it says."""
    return started.refused(call(*words))


@contextlib.contextmanager
def served(*words: str) -> Iterator[Served]:
    """A front end that is there."""
    with started.begun(call(*words)) as process, socket.socket(socket.AF_INET, socket.SOCK_DGRAM) as manager:
        front_end = Served(process, manager=manager)
        with front_end.heard():
            until(lambda: front_end.printed or process.poll() is not None, "where it is")
            found = re.fullmatch(r"a sign at 127\.0\.0\.1:(\d+)", front_end.printed[0]) if front_end.printed else None
            assert found, front_end.said
            manager.connect(("127.0.0.1", int(found[1])))
            yield front_end

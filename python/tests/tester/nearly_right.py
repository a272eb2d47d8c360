"""Signs that are right in nearly all that they do: a right sign, and something around it."""

from dataclasses import replace
from typing import Callable

from model import text
from model.sign import Sign
from trials.wrong_signs import bench
from wisangub.snmp import wire
from wisangub.tester.findings.results import Results
from wisangub.tester.requests.objects import Name, Value
from wisangub.tester.session import Session, chapters_of

Change = Callable[[Name, Value], Value]  # a name that is read, and what is read in the place of its value


class Around:
    """A right sign, with which those that follow do more, or other than it does."""

    def __init__(self, description: bytes = text.BENCH) -> None:
        self.description = description
        self.sign = Sign(text.described(description))
        self.state = self.sign.state

    def tick(self) -> None:
        self.sign.tick()

    def receive(self, octets: bytes) -> tuple[bytes | None, object]:
        message = wire.spelled(octets)
        return (self.right(octets) if message is None else self.answer(octets, message)), None

    def right(self, octets: bytes) -> bytes | None:
        return self.sign.receive(octets)[0]

    def answer(self, octets: bytes, _message: wire.Message) -> bytes | None:
        """The reply to a message."""
        return self.right(octets)

    def read(self, octets: bytes, change: Change) -> bytes | None:
        """The reply to a read, with other values; any other reply as it is."""
        reply, request = self.right(octets), wire.spelled(octets)
        message = None if reply is None else wire.spelled(reply)
        if message is None or message.status or request is None or request.kind == wire.SET:
            return reply
        return wire.written(replace(message, bindings=[(name, change(name, held)) for name, held in message.bindings]))

    def write(self, message: wire.Message) -> None:
        """A SET as the writer's, of which nobody hears."""
        self.right(wire.written(replace(message, kind=wire.SET, community=self.state.writer)))


def session(sign: Around) -> Session:
    """The test of a sign, up to its first difference, without random requests."""
    return bench.session(sign.description, sign, requests=0, most_differences=1)


def tried(sign: Around, *chapters: str) -> Results:
    """The test of a sign by these chapters alone, up to its first difference."""
    return session(sign).run(chapters_of(chapters, False))


def told(sign: Around, *chapters: str) -> tuple[str, str]:
    """The chapter in which the first difference of a sign was seen, and its rule; nothing where none was."""
    found = tried(sign, *chapters).differences()
    return (found[0].found_in, found[0].rule.key) if found else ("", "")


def is_set_of(message: wire.Message, name: Name) -> bool:
    """Whether a SET writes this object."""
    return message.kind == wire.SET and any(bound == name for bound, _ in message.bindings)

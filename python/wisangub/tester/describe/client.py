"""Requests to the sign that is described, asked again until they are answered."""

from dataclasses import dataclass, field

from wisangub.snmp import wire
from wisangub.tester.requests.messages import spelled
from wisangub.tester.requests.objects import Binding, Name, Value
from wisangub.tester.requests.steps import Ask, get, get_next, looks, put
from wisangub.tester.sign.port import Port
from wisangub.tester.sign.way import Stopped

_TRIES = 60  # times that a request is sent; a sign that is silent for 30 seconds ends it before
_MOST_WALKED = 4000  # instances of one walk


class Unreached(Exception):
    """The sign cannot be described since it does not answer at all, or not as it has to."""


@dataclass
class Client:
    """The sign behind its port. `communities` are those of the reader and of the writer. Every request raises Stopped
    where the sign does not answer any more."""

    port: Port
    communities: tuple[bytes, bytes]
    written: dict[Name, int] = field(default_factory=dict)  # how often an object was written

    def ask(self, request: Ask, tries: int = _TRIES) -> wire.Message | None:
        """The reply to a request that may be carried out twice; None where none comes in so many tries."""
        for _ in range(tries):
            number = self.port.new_number()
            octets = request.octets(number, self.communities)
            reply = spelled(self.port.ask_once(octets, number).reply or b"")
            if reply is not None and reply.number == number:
                return reply
        return None

    def answer(self, request: Ask) -> wire.Message:
        """The reply."""
        reply = self.ask(request)
        if reply is None:
            raise Stopped(f"{_TRIES} requests in a row had no reply that is one")
        return reply

    def put(self, *bindings: Binding) -> int:
        """The error-status of a SET. What it writes has to be such that writing it twice does no harm."""
        for name, _ in bindings:
            self.written[name] = self.written.get(name, 0) + 1
        return self.answer(put(*bindings)).status

    def read(self, names: list[Name], share: int = 40) -> dict[Name, Value]:
        """What the names read, so many in a datagram; those that the sign has not are left out."""
        found: dict[Name, Value] = {}
        for look in looks(names, share=share):
            asked = [name for name, _ in look.bindings]
            reply = self.answer(Ask(wire.GET, look.bindings, is_writer=False))
            if reply.status == wire.NO_ERROR:
                found |= dict(reply.bindings)
            elif len(asked) > 1:
                found |= self.read(asked, max(1, len(asked) // 4))
        return found

    def numbers(self, names: list[Name]) -> dict[Name, int]:
        """Those of the names that read a number."""
        return {name: held for name, (_, held) in self.read(names).items() if isinstance(held, int)}

    def walk(self, *columns: Name) -> dict[Name, Value]:
        """All instances of these columns, which have the same instances."""
        found: dict[Name, Value] = {}
        at = list(columns)
        while len(found) < _MOST_WALKED * len(columns):
            reply = self.answer(get_next(*at, is_writer=False))
            if reply.status != wire.NO_ERROR or len(reply.bindings) != len(columns):
                break
            names = [name for name, _ in reply.bindings]
            if any(name[: len(column)] != column or name <= old for name, column, old in zip(names, columns, at)):
                break
            found |= dict(reply.bindings)
            at = names
        return found

    def reach(self, name: Name) -> None:
        """Raises Unreached where one of the communities is not answered."""
        tries = 4
        asked = get(name)
        is_read = self.ask(Ask(wire.GET, asked.bindings, is_writer=False), tries) is not None
        is_written = self.ask(asked, tries) is not None
        if is_read and is_written:
            return
        reader, writer = (held.decode("latin-1") for held in self.communities)
        words = f"nothing answers the communities {reader} and {writer}"
        if is_read or is_written:
            words = f"the sign answers the community {reader if is_read else writer}, and not the other one"
        raise Unreached(f"{words}; --communities READER WRITER")

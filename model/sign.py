"""The controller of a sign: its answers. What it holds, shows and reads, and what a SET writes, are layers below it."""

from . import replies, wire
from .changes import Changes
from .codes import Activation
from .description import Description
from .objects import Objects
from .showing import Showing
from .state import State

Answer = tuple[bytes | None, Activation | None]  # the reply and the activation that was accepted, where there is one


class Sign:
    """What it holds is its state; what stands around that works on it."""

    def __init__(self, described: Description) -> None:
        self.state = State(described)
        self.showing, self.objects = Showing(self.state), Objects(self.state)
        self.changes = Changes(self.state, self.showing, self.objects)

    def tick(self) -> None:
        """A second passes."""
        self.showing.tick()

    def heard(self, datagram: bytes) -> wire.Message | None:
        """The message, where it is one that is answered; then a silence is over."""
        message = wire.spelled(datagram)
        if (
            not self.state.power
            or message is None
            or message.kind == wire.RESPONSE
            or message.community not in (self.state.reader, self.state.writer)
        ):
            return None
        self.state.silence = 0
        return message

    def set(self, message: wire.Message) -> Answer:
        """The answer to a Set, which is done or refused."""
        status, index, accepted = self.changes.set(message)
        return replies.written(message, (status, index, message.bindings)), accepted

    def receive(self, datagram: bytes) -> Answer:
        """The reply and the activation that was accepted, each None where there is none."""
        message = self.heard(datagram)
        if message is None:
            return None, None
        if message.kind == wire.SET:
            return self.set(message)
        return replies.written(message, replies.read(message, self.objects)), None

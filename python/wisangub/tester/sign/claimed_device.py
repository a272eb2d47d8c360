"""Our sign with the objects that a sign claims to have beside the profile's, once their values are known."""

from wisangub.snmp import wire
from wisangub.tester.requests.messages import spelled
from wisangub.tester.requests.objects import Name, Value

from .device_claims import DeviceClaim
from .oracle import Oracle
from .wrapper import Wrapper, answer


class DeviceOracle(Wrapper):
    """Another oracle, and objects beside it. Until it learns their values, and after it forgot them, it has none. What
    a manager set is firmware's to keep: where the other begins anew the objects stay as they are."""

    def __init__(self, oracle: Oracle, writer: bytes) -> None:
        super().__init__(oracle)
        self._writer = writer
        self._claims: dict[Name, DeviceClaim] = {}
        self._held: dict[Name, Value] = {}

    def learn(self, claims: tuple[DeviceClaim, ...], held: dict[Name, Value]) -> None:
        """From here on it has these objects, with these values."""
        self._claims, self._held = {claim.name: claim for claim in claims}, dict(held)

    def datagram(self, octets: bytes) -> bytes | None:
        octets_of_ours, message = self._oracle.datagram(octets), spelled(octets)
        reply = spelled(octets_of_ours or b"")
        if not self._held or message is None or reply is None:
            return octets_of_ours
        if message.kind == wire.GET_NEXT:
            return self._next(message, reply)
        if not message.bindings or not all(name in self._held for name, _ in message.bindings):
            return octets_of_ours
        if message.kind == wire.GET:
            return answer(reply, 0, 0, [(name, self._held[name]) for name, _ in message.bindings])
        return self._set(message, reply)

    def _set(self, message: wire.Message, reply: wire.Message) -> bytes:
        """All is assigned, or nothing; the first cause of a refusal counts."""
        for at, (name, value) in enumerate(message.bindings, 1):
            if message.community != self._writer or self._claims[name].ends is None:
                return answer(reply, wire.NO_SUCH_NAME, at, message.bindings)
            if not self._claims[name].is_right(value):
                return answer(reply, wire.BAD_VALUE, at, message.bindings)
            if name in (earlier for earlier, _ in message.bindings[: at - 1]):
                return answer(reply, wire.GENERAL, at, message.bindings)
        self._held |= dict(message.bindings)
        return answer(reply, 0, 0, message.bindings)

    def _next(self, message: wire.Message, reply: wire.Message) -> bytes:
        """The earlier of what comes next of both; of one name, as the chapter asks it."""
        if len(message.bindings) != 1:
            return wire.written(reply)
        asked = message.bindings[0][0]
        after = min((name for name in self._held if name > asked), default=None)
        if after is None or not reply.status and reply.bindings[0][0] <= after:
            return wire.written(reply)
        return answer(reply, 0, 0, [(after, self._held[after])])

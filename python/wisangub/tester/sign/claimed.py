"""Our sign with no more than a sign under test claims to have."""

from dataclasses import replace

from wisangub.snmp import wire
from wisangub.tester.requests.messages import spelled
from wisangub.tester.requests.objects import NULL, Binding, Name

from .claims import Claims
from .oracle import Oracle
from .wrapper import Wrapper, answer


class ClaimedOracle(Wrapper):
    """Another oracle behind claims: what is not claimed is no instance, and numbers that are not are bad values."""

    def __init__(self, oracle: Oracle, claims: Claims) -> None:
        super().__init__(oracle)
        self._claims = claims

    def datagram(self, octets: bytes) -> bytes | None:
        message = spelled(octets)
        at = None if message is None else self._first_unclaimed(message)
        if message is None or message.kind not in (wire.GET, wire.GET_NEXT, wire.SET):
            return self._oracle.datagram(octets)
        if message.kind == wire.GET_NEXT:
            return self._next(message, self._oracle.datagram(octets))
        return self._oracle.datagram(octets) if at is None else self._refused(message, at)

    def _first_unclaimed(self, message: wire.Message) -> int | None:
        """The first binding that the sign does not claim to answer, or to take."""
        for at, (name, value) in enumerate(message.bindings):
            is_outside = message.kind == wire.SET and self._claims.is_outside(name, value)
            if self._claims.is_missing(name) or is_outside:
                return at
        return None

    def _refused(self, message: wire.Message, at: int) -> bytes | None:
        """The refusal at this binding, or at an earlier one: ours is asked with a value there that nobody takes."""
        name, _ = message.bindings[at]
        status = wire.NO_SUCH_NAME if self._claims.is_missing(name) else wire.BAD_VALUE
        bindings: list[Binding] = list(message.bindings)
        bindings[at] = (name if message.kind == wire.SET else (1, 3), NULL)
        octets = self._oracle.datagram(wire.written(replace(message, bindings=bindings)))
        reply = spelled(octets or b"")
        if reply is None:
            return octets
        if reply.index == at + 1 and reply.status != wire.NO_SUCH_NAME:
            reply = replace(reply, status=status)
        return wire.written(replace(reply, bindings=list(message.bindings)))

    def _next(self, message: wire.Message, octets: bytes | None) -> bytes | None:
        """What comes after each name, of what is claimed."""
        reply = spelled(octets or b"")
        if reply is None or reply.status not in (wire.NO_ERROR, wire.NO_SUCH_NAME) or not self._claims.missing:
            return octets
        found: list[Binding] = []
        for at, (name, _) in enumerate(message.bindings, 1):
            after = self._after(message, name)
            if after is None:
                return answer(reply, wire.NO_SUCH_NAME, at, message.bindings)
            found.append(after)
        return wire.written(replace(reply, bindings=found))

    def _after(self, message: wire.Message, name: Name) -> Binding | None:
        """What comes after a name, of what is claimed."""
        while True:
            octets = self._oracle.datagram(wire.written(replace(message, bindings=[(name, NULL)])))
            reply = spelled(octets or b"")
            if reply is None or reply.status:
                return None
            name, value = reply.bindings[0]
            if not self._claims.is_missing(name):
                return name, value

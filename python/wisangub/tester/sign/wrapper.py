"""What stands before an oracle, and answers in its place where it knows better."""

from dataclasses import replace

from wisangub.snmp import wire
from wisangub.tester.requests.objects import Binding

from .oracle import Oracle


class Wrapper:
    """Another oracle behind this one, to which all is handed on that is no datagram."""

    def __init__(self, oracle: Oracle) -> None:
        self._oracle = oracle

    def restart(self) -> None:
        self._oracle.restart()

    def tick(self) -> None:
        self._oracle.tick()

    def power(self, seconds: int) -> None:
        self._oracle.power(seconds)

    def end(self) -> None:
        self._oracle.end()


def answer(reply: wire.Message, status: int, index: int, bindings: list[Binding]) -> bytes:
    """The reply with other contents."""
    return wire.written(replace(reply, status=status, index=index, bindings=bindings))

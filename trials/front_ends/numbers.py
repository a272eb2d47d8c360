"""The numbers of a centre's requests, as they went over the wire."""

from model import wire

from .bench import Trial
from .manager import DMS

_ACTIVATE = DMS + (6, 3, 0)


def numbers(trial: Trial, requests: list[bytes]) -> set[int]:
    """No number has two requests, or is sent a fourth time: the numbers of activations."""
    sent: dict[int, list[bytes]] = {}
    activations: set[int] = set()
    for octets in requests:
        message = wire.spelled(octets)
        if trial.holds("a centre sends messages", message is not None, octets.hex()) and message is not None:
            sent.setdefault(message.number, []).append(octets)
            if message.kind == wire.SET and message.bindings[0][0] == _ACTIVATE:
                activations.add(message.number)
    for number, datagrams in sent.items():
        trial.holds(f"number {number} has the same octets each time", len(set(datagrams)) == 1, datagrams)
        trial.holds(f"number {number} is sent three times at most", len(datagrams) <= 3, len(datagrams))
    return activations

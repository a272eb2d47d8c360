"""Hostile datagrams to a sign's front end over UDP: each reply is the model's, and so is the whole walk at the end."""

import itertools
import socket
from typing import Iterable

from model import text
from model.sign import Sign

from .bench import Trial
from .manager import Manager
from .patience import PACE

_AT_ONCE = 16
_MOST_REPLY = 65_536
_MOST_TOLD = 10  # batches that are told of


class _Exchange:
    """A sign's front end, and the model of its sign, which is handed the same datagrams."""

    def __init__(self, trial: Trial) -> None:
        self.trial, self.sign = trial, Sign(text.bench())
        self.front_end = trial.sign("--no-ticks")
        self.socket = socket.socket(socket.AF_INET, socket.SOCK_DGRAM)
        self.socket.connect(("127.0.0.1", self.front_end.port))
        self.sent = self.replied = 0

    def batch(self, some: list[bytes]) -> bool:
        """Datagrams that are sent at once: whether the replies are the model's, in their order."""
        wanted = []
        for octets in some:
            self.socket.send(octets)
            reply = self.sign.receive(octets)[0]
            wanted += [] if reply is None else [bytes(reply)]
        found = []
        self.socket.settimeout(PACE.patience())
        try:
            found = [self.socket.recv(_MOST_REPLY) for _ in wanted]
        except OSError:
            pass
        self.sent, self.replied = self.sent + len(some), self.replied + len(found)
        name = f"after {self.sent} hostile datagrams"
        return found == wanted or self.trial.holds(name, False, ([one.hex() for one in some], found, wanted))

    def over(self) -> None:
        """The front end still runs, no reply is left over, and each value is the model's."""
        self.socket.settimeout(0.2)
        try:
            left = self.socket.recv(_MOST_REPLY)
        except OSError:
            left = b""
        self.trial.holds("no reply is left over", not left, left.hex())
        manager, names = Manager(self.front_end.port), self.sign.objects.names
        found = manager.values(names)
        other = [one for one in names if found.get(one) != self.sign.objects.value(one)]
        self.trial.holds("the whole walk is the model's", not other, other[:5])
        manager.close()
        self.socket.close()
        self.trial.holds(
            "the front end ends at a SIGTERM", self.front_end.stop() == 0, self.front_end.errors.decode("latin-1")
        )


def run(trial: Trial, datagrams: Iterable[bytes]) -> None:
    """All of them, many at once; it ends where too many batches fail."""
    exchange, left = _Exchange(trial), iter(datagrams)
    batches = failed = 0
    while failed < _MOST_TOLD and (some := list(itertools.islice(left, _AT_ONCE))):
        batches, failed = batches + 1, failed + (not exchange.batch(some))
    trial.holds(f"{batches} batches of hostile datagrams", failed == 0, failed)
    trial.passed += batches - failed
    exchange.over()
    print(f"{exchange.sent} hostile datagrams over UDP, {exchange.replied} replies", flush=True)

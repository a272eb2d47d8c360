"""Signs whose replies, or whose way, misbehave: a right sign behind a link that does so."""

import random
from dataclasses import replace
from typing import Callable

from model import text
from model.sign import Sign
from wisangub.snmp import wire
from wisangub.tester.findings.results import Watcher
from wisangub.tester.requests.messages import spelled
from wisangub.tester.session import Session
from wisangub.tester.sign.clock import SimulatedClock
from wisangub.tester.sign.simulated import SimulatedLink

from . import bench

Spoils = Callable[[bytes], bytes]  # a reply, and what comes in its place


class Misbehaving(SimulatedLink):
    """A right sign on a simulated link. Of its replies `share` are spoilt, each is `slow` seconds late and comes
    `times` over; it is silent from one moment to another, and begins anew after each `reboots` datagrams."""

    def __init__(
        self,
        clock: SimulatedClock,
        description: bytes = text.BENCH,
        spoils: Spoils | None = None,
        share: float = 1.0,
        slow: float = 0.0,
        times: int = 1,
        silent: tuple[float, float] = (0.0, 0.0),
        reboots: int = 0,
        most_reboots: int = 1_000_000,
    ) -> None:
        super().__init__(Sign(text.described(description)), clock, random.Random(5))
        self.description, self.spoils, self.share, self.slow, self.times = description, spoils, share, slow, times
        self.silent, self.reboots, self.left = silent, reboots, most_reboots

    def send(self, octets: bytes) -> None:
        if self.silent[0] <= self.clock.now() < self.silent[1]:
            self.sent += 1
            return
        super().send(octets)
        if self.reboots and self.left and self.sent % self.reboots == 0:
            self.left -= 1
            self.sign = Sign(text.described(self.description))

    def deliver(self, reply: bytes, moment: float) -> None:
        if self.spoils is not None and self.chance.random() < self.share:
            reply = self.spoils(reply)
        for _ in range(self.times):
            self.put(moment + self.latency + self.slow, reply)


def garbage(_reply: bytes) -> bytes:
    """Octets that are no message."""
    return b"\x30\x03\x02\x01"


def cut(reply: bytes) -> bytes:
    """The last octets are missing."""
    return reply[:-2]


def padded(reply: bytes) -> bytes:
    """Octets come after the message."""
    return reply + b"\0\0"


def over_long(reply: bytes) -> bytes:
    """More than a datagram of the profile has."""
    return reply + bytes(1473)


def renumbered(number: int | None) -> Spoils:
    """Another request-id: this, or the one after the right one."""

    def spoilt(reply: bytes) -> bytes:
        message = spelled(reply)
        assert message is not None
        return wire.written(replace(message, number=message.number + 1 if number is None else number))

    return spoilt


def other_value(reply: bytes) -> bytes:
    """The first number of what is read is another."""
    message = spelled(reply)
    assert message is not None
    bindings = list(message.bindings)
    for at, (name, (tag, held)) in enumerate(bindings):
        if tag == wire.INTEGER and isinstance(held, int):
            bindings[at] = (name, (tag, held + 1))
            break
    return wire.written(replace(message, bindings=bindings))


def other_name(reply: bytes) -> bytes:
    """The first name is another."""
    message = spelled(reply)
    assert message is not None
    bindings = [((*name[:-1], name[-1] + 1), value) for name, value in message.bindings[:1]]
    return wire.written(replace(message, bindings=[*bindings, *message.bindings[1:]]))


def session(
    link: Callable[[SimulatedClock], Misbehaving],
    wait: float = 1.0,
    patience: int | None = None,
    watcher: Watcher | None = None,
) -> Session:
    """A test of a sign that misbehaves, by the description of the bench sign, up to its first difference."""
    made = bench.session(text.BENCH, requests=60, most_differences=1, watcher=watcher)
    port = made.pair.port
    assert isinstance(port.link, SimulatedLink) and isinstance(port.clock, SimulatedClock)
    port.link.close()
    port.link = link(port.clock)
    port.wait = port.way.wait = wait
    port.way.patience = patience
    return made

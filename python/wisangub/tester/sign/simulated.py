"""A link to a sign of model under a simulated clock, with replies lost, late and doubled."""

import heapq
import random
from typing import Protocol

from .clock import SimulatedClock


class SomeSign(Protocol):
    """A sign as model has it: a reply or None, and a second."""

    def receive(self, datagram: bytes) -> tuple[bytes | None, object]:
        ...

    def tick(self) -> None:
        ...


class SimulatedLink:
    """The sign ticks at `phase` and each `period` after it; a datagram takes `latency` each way.

    With `faulty` above 0 that share of the replies is lost, late or doubled, a third of it each; with `both_ways` the
    same share of the requests too, which reach the sign up to 1.6 s late.
    """

    def __init__(
        self,
        sign: SomeSign,
        clock: SimulatedClock,
        chance: random.Random,
        faulty: float = 0.0,
        latency: float = 0.0002,
        period: float = 1.0,
        both_ways: bool = False,
    ) -> None:
        self.sign, self.clock, self.chance, self.faulty, self.latency = sign, clock, chance, faulty, latency
        self.period, self.both_ways = period, both_ways
        self.next_tick = clock.now() + chance.random() * period
        self.waiting: list[tuple[float, int, bytes]] = []  # replies on their way
        self.going: list[tuple[float, int, bytes]] = []  # requests that are late
        self.sent = self.number = 0
        clock.listeners.append(self.come_to)

    def come_to(self, moment: float) -> None:
        """The ticks of the sign and the late requests up to this moment, in their order."""
        while self.going and self.going[0][0] <= moment:
            due, _, octets = heapq.heappop(self.going)
            self._tick_to(due)
            self._arrive(octets, due)
        self._tick_to(moment)

    def _tick_to(self, moment: float) -> None:
        while self.next_tick <= moment:
            self.sign.tick()
            self.next_tick += self.period

    def send(self, octets: bytes) -> None:
        self.sent += 1
        self.clock.sleep_until(self.clock.now() + self.latency)
        if not self.both_ways or self._goes(octets):
            self._arrive(octets, self.clock.now())

    def _goes(self, octets: bytes) -> bool:
        """Whether a request arrives now; it may be lost, late, or come once more later."""
        draw = self.chance.random()
        if draw >= self.faulty or draw < self.faulty / 3:
            return draw >= self.faulty
        self.number += 1
        due = self.clock.now() + self.chance.choice([0.0, 0.0003, 0.05, 0.4, 1.1, 1.6])
        heapq.heappush(self.going, (due, self.number, octets))
        return draw >= self.faulty * 2 / 3

    def _arrive(self, octets: bytes, moment: float) -> None:
        reply, _ = self.sign.receive(octets)
        if reply is not None:
            self.deliver(reply, moment)

    def deliver(self, reply: bytes, moment: float) -> None:
        due = moment + self.latency
        draw = self.chance.random()
        if draw < self.faulty / 3:
            return
        if draw < self.faulty * 2 / 3:
            due += self.chance.choice([0.05, 0.4, 1.1, 2.5])
        elif draw < self.faulty:
            self.put(due + self.chance.choice([0.0, 0.0003, 0.3, 1.5]), reply)
        self.put(due, reply)

    def put(self, due: float, reply: bytes) -> None:
        self.number += 1
        heapq.heappush(self.waiting, (due, self.number, reply))

    def receive(self, until: float) -> bytes | None:
        if self.waiting and self.waiting[0][0] <= max(until, self.clock.now()):
            due, _, reply = heapq.heappop(self.waiting)
            self.clock.sleep_until(due)
            return reply
        self.clock.sleep_until(until)
        return None

    def close(self) -> None:
        self.clock.listeners.remove(self.come_to)

"""How many requests a second a sign holds, and how long its replies take then: `--rate`."""

from dataclasses import dataclass, field, replace

from wisangub.snmp import wire
from wisangub.tester.findings import classify
from wisangub.tester.findings.compare import mismatch
from wisangub.tester.findings.differences import Difference
from wisangub.tester.requests.messages import spelled
from wisangub.tester.requests.objects import Name
from wisangub.tester.requests.steps import Ask, looks
from wisangub.tester.sign.pair import Exchange, Pair

SECONDS = 3.0  # that a rate is asked for
NAMES = 10  # of a request
_SLACK = 1.2  # times as long as it should take, within which requests are sent as fast as they are to be
FOUND_IN = "load"


@dataclass
class Rate:
    """What came of so many requests a second: how many were sent and answered rightly, in how many seconds they were
    sent, and how long a reply took at the longest."""

    asked: int
    sent: int = 0
    answered: int = 0
    wrong: int = 0
    seconds: float = 0.0
    longest: float = 0.0

    def is_held(self, lossy: float) -> bool:
        """Whether they were sent so fast, and all answered rightly, but for this percentage that a way may lose."""
        is_sent = self.seconds <= SECONDS * _SLACK
        return is_sent and not self.wrong and self.answered >= self.sent * (1 - lossy / 100)

    def words(self) -> str:
        """The rate in words."""
        return (
            f"{self.asked} requests a second: {self.answered} of {self.sent} answered rightly, "
            f"sent in {self.seconds:.1f} s; the longest reply took {self.longest:.3f} s"
        )


def rates(most: int) -> list[int]:
    """10, 20, 50, 100 and so on below this many, and this many."""
    found = [digit * 10**power for power in range(1, len(str(most)) + 1) for digit in (1, 2, 5)]
    return [rate for rate in found if rate < most] + [most]


@dataclass
class Load:
    """Reads of the known state at more and more requests a second, each reply judged by ours."""

    pair: Pair
    names: list[Name]
    lossy: float
    done: list[Rate] = field(default_factory=list)
    once: list[Difference] = field(default_factory=list)  # wrong replies, the first of each rate

    def run(self, most: int) -> None:
        """Up to so many requests a second, or to the first rate that is not held."""
        asks = looks([name for name in self.names if name not in self.pair.masked], share=NAMES)
        ours = [self._ours(ask) for ask in asks]
        for rate in rates(most):
            self.done.append(Rate(rate))
            self._ask(self.done[-1], asks, ours)
            if not self.done[-1].is_held(self.lossy):
                return

    def held(self) -> Rate | None:
        """The greatest rate that is held."""
        return next((rate for rate in reversed(self.done) if rate.is_held(self.lossy)), None)

    def words(self) -> list[str]:
        """The rate that is held, and the others, a line each."""
        held = self.held()
        first = f"held: {held.words()}" if held is not None else "none of the rates is held"
        return [first, *[rate.words() for rate in self.done if rate is not held]]

    def _ours(self, ask: Ask) -> wire.Message:
        reply = spelled(self.pair.hand(ask.octets(self.pair.port.new_number(), self.pair.communities)) or b"")
        assert reply is not None
        return reply

    def _ask(self, rate: Rate, asks: list[Ask], ours: list[wire.Message]) -> None:
        """So many requests a second; replies are judged as they come, and waited for at the end."""
        port, clock = self.pair.port, self.pair.clock
        begun, waiting = clock.now(), dict[int, tuple[float, int]]()  # the moment of each, and which it is

        def judged(octets: bytes) -> None:
            message = spelled(octets)
            if message is None or message.number not in waiting:
                port.note_beside(octets, message)
            else:
                sent, at = waiting.pop(message.number)
                rate.longest = max(rate.longest, clock.now() - sent)
                self._judge(rate, asks[at], replace(ours[at], number=message.number), octets)

        for at in range(round(rate.asked * SECONDS)):
            while (octets := port.link.receive(begun + at / rate.asked)) is not None:
                judged(octets)
            number = port.new_number()
            waiting[number] = (clock.now(), at % len(asks))
            port.send(asks[at % len(asks)].octets(number, self.pair.communities))
            rate.sent += 1
        rate.seconds, until = clock.now() - begun, clock.now() + port.wait
        while waiting and (octets := port.link.receive(until)) is not None:
            judged(octets)
        port.given_up.update(waiting)

    def _judge(self, rate: Rate, ask: Ask, ours: wire.Message, theirs: bytes) -> None:
        expected = wire.written(ours)
        differs = mismatch(expected, theirs, frozenset(self.pair.masked))
        if differs is None or self.pair.is_spelling_told and spelled(theirs) == ours:
            rate.answered += 1
            return
        rate.wrong += 1
        if rate.wrong == 1:
            asked = ask.octets(ours.number, self.pair.communities)
            exchange = Exchange(ask, asked, expected, theirs, differs)
            rule = classify.rule_of(asked, expected, theirs, differs)
            found = Difference.of(rule, FOUND_IN, exchange, [ask], [asked])
            found.is_repeated, found.note = False, f"at {rate.asked} requests a second"
            self.once.append(found)

"""Runs of sequences from the known state."""

from collections import Counter
from dataclasses import dataclass, field
from typing import Sequence

from wisangub.snmp import wire
from wisangub.snmp.names import scalar
from wisangub.tester.findings.differences import Signature, signature
from wisangub.tester.requests.messages import spelled, status_of
from wisangub.tester.requests.objects import is_validation
from wisangub.tester.requests.steps import Ask, Raw, Step, Wait
from wisangub.tester.sign.pair import MOST_SENT, Exchange, Inconclusive, Likeness, Pair, likeness
from wisangub.tester.state.reset import Reset
from wisangub.tester.state.unanswered import is_command, ours_reads

_CAUSE = scalar("dmsActivateMsgError")
_TRIES = 3
_MOST_LOST = 4  # SETs of a kind without a reply, until that is looked at as a difference


@dataclass
class Run:
    """What a run showed: the exchange that differs, the steps up to it, and what was sent."""

    exchange: Exchange
    steps: list[Step]
    sent: list[bytes | None]

    @property
    def signature(self) -> Signature:
        return signature(self.exchange)


@dataclass
class Runner:
    """Runs sequences from the known state."""

    pair: Pair
    reset: Reset
    most_seconds: float = 40.0  # that a difference is made smaller
    runs: int = 0
    lost: Counter[Likeness] = field(default_factory=Counter)  # SETs without a reply, by their likes
    # whether the last run had a SET without a reply of which no like was ever answered, or that was sent again in vain
    is_doubtful: bool = False

    def steps(self, steps: Sequence[Step]) -> Run | None:
        """The steps, from the state of now, up to the first difference."""
        if _is_timed(steps) and self.reset.is_unlearnt():
            raise Inconclusive("the moment of the sign's ticks is not known")
        sent: list[bytes | None] = []
        self.is_doubtful = False
        for at, step in enumerate(steps):
            self.pair.settle_strays()
            exchange = self.pair.do(step)
            if exchange is None:
                sent += [None] * step.ticks if isinstance(step, Wait) else []
                continue
            sent.append(exchange.octets)
            is_lost = self.is_lost(exchange)
            if exchange.mismatch is not None and not is_lost:
                exchange.is_slip = self._is_slip(exchange)
                exchange.cause = self._cause(exchange)
                return Run(exchange, list(steps[: at + 1]), sent)
        return None

    def _is_slip(self, exchange: Exchange) -> bool:
        """Whether a read is right when it is asked again at once: no late request made it wrong, but the sign did."""
        if exchange.is_set or not self.pair.port.is_lossy():
            return not exchange.is_set
        if exchange.theirs is None or _shares_number(exchange.step):
            return False
        again = self.pair.do(exchange.step)
        return again is not None and again.mismatch is None and not self.pair.port.strays

    def _cause(self, exchange: Exchange) -> int | None:
        """What the one of the two reports that alone refuses an activation."""
        message, names = spelled(exchange.octets), [_CAUSE]
        are_refused = [status_of(reply) != wire.NO_ERROR for reply in (exchange.ours, exchange.theirs)]
        if message is None or not is_command(message) or exchange.theirs is None or sum(are_refused) != 1:
            return None
        read = ours_reads(self.pair, names) if are_refused[0] else self.reset.read(names)
        value = None if read is None else read.get(_CAUSE)
        return value[1] if value is not None and isinstance(value[1], int) else None

    def is_lost(self, exchange: Exchange) -> bool:
        """Whether a SET without a reply is one of many whose replies came, or of few of its kind so far, on a way that
        loses some. What it did is known then."""
        if exchange.theirs is not None:
            self.pair.answered.update(_likeness(exchange) if exchange.is_set else ())
            return False
        if not exchange.is_lost or not self.pair.port.is_lossy():
            return False
        unknown = _likeness(exchange) - self.pair.answered
        self.lost.update(unknown)
        self.is_doubtful |= bool(unknown) or exchange.tries >= MOST_SENT
        return all(self.lost[one] <= _MOST_LOST for one in unknown)

    def anew(self, steps: Sequence[Step], after_a_tick: bool = True, is_alike: bool = False) -> Run | None:
        """The steps from the known state; a sequence that cannot be told is begun again.

        Where ticks matter it begins right after one, so that no other comes between its steps. Where both signs are
        alike they may keep the verdict of their last validation.
        """
        self.runs += 1
        for left in range(_TRIES, 0, -1):
            try:
                if self.pair.port.way.is_in_doubt() and self.reset.ask_height() is not None:
                    self.pair.is_dirty = True  # a sign that does not answer one request is no silent sign
                self.reset.reach_or_end(_is_timed(steps), is_alike)
                self.pair.begin()
                if after_a_tick and _is_timed(steps):
                    self.pair.ticks.wait(1)
                    self.pair.pass_ticks()
                return self.steps(steps)
            except Inconclusive:
                self.pair.is_dirty, is_alike = True, False
                if left == 1:
                    raise
        return None


def _shares_number(step: Step) -> bool:
    """Whether an equal request may have its number: a late reply to that one would be taken for its own."""
    return isinstance(step, (Ask, Raw)) and step.group is not None


def _likeness(exchange: Exchange) -> set[Likeness]:
    """What a sign answers alike to the request of an exchange."""
    message = spelled(exchange.octets)
    return set() if message is None or exchange.ours is None else likeness(message, exchange.ours)


def _is_timed(steps: Sequence[Step]) -> bool:
    """Whether a tick between the steps may matter."""
    return any(
        isinstance(step, Wait)
        or isinstance(step, Ask)
        and step.kind == wire.SET
        and any(is_validation(name, value) for name, value in step.bindings)
        for step in steps
    )

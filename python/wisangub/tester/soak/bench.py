"""A sign under a simulated clock, beside the oracle: what the tests, the wrong signs and the long runs are made of."""

import random
import sys
from typing import Sequence

from wisangub.tester.context import Context
from wisangub.tester.findings.results import Quiet, Results, Watcher
from wisangub.tester.session import Session, chapters_of
from wisangub.tester.sign.clock import SimulatedClock
from wisangub.tester.sign.described import described
from wisangub.tester.sign.judge import Judge
from wisangub.tester.sign.oracle import Oracle
from wisangub.tester.sign.pair import Pair
from wisangub.tester.sign.port import Port
from wisangub.tester.sign.simulated import SimulatedLink, SomeSign
from wisangub.tester.sign.ticks import Ticks


def session(
    description: bytes,
    sign: SomeSign,
    oracle: Oracle,
    judge: Judge,
    seed: int = 1,
    faulty: float = 0.0,
    requests: int = 400,
    is_slow: bool = False,
    most_differences: int | None = None,
    watcher: Watcher | None = None,
    both_ways: bool = False,
) -> Session:
    """A test of a sign under a clock that nobody waits for; `faulty` is the share of replies that are lost, late or
    doubled, and with `both_ways` of requests too."""
    made = described(description)
    clock = SimulatedClock()
    link = SimulatedLink(sign, clock, random.Random(seed), faulty, both_ways=both_ways)
    communities = (made.reader, made.writer)
    pair = Pair(Port(link, clock), oracle, clock, Ticks(clock), communities)
    context = Context(made, communities, judge, seed, requests, is_slow, texts=sys.maxsize if is_slow else None)
    return Session(pair, context, watcher or Quiet(), most_differences, most_seconds=1e9)


def run(made: Session, only: Sequence[str] = ()) -> Results:
    """The chapters of these names, or all."""
    return made.run(chapters_of(only, made.context.is_slow))

"""The model in the oracle's place, in this process: what the tests and the wrong signs are judged by."""

from typing import Sequence

from model import layout, text
from model.sign import Sign
from wisangub.tester.findings.results import Watcher
from wisangub.tester.session import Session
from wisangub.tester.sign.judge import Fault, Judge
from wisangub.tester.sign.oracle import Oracle
from wisangub.tester.sign.simulated import SomeSign
from wisangub.tester.soak import bench

run = bench.run


class ModelOracle:
    """The sign of the model."""

    def __init__(self, description: bytes) -> None:
        self._described = text.described(description)
        self.restart()

    def restart(self) -> None:
        self._sign = Sign(self._described)

    def datagram(self, octets: bytes) -> bytes | None:
        return self._sign.receive(octets)[0]

    def tick(self) -> None:
        self._sign.tick()

    def power(self, seconds: int) -> None:
        self._sign.showing.power_lost()
        self._sign.showing.power_back(seconds)

    def end(self) -> None:
        pass


class ModelJudge:
    """The layout of the model. What it said of a text under a description's defaults is known to the next one too."""

    _known: dict[tuple[bytes, bytes, tuple[int, ...]], Fault | None] = {}

    def __init__(self, description: bytes) -> None:
        self._description, self._face = description, text.described(description).face

    def fault(self, message: bytes, defaults: Sequence[int]) -> Fault | None:
        key = (self._description, message, tuple(defaults))
        if key not in self._known:
            self._known[key] = layout.laid_out(self._face, defaults, message)[1]
        return self._known[key]

    def pages(self, message: bytes) -> list[str]:
        pages, _ = layout.laid_out(self._face, self._face.defaults, message)
        return [] if pages is None else layout.drawn(self._face, pages)

    def end(self) -> None:
        pass


def session(
    description: bytes,
    sign: SomeSign | None = None,
    oracle: Oracle | None = None,
    judge: Judge | None = None,
    seed: int = 1,
    faulty: float = 0.0,
    requests: int = 400,
    is_slow: bool = False,
    most_differences: int | None = None,
    watcher: Watcher | None = None,
    both_ways: bool = False,
) -> Session:
    """A test of a sign, by itself the model's, beside an oracle, by itself the model."""
    sign = sign or Sign(text.described(description))
    oracle, judge = oracle or ModelOracle(description), judge or ModelJudge(description)
    return bench.session(
        description, sign, oracle, judge, seed, faulty, requests, is_slow, most_differences, watcher, both_ways
    )

"""The shortest sequence that still shows a difference: delta debugging, bounded."""

from dataclasses import dataclass
from typing import Sequence

from wisangub.tester.findings.differences import Signature
from wisangub.tester.requests.steps import Ask, Raw, Step, Wait, datagrams
from wisangub.tester.sign.pair import Inconclusive

from .runner import Run, Runner

_MOST_RUNS = 150
# runs on a way that loses some: so many of so many have to show it, and the first so many not all without it
_SURE, _SURE_OF, _NEVER = 5, 8, 1


@dataclass
class Shrinking:
    """Delta debugging of a sequence, bounded in runs and seconds."""

    runner: Runner
    wanted: Signature
    best: Run
    until: float
    runs: int = 0

    def is_bounded(self) -> bool:
        return self.runs >= _MOST_RUNS or self.runner.pair.clock.now() >= self.until

    def shows(self, steps: Sequence[Step], of_any_cost: bool = False) -> bool:
        """Whether the steps show the difference, at less cost; then they are the best so far."""
        if self.is_bounded() or not steps:
            return False
        self.runs += 1
        self.runner.pair.is_dirty = True  # reads alone may have changed a sign that is wrong
        try:
            run = self.runner.anew(steps)
        except Inconclusive:
            return False
        if run is None or not run.signature.is_like(self.wanted) or len(run.steps) < len(steps):
            return False
        if not of_any_cost and _cost(run.steps) >= _cost(self.best.steps):
            return False
        self.best = run
        return True

    def is_seen_again(self, steps: Sequence[Step]) -> bool:
        """Whether a run shows the difference at the last of the steps once more. On a way that loses some it has to be
        a run in which nothing was lost, late or doubled, or most of many, each after all that was late."""
        port = self.runner.pair.port
        if not port.is_lossy():
            return self.shows(steps, of_any_cost=True)
        seen = 0
        for runs in range(1, _SURE_OF + 1):
            try:
                self.runner.reset.let_late_come()
                before = port.way.troubles()
                seen += (is_seen := self.shows(steps, of_any_cost=True))
                if is_seen:
                    port.listen(max(port.way.slowest, port.wait))  # what tells of a late request may still come
            except Inconclusive:
                continue
            if port.way.troubles() == before:
                return is_seen
            if seen >= _SURE or runs - seen > (_SURE_OF - _SURE if seen else _NEVER):
                break
        return seen >= _SURE

    def waits_alone(self) -> None:
        """So many seconds in one, and the request that differs; also after the first of the steps."""
        steps = self.best.steps
        wait = Wait(sum(step.ticks for step in steps if isinstance(step, Wait)))
        if wait.ticks:
            _ = self.shows([wait, steps[-1]]) or self.shows([steps[0], wait, steps[-1]])

    def without_steps(self) -> None:
        size = max(1, (len(self.best.steps) - 1) // 2)
        while not self.is_bounded():
            at, is_smaller = 0, False
            while at < len(self.best.steps) - 1 and not self.is_bounded():
                before = self.best.steps
                if self.shows([*before[:at], *before[min(at + size, len(before) - 1) :]]):
                    is_smaller = True
                else:
                    at += size
            if size == 1 and not is_smaller:
                return
            size = max(1, size // 2)

    def without_bindings(self) -> None:
        """Bindings that the difference does not need are left out, of the last request first."""
        for at in range(len(self.best.steps) - 1, -1, -1):
            step = self.best.steps[at] if at < len(self.best.steps) else None
            if not isinstance(step, Ask) or len(step.bindings) < 2:
                continue
            if at == len(self.best.steps) - 1 and self.best.exchange.mismatch and self.best.exchange.mismatch.names:
                names = self.best.exchange.mismatch.names[:1]
                kept = [bound for bound in step.bindings if bound[0] in names]
                if kept and self.shows([*self.best.steps[:at], step.with_bindings(kept)]):
                    continue
            self.one_by_one(at, step)

    def one_by_one(self, at: int, step: Ask) -> None:
        place = 0
        while place < len(step.bindings) and len(step.bindings) > 1 and not self.is_bounded():
            fewer = step.with_bindings([*step.bindings[:place], *step.bindings[place + 1 :]])
            if self.shows([*self.best.steps[:at], fewer, *self.best.steps[at + 1 :]]):
                step = fewer
            else:
                place += 1


def _cost(steps: Sequence[Step]) -> tuple[int, int, int]:
    """What is made small: datagrams, then seconds, then bindings."""
    bindings = sum(len(step.bindings) if isinstance(step, Ask) else 1 for step in steps if isinstance(step, (Ask, Raw)))
    return datagrams(steps), sum(step.ticks for step in steps if isinstance(step, Wait)), bindings


def shrunk(runner: Runner, run: Run, block: Sequence[Step], is_made_smaller: bool = True) -> tuple[Run, bool]:
    """The smallest run found that shows the same, and whether the difference was seen again at all.

    `block` is what was done last, which often suffices. On a way that loses some what was done before it is run again
    at the end of the chapter, unless the sign was wrong once for sure.
    """
    shrinking = Shrinking(runner, run.signature, run, runner.pair.clock.now() + runner.most_seconds)
    is_seen = len(block) < len(run.steps) and shrinking.is_seen_again(block)
    is_lossy = runner.pair.port.is_lossy()
    is_left = is_lossy and len(block) < len(run.steps) and not run.exchange.is_slip
    for _ in range(0 if is_left else 1 if is_lossy else 2):
        is_seen = is_seen or shrinking.is_seen_again(run.steps)
    if is_seen and is_made_smaller:
        shrinking.waits_alone()
        shrinking.without_steps()
        shrinking.without_bindings()
    return shrinking.best, is_seen

"""Co-processes that leave. Who ends by itself has no time to end in: on a machine that stands still for a while, or
gives a process nothing, each limit in seconds would be over first."""

import math
import time

import pytest

from wisangub.process import coprocess, leaving
from wisangub.process.coprocess import CoProcess
from wisangub.process.leaving import Leaving

LOOKS = 60_000  # counted, so that a machine that stands still takes none; they are ten minutes and more


@pytest.fixture(name="unhurried")
def no_limit(monkeypatch: pytest.MonkeyPatch) -> None:
    for module in (leaving, coprocess):
        monkeypatch.setattr(module, "ENDING", math.inf)


def looked(at: Leaving) -> list[int]:
    """How those that left ended, once all have."""
    processes = [one.process for _, one in at.processes]
    for _ in range(LOOKS):
        at.look()
        if not at.processes:
            break
        time.sleep(0.01)
    return [one.wait(0) for one in processes]


@pytest.mark.usefixtures("unhurried")
def test_who_leaves_ends_by_itself() -> None:
    at = Leaving()
    for _ in range(3):
        at.add(CoProcess("/bin/cat", []))
    assert looked(at) == [0, 0, 0]


@pytest.mark.usefixtures("unhurried")
def test_who_does_not_leave_is_killed(monkeypatch: pytest.MonkeyPatch) -> None:
    at = Leaving()
    at.add(CoProcess("/bin/cat", []))
    monkeypatch.setattr(leaving, "ENDING", 0.0)
    at.add(CoProcess("/bin/sleep", ["infinity"]))
    assert looked(at) == [0, -9]


@pytest.mark.usefixtures("unhurried")
def test_who_has_time_left_is_not_killed() -> None:
    at, stays = Leaving(), CoProcess("/bin/sleep", ["infinity"])
    at.add(stays)
    for _ in range(3):
        at.look()
    assert [one for _, one in at.processes] == [stays] and stays.process.returncode is None
    stays.process.kill()
    assert looked(at) == [-9]


@pytest.mark.usefixtures("unhurried")
def test_all_that_leave_are_waited_for_at_the_end() -> None:
    at, process = Leaving(), CoProcess("/bin/cat", [])
    at.add(process)
    at.wait()
    assert process.process.returncode == 0 and not at.processes

"""A front end and its co-process are on one processor while many datagrams come, and where they may be else."""

import os
import subprocess
from collections.abc import Iterator

import pytest

from wisangub.endpoint.near import MANY, Near

ALLOWED = os.sched_getaffinity(0)


@pytest.fixture
def process() -> Iterator[int]:
    with subprocess.Popen(["cat"], stdin=subprocess.PIPE) as cat:
        yield cat.pid


def turned(near: Near, now: float, turns: int) -> None:
    for _ in range(turns):
        near.turn(now)


@pytest.mark.skipif(len(ALLOWED) < 2, reason="one processor")
def test_many_turns_in_a_second_join_them_for_the_rest_of_it(process: int) -> None:
    near = Near(process)
    turned(near, 10.0, MANY - 1)
    assert os.sched_getaffinity(process) == os.sched_getaffinity(0) == ALLOWED and not near.allowed
    near.turn(10.5)
    try:
        assert os.sched_getaffinity(process) == os.sched_getaffinity(0) < ALLOWED and near.allowed
        near.turn(10.9)
        assert len(os.sched_getaffinity(0)) == 1
    finally:
        near.turn(11.0)
    assert os.sched_getaffinity(process) == os.sched_getaffinity(0) == ALLOWED and not near.allowed


def test_turns_of_two_seconds_are_not_counted_together(process: int) -> None:
    near = Near(process)
    for second in range(3):
        turned(near, float(second), MANY - 1)
    assert os.sched_getaffinity(process) == os.sched_getaffinity(0) == ALLOWED


def test_a_process_that_ended_is_no_fault() -> None:
    with subprocess.Popen(["true"]) as ended:
        pass
    near = Near(ended.pid)
    turned(near, 10.0, 2 * MANY)
    assert os.sched_getaffinity(0) == ALLOWED and not near.allowed

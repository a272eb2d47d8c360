"""What ends a trial that hangs, and how long one waits."""

import os
import threading
import time
from typing import Callable
from unittest import mock

from trials.front_ends.patience import LEAST, TIMES, Hangs, Pace, watched


def read_for_ever() -> None:
    """A read of a pipe that nobody writes to."""
    reader, writer = os.pipe()
    try:
        os.read(reader, 1)
    finally:
        os.close(reader)
        os.close(writer)


def swallowed() -> None:
    """The same, by one who takes no notice at first."""
    try:
        read_for_ever()
    except Hangs:
        read_for_ever()


def is_ended(does: Callable[[], object], seconds: float) -> bool:
    """Whether it hangs, and is ended within ten seconds more."""
    begun = time.monotonic()
    try:
        with watched(seconds):
            does()
    except Hangs:
        return seconds <= time.monotonic() - begun < seconds + 10
    return False


def test_what_hangs_is_ended() -> None:
    hanging: list[Callable[[], object]] = [read_for_ever, swallowed, threading.Event().wait, lambda: time.sleep(60)]
    with mock.patch("trials.front_ends.patience.RINGS_AGAIN", 1.0):
        for does in hanging:
            assert is_ended(does, 0.05), does


def test_what_ends_is_left_alone() -> None:
    with watched(0.05):
        pass
    time.sleep(0.1)


def test_a_watch_goes_on_after_one_within_it() -> None:
    def does() -> None:
        assert is_ended(read_for_ever, 0.05)
        with watched(5):
            pass
        read_for_ever()

    assert is_ended(does, 0.2)


def test_what_is_waited_for_has_many_times_what_a_start_takes() -> None:
    pace = Pace()
    for seconds, wanted in ((0.01, LEAST), (3.0, 3.0 * TIMES), (0.3, 3.0 * TIMES), (1e6, pace.most)):
        pace.took(seconds)
        assert pace.patience() == wanted
    for _ in range(100):
        pace.took(0.1)
    assert pace.patience() == LEAST

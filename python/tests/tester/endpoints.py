"""Signs on ports, for tests in real time, which a machine that is too busy skips."""

import contextlib
import pathlib
import socket
import subprocess
import sys
import time
from typing import Iterator

from wisangub.process.places import TOP

from .skipping import skip

LONG = 300  # seconds that a busy machine may take
BUSY = 25  # where a test that fails took longer, seconds of the machine are none to go by: it is skipped


@contextlib.contextmanager
def in_real_time() -> Iterator[None]:
    """A test that is skipped where it fails and took long."""
    begun = time.monotonic()
    try:
        yield
    except (AssertionError, subprocess.TimeoutExpired):
        seconds = time.monotonic() - begun
        if seconds > BUSY:
            skip(f"the machine is too busy for a test in real time: {seconds:.0f} s")
        raise


def free_port() -> int:
    """A port that nobody has."""
    with socket.socket(socket.AF_INET, socket.SOCK_DGRAM) as free:
        free.bind(("127.0.0.1", 0))
        return int(free.getsockname()[1])


@contextlib.contextmanager
def silence() -> Iterator[int]:
    """A port on which nobody answers, nor says that nobody does."""
    with socket.socket(socket.AF_INET, socket.SOCK_DGRAM) as taken:
        taken.bind(("127.0.0.1", 0))
        yield int(taken.getsockname()[1])


def come(path: pathlib.Path) -> bool:
    """Whether there is such a file before long."""
    until = time.monotonic() + LONG
    while not path.exists() and time.monotonic() < until:
        time.sleep(0.02)
    return path.exists()


@contextlib.contextmanager
def front_end(*words: str) -> Iterator[None]:
    """A sign on a port, which is gone afterwards."""
    with subprocess.Popen([sys.executable, *words], cwd=TOP, stdout=subprocess.PIPE, stderr=subprocess.DEVNULL) as sign:
        try:
            assert sign.stdout is not None and sign.stdout.readline()
            yield
        finally:
            sign.terminate()
            sign.wait(30)

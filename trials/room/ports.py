"""Ports of this machine for services of a test, of chaos or of a measure."""

import contextlib
import random
import socket
import time
from typing import Callable

from wisangub.refusal import Refusal

FIRST, LAST = 20_000, 32_000  # below those that the system gives to whoever asks for any port
TRIES = 100
PATIENCE = 60.0  # seconds that a busy machine takes


def free_port(kind: socket.SocketKind = socket.SOCK_STREAM) -> int:
    """A port of loopback that nothing has. The system gives it to nobody by itself, so that it is still free when the
    service begins, and when it is started again."""
    for port in random.SystemRandom().sample(range(FIRST, LAST), TRIES):
        with contextlib.suppress(OSError), socket.socket(socket.AF_INET, kind) as tried:
            tried.bind(("127.0.0.1", port))
            return port
    raise Refusal(f"no port from {FIRST} to {LAST} is free")


def until_answers(port: int, is_standing: Callable[[], bool] = lambda: True) -> None:
    """Waits until somebody listens there, as long as who is to listen stands."""
    ends = time.monotonic() + PATIENCE
    while time.monotonic() < ends and is_standing():
        with contextlib.suppress(OSError), socket.create_connection(("127.0.0.1", port), 1):
            return
        time.sleep(0.1)
    raise AssertionError(f"nobody listens at port {port}")

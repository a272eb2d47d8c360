"""What tests of front ends wait for, and what they are run over: the model, and some the program too."""

import time
from collections.abc import Callable

from wisangub.process.places import SIGNTOOL, TOP

MODEL = str(TOP / "model/signtool")
PROGRAMS = [MODEL, *([str(SIGNTOOL)] if SIGNTOOL.is_file() else [])]  # the program where it is built
PATIENCE = 60.0  # seconds that a busy machine takes


def until(is_so: Callable[[], object], what: str) -> None:
    """Waits until it is so."""
    ends = time.monotonic() + PATIENCE
    while not is_so():
        assert time.monotonic() < ends, f"not within {PATIENCE:g} s: {what}"
        time.sleep(0.05)

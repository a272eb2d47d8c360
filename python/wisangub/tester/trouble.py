"""What keeps a command of the tester from a verdict: status 2 and a line, since 1 says that something differs."""

import os
import tempfile
import traceback
from typing import Callable

from wisangub import refusal
from wisangub.refusal import Refusal, reason

STATUS = 2


def status_of(command: Callable[[], int]) -> int:
    """The exit status of a command: its verdict's, or that of a trouble, which is said on standard error."""
    return refusal.status_of(lambda: _judged(command))


def _judged(command: Callable[[], int]) -> int:
    try:
        return command()
    except Refusal as refused:
        raise Refusal(str(refused), STATUS) from refused
    except OSError as fault:
        raise Refusal(reason(fault), STATUS) from fault
    except MemoryError as fault:
        raise Refusal("out of memory", STATUS) from fault
    except KeyboardInterrupt as fault:
        raise Refusal("interrupted", STATUS) from fault
    except Exception as fault:
        raise Refusal(unforeseen(fault), STATUS) from fault


def unforeseen(fault: Exception) -> str:
    """A fault of the tester in a line, which names the file that its traceback is kept in; else that is before it."""
    words = " ".join(f"{type(fault).__name__} {fault}".split())
    lines = "".join(traceback.format_exception(fault))
    try:
        file, name = tempfile.mkstemp(prefix="wisangub-conform-", suffix=".txt")
        with os.fdopen(file, "w", encoding="utf-8", errors="backslashreplace") as kept:
            kept.write(lines)
    except OSError:
        return f"{lines}a fault of the tester, and nothing is said of the sign: {words}"
    return f"a fault of the tester, and nothing is said of the sign: {words} (its traceback: {name})"

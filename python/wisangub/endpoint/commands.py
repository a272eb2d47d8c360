"""The lines of an operator on standard input."""

import os
import sys
from typing import Callable, Iterator

from .printing import PRINTED
from .sockets import Waiting

MOST_LINE = 65_536


def lines(waiting: Waiting, between: Callable[[], object] = lambda: None) -> Iterator[str | None]:
    """Each line without spaces around it; None for one that is no UTF-8, or too long. Empty ones and comments are
    skipped. Before each one, and after each signal, something else may be done."""
    left, has_more, is_long = b"", sys.stdin is not None, False
    file = sys.stdin.fileno() if has_more else -1
    while not waiting.is_stopped and (has_more or left or is_long):
        between()
        if has_more and b"\n" not in left:
            if len(left) > MOST_LINE:
                left, is_long = b"", True
            if file in waiting.until([file], PRINTED.pause):
                more = os.read(file, 65_536)
                left, has_more = left + more, bool(more)
            continue
        line, _, left = left.partition(b"\n")
        text = line.strip(b" \t\r")
        if is_long:
            yield None
        elif text and not text.startswith(b"#"):
            yield _decoded(text)
        is_long = False


def _decoded(line: bytes) -> str | None:
    """The line as text."""
    try:
        return line.decode("utf-8") if len(line) <= MOST_LINE else None
    except UnicodeDecodeError:
        return None

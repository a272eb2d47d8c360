"""The end of a tool by a SIGTERM, which nothing that takes what else fails may take for a fault of its own."""

from __future__ import annotations

import signal
import sys

STATUS = 143


def end_at_sigterm() -> None:
    """A SIGTERM ends the tool with what it began, by a SystemExit of its own status."""
    signal.signal(signal.SIGTERM, lambda *_: sys.exit(STATUS))


def raise_where_ended(fault: BaseException) -> None:
    """Raises what was caught again where it is the end of the tool."""
    if isinstance(fault, SystemExit) and fault.code == STATUS:
        raise fault

"""A log on standard error. `output` has it imported where something is said: `logging` takes a tenth of a start."""

import logging
import sys

from .standing import Parts

_PATIENCE = 1000  # milliseconds that an error waits for a reader, once: it is mostly the last that a command says


class _Standard(logging.Handler):
    """Each message as a line of what standard error is then; one that cannot be written is let go, and so is one that
    its reader does not take: who serves goes on. How many were, is said before the next one that is written."""

    def __init__(self) -> None:
        super().__init__()
        self._parts, self._left_out = Parts(), 0

    def emit(self, record: logging.LogRecord) -> None:
        patience = _PATIENCE if record.levelno >= logging.ERROR and not self._left_out else 0
        try:
            if sys.stderr is None:
                return
            if self._left_out:
                lines = f"{self._left_out} lines were left out" if self._left_out > 1 else "a line was left out"
                self._write(f"{lines} here: nobody took what was said", 0)
                self._left_out = 0
            self._write(self.format(record), patience)
        except (OSError, ValueError):
            self._left_out += 1

    def _write(self, line: str, patience: int) -> None:
        """A line; raises OSError where it is not taken. What stands in the place of standard error may be no file."""
        try:
            file = sys.stderr.fileno()
        except (OSError, ValueError, AttributeError):
            print(line, file=sys.stderr, flush=True)
            return
        sys.stderr.flush()
        coded = line.encode(sys.stderr.encoding or "utf-8", sys.stderr.errors or "backslashreplace")
        self._parts.write(file, coded + b"\n", patience)


LOGGER = logging.getLogger("wisangub")
LOGGER.setLevel(logging.INFO)
LOGGER.propagate = False
LOGGER.addHandler(_Standard())

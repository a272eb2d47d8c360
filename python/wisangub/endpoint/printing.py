"""What a sign and a centre print, for programs too: the reader may stand still, and they go on. Lines that are not
taken at once wait in their order; where there are too many, later ones are left out, and a line says how many in their
place."""

import collections
import contextlib
import os
import select
import sys
import time

from wisangub.output import LOG, print_line
from wisangub.standing import look_at_reader

MOST = 1 << 20  # octets that wait
MOMENT = 1000  # milliseconds that the last lines, and many at once, wait for a reader
_AGAIN = 0.5  # seconds from one look whether a reader takes more to the next


class Printed:
    """The lines of standard output that wait for its reader."""

    def __init__(self, file: int = 1) -> None:
        self.file = file
        self._lines: collections.deque[bytes] = collections.deque()
        self._size = self._left_out = 0

    @property
    def is_waiting(self) -> bool:
        return bool(self._lines)

    @property
    def pause(self) -> float | None:
        """The seconds until its reader is looked at again; None where nothing waits."""
        return _AGAIN if self._lines else None

    def print(self, words: str, patience: int = 0) -> None:
        """A line, or some at once, behind those that wait. Where these are too many a reader that takes some has so
        many milliseconds to take them; what nothing waits before is never too long."""
        self.turn()
        if self._is_elsewhere():
            print_line(words)
            return
        octets = _coded(words)
        if self._is_too_long(octets) and not self._left_out:
            self.turn(patience)
        lines = octets.splitlines(keepends=True)
        if self._is_too_long(octets):
            if not self._left_out:
                LOG.info("nobody takes what is printed: lines are left out")
            self._left_out += len(lines)
            return
        self._tell_left_out()
        for line in lines:
            self._put(line)
        self.turn()

    def _is_too_long(self, octets: bytes) -> bool:
        """Whether what waits would be more than may wait with them."""
        return self._size > 0 and self._size + len(octets) > MOST

    def turn(self, patience: int = 0) -> None:
        """Writes what waits, as far as it is taken, in these milliseconds; where nobody reads it any more a sign goes
        on without."""
        ends = time.monotonic() + patience / 1000
        try:
            while self._lines:
                look_at_reader(self.file, max(0, int(1000 * (ends - time.monotonic()))))
                self._written(os.write(self.file, self._next()))
                if not self._lines:
                    self._tell_left_out()
        except BlockingIOError:
            pass
        except OSError:
            self._lines.clear()
            self._size = self._left_out = 0
            os.dup2(os.open(os.devnull, os.O_WRONLY), self.file)

    def end(self) -> None:
        """The last lines are written; a reader that stands still is waited for only a moment."""
        self.turn(MOMENT)

    def _is_elsewhere(self) -> bool:
        """Whether standard output is none, or another's file."""
        with contextlib.suppress(OSError, ValueError, AttributeError):
            return sys.stdout.fileno() != self.file
        return True

    def _put(self, line: bytes) -> None:
        self._lines.append(line)
        self._size += len(line)

    def _tell_left_out(self) -> None:
        if self._left_out:
            count, self._left_out = self._left_out, 0
            self._put(_coded(f"left out {count} line{'s' * (count > 1)}: nobody took them"))

    def _next(self) -> bytes:
        """What is written next: whole lines, so that nothing else stands within one, or a part of a long one, as much
        as a pipe takes at once."""
        octets = b""
        for line in self._lines:
            if octets and len(octets) + len(line) > select.PIPE_BUF:
                break
            octets += line
        return octets[: select.PIPE_BUF]

    def _written(self, count: int) -> None:
        """So many octets are gone."""
        self._size -= count
        while count:
            line = self._lines.popleft()
            if len(line) > count:
                self._lines.appendleft(line[count:])
            count -= min(count, len(line))


def _coded(words: str) -> bytes:
    """A line in the octets of standard output."""
    plain = words.encode("utf-8", "backslashreplace").decode()
    return f"{plain}\n".encode(getattr(sys.stdout, "encoding", None) or "utf-8", "backslashreplace")


PRINTED = Printed()

"""A reader that stands still, as of a pipe: what it does not take at once is not waited for."""

import errno
import io
import select


def look_at_reader(file: int, patience: int = 0) -> None:
    """Raises OSError where a write would wait for a reader for longer than these milliseconds."""
    waited = select.poll()
    waited.register(file, select.POLLOUT)
    if not waited.poll(patience):
        raise OSError(errno.EAGAIN, "nobody takes its lines")


class Parts:
    """Lines to what is no file of a disk, a long one in parts, each of which a pipe takes at once; after one that was
    written in part a newline comes first."""

    def __init__(self) -> None:
        self.is_torn = False

    def write(self, file: int, line: bytes, patience: int = 0) -> None:
        """A line; raises OSError where a part of it cannot be written, or is not taken in these milliseconds."""
        octets, written = b"\n" * self.is_torn + line, 0
        try:
            with io.FileIO(file, "wb", closefd=False) as raw:
                while written < len(octets):
                    look_at_reader(file, patience)
                    written += raw.write(octets[written : written + select.PIPE_BUF]) or 0
        finally:
            self.is_torn = 0 < written < len(octets) or self.is_torn and written == 0

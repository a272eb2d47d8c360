"""Two processes of one service that end together: each has an end of a pair of sockets, which is closed as it ends."""

import contextlib
import os
import signal
import socket
import subprocess
import sys
import threading
from dataclasses import dataclass
from typing import Iterator

from wisangub.endpoint.sockets import Waiting
from wisangub.process.places import environment
from wisangub.room.output import LOG

_STANDS = b"+"
_PATIENCE = 60.0  # seconds in which the other process ends


@dataclass
class Other:
    """The process that began this one."""

    connection: socket.socket

    @staticmethod
    def of(file: int) -> "Other":
        """By the file that this one was given. Where the other one is no more, this one ends at once."""
        made = Other(socket.socket(fileno=file))
        threading.Thread(target=made._watch, name="beside", daemon=True).start()
        return made

    def _watch(self) -> None:
        with contextlib.suppress(OSError):
            self.connection.recv(1)
        os._exit(1)

    def stands(self) -> None:
        """Tells the other one that this one does what it is for."""
        with contextlib.suppress(OSError):
            self.connection.send(_STANDS)


@dataclass
class Begun:
    """A process that this one began."""

    process: subprocess.Popen[bytes]
    connection: socket.socket
    is_lost: bool = False  # it ended before it was told to

    def is_standing(self, waiting: Waiting) -> bool:
        """Waits until it stands: False where it ended before, or this one was stopped. Where it ends later, this one is
        stopped as by a SIGTERM."""
        while not waiting.is_stopped:
            if waiting.until([self.connection.fileno()], None):
                if self.connection.recv(1) != _STANDS:
                    break
                threading.Thread(target=self._watch, args=(waiting,), name="beside", daemon=True).start()
                return True
        return False

    def _watch(self, waiting: Waiting) -> None:
        self.process.wait()
        if not waiting.is_stopped:
            self.is_lost = True
            LOG.error("the pages ended by themselves")
            os.kill(os.getpid(), signal.SIGTERM)

    def status(self, waiting: Waiting) -> int:
        """The exit status of both: that of the other one, where it ended by itself, and 1 where a signal ended it."""
        if not waiting.is_stopped:
            return max(self.process.wait(_PATIENCE), 0) or 1
        return 1 if self.is_lost else 0

    def end(self) -> None:
        """Ends it, and waits for that."""
        self.process.terminate()
        try:
            self.process.wait(_PATIENCE)
        except subprocess.TimeoutExpired:
            self.process.kill()
            self.process.wait()
        self.connection.close()


@contextlib.contextmanager
def begun(module: str, words: list[str]) -> Iterator[Begun]:
    """A module of Python as a process, which `--beside FILE` tells where the other one is; it ends with the block."""
    ours, theirs = socket.socketpair()
    call = [sys.executable, "-m", module, *words, "--beside", str(theirs.fileno())]
    with theirs:
        process = subprocess.Popen(
            call, env=environment(), stdin=subprocess.DEVNULL, pass_fds=[theirs.fileno()], process_group=0
        )
    made = Begun(process, ours)
    try:
        yield made
    finally:
        made.end()

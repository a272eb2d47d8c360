"""A sign's front end over a journal: examples/signd.c or wisangub-sign."""

from __future__ import annotations

import os
import pathlib
import signal
import socket
import subprocess
import sys
import time

from wisangub.snmp.gets import is_get

from .against_vectors import cases
from .trial import TOP, Trial

_MOST_START = 60.0  # seconds
MOST_REPLY = 20.0


class FrontEnd:
    """A front end of one kind over a journal, or none, at a port of its own."""

    def __init__(
        self,
        trial: Trial,
        kind: str,
        journal: pathlib.Path | None,
        *words: str,
        host: str = "127.0.0.1",
        waits: bool = True,
    ) -> None:
        sign = str(TOP / "signs/bench.sign")
        kept = ["--journal", str(journal)] if journal else []
        if kind == "signd":
            command = [*trial.called(trial.way, "signd"), "--port", "0", "--host", host, *kept, *words, sign]
        else:
            command = [sys.executable, str(TOP / "bin/wisangub-sign"), "--port", "0", "--signtool", str(trial.program)]
            command += ["--sign", sign, *kept, *words]
        self.process = subprocess.Popen(command, stdout=subprocess.PIPE, stderr=subprocess.PIPE)
        self.socket = socket.socket(socket.AF_INET6 if ":" in host else socket.AF_INET, socket.SOCK_DGRAM)
        self.socket.settimeout(MOST_REPLY)
        self.more = b""  # what it printed behind its first line while that was waited for
        self.said = self.first_line() if waits else ""
        if self.said:
            self.socket.connect((host, int(self.said.rpartition(":")[2])))

    def first_line(self) -> str:
        """What it announces; nothing where it ended instead."""
        assert self.process.stdout is not None
        os.set_blocking(self.process.stdout.fileno(), False)
        last, found = time.monotonic() + _MOST_START, b""
        while time.monotonic() < last and b"\n" not in found and self.process.poll() is None:
            found += self.process.stdout.read() or b""
            time.sleep(0.01)
        line, newline, self.more = found.partition(b"\n")
        return line.decode().strip() if newline else ""

    def ask(self, octets: str) -> str:
        """The reply to a datagram; nothing where none comes."""
        self.socket.send(bytes.fromhex(octets))
        try:
            return self.socket.recv(65536).hex()
        except (TimeoutError, OSError):
            return ""

    def replies(self, seconds: float) -> list[str]:
        """All replies that come, until none has come for so long."""
        self.socket.settimeout(seconds)
        found = []
        try:
            while True:
                found.append(self.socket.recv(65536).hex())
        except (TimeoutError, OSError):
            self.socket.settimeout(MOST_REPLY)
            return found

    def end(self, number: int = signal.SIGTERM) -> tuple[int, str]:
        """Its exit status and what it said of faults."""
        if self.process.poll() is None:
            self.process.send_signal(number)
        try:
            _, faults = self.process.communicate(timeout=_MOST_START)
        except subprocess.TimeoutExpired:
            self.process.kill()
            _, faults = self.process.communicate()
        self.socket.close()
        return self.process.returncode, faults.decode("latin-1")


def settings() -> tuple[list[str], list[str]]:
    """Requests that the bench sign answers: some that change it, and Gets."""
    found = [case for case in cases("requests") if case["reply"]]
    gets = [case["request"] for case in found if is_get(bytes.fromhex(case["request"]))]
    return [case["request"] for case in found if case["changes"]], gets[::4][:40]

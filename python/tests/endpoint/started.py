"""A front end's process over the model, for tests of either end: what it prints, a SIGHUP, and why one ends at once."""

import contextlib
import json
import pathlib
import signal
import subprocess
import sys
import threading
from collections.abc import Iterator
from dataclasses import dataclass, field

from wisangub.process.places import TOP, environment

from .waiting import MODEL, PATIENCE, until


@dataclass
class Started:
    """The process, and what it printed and said."""

    process: subprocess.Popen[bytes]
    printed: list[str] = field(default_factory=list)
    said: list[str] = field(default_factory=list)

    @contextlib.contextmanager
    def heard(self) -> Iterator[None]:
        """What it prints and says is taken down; at the end it is killed."""
        readers = [self.reader("stdout", self.printed), self.reader("stderr", self.said)]
        for reader in readers:
            reader.start()
        try:
            yield
        finally:
            self.process.kill()
            self.process.wait()
            for reader in readers:
                reader.join()

    def reader(self, file: str, lines: list[str]) -> threading.Thread:
        """Reads what it prints."""
        pipe = getattr(self.process, file)
        return threading.Thread(target=lambda: lines.extend(line.decode().rstrip("\n") for line in pipe), daemon=True)

    def hang_up(self, words: str) -> None:
        """A SIGHUP, and the words that follow it."""
        before = len(self.said)
        self.process.send_signal(signal.SIGHUP)
        until(lambda: any(words in line for line in self.said[before:]), words)

    def shortened(self) -> int:
        """How often it said so."""
        return sum(": shortened from " in line for line in self.said)


def call(tool: str, *words: str) -> list[str]:
    return [sys.executable, str(TOP / "bin" / tool), "--signtool", MODEL, *words]


def begun(words: list[str], stdin: int | None = None) -> "subprocess.Popen[bytes]":
    """Its process."""
    return subprocess.Popen(words, stdin=stdin, stdout=subprocess.PIPE, stderr=subprocess.PIPE, env=environment())


def refused(words: list[str]) -> tuple[int, str]:
    """The exit status of a front end that does not start, and what it says."""
    ended = subprocess.run(
        words,
        stdin=subprocess.DEVNULL,
        capture_output=True,
        text=True,
        env=environment(),
        timeout=PATIENCE,
        check=False,
    )
    return ended.returncode, ended.stderr


def are_shortened(log: pathlib.Path) -> int:
    """How many events of a log in JSON say that the journal is shorter now."""
    events = [json.loads(line) for line in log.read_text(encoding="utf-8").splitlines()]
    return len([one for one in events if one["event"] == "shortened" and one["octets"] < one["from"]])


def cut_off(folder: pathlib.Path) -> list[bytes]:
    """The files that were cut off, by their numbers: each but the first begins with a state."""
    names = sorted(folder.iterdir(), key=lambda one: int(one.name.rpartition("-")[2]))
    first, *others = [one.read_bytes() for one in names]
    end = first.split(b" ")[2]
    assert first.startswith(b"journal 2 ") and b"\nstate " not in first
    assert all(b"\nstate 1 %b #2" % end in one for one in others)
    return [first, *others]

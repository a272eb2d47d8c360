"""What each trial needs: front ends that are started and killed, and a count of what held."""

import os
import pathlib
import random
import re
import signal
import subprocess
import sys
import tempfile
import threading
import time
from dataclasses import dataclass, field
from typing import Callable

from model import text
from wisangub.endpoint.records import Head
from wisangub.process import description
from wisangub.process.places import TOP

from .patience import PACE

_MOST_TOLD = 3000  # characters of what was found, the last ones


@dataclass
class Trial:
    """A folder of its own, the program, chance, whether it is the short form, and what came of it. Where another sign's
    front end is tried than wisangub-sign, `other` is its program: it is one process and takes the options --port,
    --journal, --down, --no-ticks and --quiet, and then a description; with --keep it has --archive too."""

    program: str
    is_short: bool
    chance: random.Random
    folder: pathlib.Path
    other: str | None = None
    passed: int = 0
    failed: int = 0
    skipped: int = 0
    front_ends: list["FrontEnd"] = field(default_factory=list)
    helps: str | None = None  # what the other front end says of its options
    ends: float = 0.0  # in the short form, when a kind of trial goes on no more

    def holds(self, name: str, is_well: bool, found: object = "") -> bool:
        """Counts one thing that was looked at."""
        self.passed, self.failed = self.passed + is_well, self.failed + (not is_well)
        if not is_well:
            told = str(found)
            print(f"FAILED {name}: {told if len(told) <= _MOST_TOLD else f'.. {told[-_MOST_TOLD:]}'}", flush=True)
        return is_well

    def is_late(self) -> bool:
        """Whether the short form goes on to the next kind of trial."""
        return self.is_short and time.monotonic() > self.ends

    def skip(self, name: str, why: str) -> None:
        """Says what cannot be tried here."""
        self.skipped += 1
        print(f"skipped {name}: {why}", flush=True)

    def new_folder(self) -> pathlib.Path:
        """An empty folder."""
        return pathlib.Path(tempfile.mkdtemp(dir=self.folder))

    def is_ours(self, name: str) -> bool:
        """Whether the sign's front end is wisangub-sign; what only that has is told of another."""
        if self.other:
            print(f"left out {name}: the front end is {self.other}", flush=True)
        return self.other is None

    def victims(self) -> tuple[str, ...]:
        """What of a sign's front end can be killed."""
        return ("front end",) if self.other else ("front end", "co-process", "both")

    def bench(self) -> pathlib.Path:
        """The bench sign's description, for a front end that has to be handed one."""
        path = self.folder / "bench.sign"
        if not path.exists():
            path.write_bytes(text.BENCH)
        return path

    def head(self, **words: int) -> Head:
        """The first record of a journal of the bench sign."""
        return Head("sign", description.digest(description.read(str(self.bench())) if self.other else None), **words)

    def call(self, tool: str, *words: str) -> list[str]:
        """The call of a front end."""
        if not self.other or tool != "wisangub-sign":
            return [sys.executable, str(TOP / "bin" / tool), "--signtool", self.program, *words]
        at = words.index("--sign") if "--sign" in words else len(words)
        return [self.other, *words[:at], *words[at + 2 :], words[at + 1] if words[at:] else str(self.bench())]

    def has(self, option: str) -> bool:
        """Whether the sign's front end has this option."""
        if self.other and self.helps is None:
            found = subprocess.run([self.other, "--help"], capture_output=True, check=False, timeout=PACE.patience())
            self.helps = (found.stdout + found.stderr).decode("latin-1")
        return self.helps is None or option in self.helps

    def front_end(
        self, tool: str, *words: str, environment: dict[str, str] | None = None, stdin: int | None = subprocess.DEVNULL
    ) -> "FrontEnd":
        """A front end that is started."""
        front_end = FrontEnd(self.call(tool, *words), environment, stdin)
        self.front_ends.append(front_end)
        return front_end

    def sign(self, *words: str, environment: dict[str, str] | None = None) -> "FrontEnd":
        """A sign at a port of its own, which it tells."""
        begun = time.monotonic()
        is_free = "--journal" in words and "--most-recorded" not in words and self.has("--most-recorded")
        more = ["--most-recorded", str(10**6)] if is_free else []  # most trials ask as fast as they can
        more += self.unshortened() if "--journal" in words and "--keep" not in words else []
        front_end = self.front_end("wisangub-sign", "--port", "0", *more, *words, environment=environment)
        if front_end.wait_for_port():
            PACE.took(time.monotonic() - begun)
        return front_end

    def unshortened(self) -> list[str]:
        """The options by which a journal keeps all its lines, which most trials read."""
        return ["--keep", "1000M"] if self.has("--keep") else []

    def measure(self) -> None:
        """What a start takes on this machine now."""
        for _ in range(2):
            front_end = self.sign("--no-ticks")
            front_end.stop()
            front_end.forget()
            self.front_ends.remove(front_end)

    def end(self) -> None:
        """Nothing that was started goes on."""
        for front_end in self.front_ends:
            front_end.kill("both")
            front_end.forget()
        self.front_ends.clear()


class FrontEnd:
    """A front end's process, and what it printed."""

    def __init__(self, call: list[str], environment: dict[str, str] | None, stdin: int | None) -> None:
        self.process = subprocess.Popen(
            call, stdin=stdin, stdout=subprocess.PIPE, stderr=subprocess.PIPE, env={**os.environ, **(environment or {})}
        )
        self.output, self.errors, self.port = b"", b"", 0
        self.readers = [threading.Thread(target=self.read, args=(name,), daemon=True) for name in ("output", "errors")]
        for reader in self.readers:
            reader.start()

    def read(self, name: str) -> None:
        """Collects what is printed."""
        file = self.process.stdout if name == "output" else self.process.stderr
        assert file is not None
        while octets := os.read(file.fileno(), 65_536):
            setattr(self, name, getattr(self, name) + octets)

    def wait_for_port(self) -> bool:
        """Whether the sign is announced before the process ends."""
        ends = time.monotonic() + PACE.patience()
        while time.monotonic() < ends:
            found = re.search(rb"a sign at .*:(\d+)\n", self.output)
            if found:
                self.port = int(found[1])
                return True
            if self.process.poll() is not None:
                return False
            time.sleep(0.002)
        return False

    def inner(self) -> int | None:
        """The co-process, by its number."""
        number = self.process.pid
        try:
            words = pathlib.Path(f"/proc/{number}/task/{number}/children").read_text(encoding="ascii").split()
        except OSError:
            return None
        return int(words[0]) if words else None

    def processor_time(self) -> float:
        """The seconds of a processor that it and its co-process had so far."""
        ticks = 0
        for number in (self.process.pid, self.inner()):
            try:
                words = pathlib.Path(f"/proc/{number}/stat").read_text(encoding="latin-1").rpartition(")")[2].split()
            except OSError:
                continue
            ticks += int(words[11]) + int(words[12])
        return ticks / os.sysconf("SC_CLK_TCK")

    def kill(self, which: str = "front end") -> None:
        """SIGKILL to the front end, to its co-process, or to both."""
        numbers = [self.inner()] if which in ("co-process", "both") else []
        numbers += [self.process.pid] if which in ("front end", "both") and self.process.poll() is None else []
        for number in numbers:
            if number is not None:
                try:
                    os.kill(number, signal.SIGKILL)
                except ProcessLookupError:
                    pass

    def ended(self) -> int:
        """The exit status, once it ended by itself; 999 where it does not."""
        try:
            status = self.process.wait(PACE.patience())
        except subprocess.TimeoutExpired:
            return 999
        for reader in self.readers:
            reader.join(2)
        return status

    def forget(self) -> None:
        """Waits for its end and closes what it has open."""
        self.ended()
        for file in (self.process.stdin, self.process.stdout, self.process.stderr):
            if file is not None:
                file.close()

    def stop(self) -> int:
        """Asks it to end, as a user would."""
        if self.process.poll() is None:
            self.process.send_signal(signal.SIGTERM)
        return self.ended()


def eventually(holds: Callable[[], bool], seconds: float | None = None) -> bool:
    """Whether something holds within so many seconds, or within all of the patience."""
    ends = time.monotonic() + (PACE.patience() if seconds is None else seconds)
    while not holds():
        if time.monotonic() > ends:
            return False
        time.sleep(0.005)
    return True


def is_gone(number: int | None) -> bool:
    """Whether a process has ended."""
    if number is None:
        return True
    try:
        words = pathlib.Path(f"/proc/{number}/stat").read_text(encoding="latin-1")
    except OSError:
        return True
    return words.rpartition(")")[2].split()[0] == "Z"

"""Lives of a centre's front end over one journal, which is killed, or whose disk refuses, while it publishes to a
sign."""

import errno
import itertools
import os
import pathlib
import subprocess
import time

from model import text, wire
from model.centre import Centre

from .bench import FrontEnd, Trial
from .follower import lines_of
from .kills import killed_later
from .numbers import numbers
from .refusals import built, refusing
from .relay import Relay

_FAULTS = (("write", errno.ENOSPC), ("write", errno.EIO), ("fdatasync", errno.EIO), ("open", errno.EACCES))


class Centres:
    """Lives of a centre over one journal."""

    def __init__(self, trial: Trial, relay: Relay, path: pathlib.Path) -> None:
        self.trial, self.relay, self.path = trial, relay, path
        self.words = ["--journal", str(path), "--keep", "1000M"]  # most trials read all its lines
        self.commands = self.killed = 0
        self.takes = 1.5  # seconds of a life that is not killed
        self.printed: set[str] = set()
        self.faults = itertools.cycle([(call, error, at) for at in range(1, 13) for call, error in _FAULTS])

    def command(self) -> str:
        """What an operator asks for."""
        self.commands += 1
        if self.trial.chance.random() < 0.3:
            return f"blank {self.trial.chance.randint(1, 255)} 65535 255 127.0.0.1"
        text = self.trial.chance.choice(["A", "B", "AB", "A[nl]B"])
        return f'publish-text {self.trial.chance.choice(["3 1", "3 2", "4 1"])} "{text}" "me" 0 0 1 65535 255 127.0.0.1'

    def started(self, command: str, *words: str, environment: dict[str, str] | None = None) -> FrontEnd:
        """A front end that is given a command."""
        front_end = self.trial.front_end(
            "wisangub-centre",
            "--to",
            f"127.0.0.1:{self.relay.port()}",
            *self.words,
            "--tick",
            "0.15",
            "--wait",
            "20",
            *words,
            environment=environment,
            stdin=subprocess.PIPE,
        )
        assert front_end.process.stdin is not None
        try:
            front_end.process.stdin.write(command.encode() + b"\n")
            front_end.process.stdin.close()
        except BrokenPipeError:
            pass
        return front_end

    def refused(self, library: pathlib.Path) -> None:
        """A life with a disk that refuses a call: each call in turn."""
        call, error, at = next(self.faults)
        short = self.trial.chance.choice([0, 15])
        environment = refusing(library, self.path, call, at, error, short=short)
        front_end = self.started(self.command(), environment=environment)
        status = front_end.ended()
        told = os.strerror(error).encode() in front_end.errors
        self.trial.holds(
            f"a centre whose {call} {at} is refused says why",
            not told or status == 1 or (call, status) == ("open", 2) or self.may_go_on(call, front_end.errors),
            (status, front_end.errors.decode()),
        )
        self.over(front_end)

    def may_go_on(self, call: str, _errors: bytes) -> bool:
        """Whether a front end may go on that said why this call was refused."""
        return call == "write"

    def life(self, which: str | None, command: str, *words: str) -> FrontEnd:
        """A life with a command, which is killed at a random moment, or ends by itself."""
        front_end = self.started(command, *words)
        if which is not None:
            timer = killed_later(front_end, which, self.trial.chance.uniform(0.05, 1.2 * self.takes))
            begun = time.monotonic()
            is_killed = front_end.ended() < 0 or b"by signal 9" in front_end.errors
            timer.cancel()
            self.killed += is_killed
            if not is_killed:
                self.takes = time.monotonic() - begun
        self.over(front_end)
        return front_end

    def lives(self, count: int) -> None:
        """So many kills, now and then a disk that refuses, and a last life that tells the ledger."""
        library = built(self.trial)
        while self.killed < count and self.commands < 3 * count and not self.trial.is_late():
            if library and self.trial.chance.random() < 0.3:
                self.refused(library)
            else:
                self.life(self.trial.chance.choice(["front end", "co-process", "both"]), self.command())
        status = self.life(None, "status").output.decode().splitlines()
        begin = max(at for at, line in enumerate(status) if line in ("idle", "busy"))
        self.look([line.split(",")[0] for line in status[begin:]])

    def over(self, front_end: FrontEnd) -> None:
        """What holds of a life that is over."""
        self.trial.holds("a centre's front end ends", front_end.ended() != 999)
        self.trial.holds(
            "a centre's front end prints no traceback", b"Traceback" not in front_end.errors, front_end.errors.decode()
        )
        self.printed |= {
            line
            for line in front_end.output.decode().splitlines()
            if line.startswith("ledger ") and line.endswith(" accepted")
        }
        self.trial.front_ends.remove(front_end)

    def look(self, status: list[str]) -> None:
        """What holds over all lives: the numbers, the ledger, the model that is handed the journal."""
        activations = numbers(self.trial, list(self.relay.requests))
        ledger = {int(line.split()[1]): line for line in status if line.startswith("ledger ")}
        by_sign = {
            message.number
            for message in map(wire.spelled, list(self.relay.replies))
            if message is not None and message.status == 0
        }
        for number, line in ledger.items():
            if line.endswith(" accepted"):
                self.trial.holds(
                    f"{line}: the sign accepted it", number in by_sign and number in activations, sorted(by_sign)
                )
        self.trial.holds(
            "each activation that was sent stands in the ledger", activations <= set(ledger), (activations, ledger)
        )
        self.trial.holds(
            "each acceptance that was told stands in the ledger",
            self.printed <= set(ledger.values()),
            (self.printed, ledger),
        )
        self.trial.holds("no command is activated twice", len(ledger) <= self.commands, (self.commands, ledger))
        self.trial.holds(
            "the status is the model's, handed the journal", status == self.foretold(), (status, self.foretold())
        )

    def foretold(self) -> list[str]:
        """The status that the model has after the journal's lines."""
        world = text.World(text.bench())
        for line in lines_of(self.path.read_bytes())[1:]:
            take(world.centre, line)
        return status_of(world)


def take(centre: Centre, line: bytes) -> None:
    """What a recorded line does to the model's centre."""
    words = line.split(b" ")
    if words[0] == b"datagram":
        centre.receive(text.octets(words[1]))
    elif words[0] == b"tick":
        centre.tick()
    else:
        centre.command(text.event(words, False))


def status_of(world: text.World) -> list[str]:
    """The status that the model's centre has."""
    centre = world.centre
    return ["busy" if centre.job else "idle", f"last {centre.last or 'none'}", *world.report()[3:]]

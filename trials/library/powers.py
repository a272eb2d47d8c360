"""SIGUSR1 takes the power of examples/signd.c's sign away, and SIGUSR2 gives it back."""

from __future__ import annotations

import contextlib
import os
import pathlib
import signal
import time

from wisangub.endpoint.records import FORM

from . import records
from .front_ends import MOST_REPLY, FrontEnd, settings
from .trial import Trial

_WAIT = 0.3  # seconds for a reply that does not come


def told(path: pathlib.Path) -> list[bytes]:
    """What a journal says of the power."""
    return [line for line in records.lines_of(path.read_bytes()) if line.startswith(b"power-")]


def _signalled(front_end: FrontEnd, number: signal.Signals, seconds: float = 0.2) -> None:
    front_end.process.send_signal(number)
    time.sleep(seconds)


def lost(trial: Trial) -> None:
    """Without power nothing is answered; whoever goes on from the journal has the same."""
    journal = trial.folder / "power.journal"
    sets, gets = settings()
    front_end = FrontEnd(trial, "signd", journal)
    for octets in sets[:8]:
        front_end.ask(octets)
    _signalled(front_end, signal.SIGUSR1)
    front_end.socket.settimeout(_WAIT)
    trial.same("power: without it nothing is answered", front_end.ask(gets[0]), "")
    _signalled(front_end, signal.SIGUSR2)
    front_end.socket.settimeout(MOST_REPLY)
    before = [front_end.ask(octets) for octets in gets]
    trial.check("power: it is back", all(before), before)
    trial.same("power: signd ends", front_end.end()[0], 0)
    lines = told(journal)
    is_so = lines in ([b"power-lost", b"power-back %d" % some] for some in range(60))
    trial.check("power: it is recorded", is_so, lines)
    has_front_end = os.access(trial.program, os.X_OK) and FORM >= 2
    for kind in ("signd", "front end") if has_front_end else ("signd",):
        front_end = FrontEnd(trial, kind, journal)
        trial.same(f"power: what {kind} reads", [front_end.ask(octets) for octets in gets], before)
        front_end.end()


def _once(trial: Trial) -> None:
    """A loss is one however often it is told, and across a kill; what is not lost does not come back."""
    journal = trial.folder / "once.journal"
    front_end = FrontEnd(trial, "signd", journal)
    _signalled(front_end, signal.SIGUSR2)
    _signalled(front_end, signal.SIGUSR1, 2.2)
    _signalled(front_end, signal.SIGUSR1)
    _signalled(front_end, signal.SIGUSR2)
    _signalled(front_end, signal.SIGUSR1, 2.2)
    front_end.end(signal.SIGKILL)
    lines = told(journal)
    whiles = [b"power-back %d" % some for some in range(2, 60)]
    is_so = lines[:1] + lines[2:] == [b"power-lost"] * 2 and lines[1] in whiles
    trial.check("power: a second SIGUSR1 begins no loss", is_so, lines)
    front_end = FrontEnd(trial, "signd", journal)
    front_end.socket.settimeout(_WAIT)
    trial.same("power: after a kill there is none", front_end.ask(settings()[1][0]), "")
    _signalled(front_end, signal.SIGUSR2)
    trial.same("power: signd ends after a kill", front_end.end()[0], 0)
    back = told(journal)[3:]
    trial.check("power: a loss across a kill", len(back) == 1 and back[0] in whiles, back)


def _at_a_start(trial: Trial) -> None:
    """A loss that is told while it starts, and waits for its file of objects, is one once it has."""
    journal, objects = trial.folder / "starting.journal", trial.folder / "starting.objects"
    os.mkfifo(objects)
    front_end = FrontEnd(trial, "signd", journal, "--objects", str(objects), waits=False)
    last, file = time.monotonic() + MOST_REPLY, -1
    while file < 0 and time.monotonic() < last:
        with contextlib.suppress(OSError):  # nobody reads it yet
            file = os.open(objects, os.O_WRONLY | os.O_NONBLOCK)
    _signalled(front_end, signal.SIGUSR1)
    os.close(file)
    trial.check("power: it starts", bool(front_end.first_line()), front_end.process.poll())
    time.sleep(0.2)
    trial.same("power: signd ends after its start", front_end.end()[0], 0)
    trial.same("power: a loss at a start", told(journal) if journal.exists() else None, [b"power-lost"])


def run(trial: Trial) -> None:
    lost(trial)
    _at_a_start(trial)
    _once(trial)

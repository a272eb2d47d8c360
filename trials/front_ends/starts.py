"""From the exec of a sign's front end to the first Get that it answers, over a journal as long as it may be."""

import contextlib
import itertools
import os
import pathlib
import select
import socket
import statistics
import time
from typing import Iterator

from model import text, wire
from model.saved import saved
from model.sign import Sign
from wisangub.endpoint import records
from wisangub.endpoint.clock import Moment
from wisangub.endpoint.shortening import MOST

from . import year
from .bench import Trial
from .manager import DMS
from .patience import PACE

_COUNTER = DMS + (6, 10, 0)
_PORTS = range(10_000, 30_000)
_MOST_START, _MOST_OTHER = 0.2, 0.03  # seconds, of wisangub-sign and of signd
_BETWEEN = 0.001  # seconds from one Get to the next


def longest(sign: Sign, now: Moment) -> Iterator[bytes]:
    """The state of a sign, and as many records as a journal takes that is not shortened yet."""
    state, size = [line.encode() for line in saved(sign.state)], 0
    for number, line in enumerate(itertools.chain(state, year.year(now, year.MINUTES)), 2):
        size += len(records.record(line, number, number))
        if size > MOST - 1000:
            return
        yield line


def _free_port(trial: Trial) -> int:
    """A port that is free, and none of those that the system gives to who asks for any."""
    while True:
        port = trial.chance.choice(_PORTS)
        with socket.socket(socket.AF_INET, socket.SOCK_DGRAM) as one, contextlib.suppress(OSError):
            one.bind(("127.0.0.1", port))
            return port


def _is_answered(port: int, ends: float) -> bool:
    """Whether a Get is answered before that moment; it is sent again and again."""
    octets = wire.written(wire.Message(wire.GET, b"public", 7, 0, 0, [(_COUNTER, (wire.NULL, b""))]))
    with socket.socket(socket.AF_INET, socket.SOCK_DGRAM) as one:
        one.connect(("127.0.0.1", port))
        while time.monotonic() < ends:
            try:
                one.send(octets)
                if select.select([one], [], [], _BETWEEN)[0] and one.recv(2048):
                    return True
            except ConnectionRefusedError:
                time.sleep(_BETWEEN)
    return False


def once(trial: Trial, path: pathlib.Path, *more: str) -> float | None:
    """The seconds of a start; None where another program took its port meanwhile. Python keeps the code that it
    compiled, as it does for a user, also where the trials have it keep none."""
    port, begun = _free_port(trial), time.monotonic()
    words = ("--journal", str(path), "--down", "process", "--no-ticks", *more)
    kept = {"PYTHONDONTWRITEBYTECODE": "", "PYTHONPYCACHEPREFIX": str(path.parent / "code")}
    front_end = trial.front_end("wisangub-sign", "--port", str(port), *words, environment=kept)
    is_answered = _is_answered(port, begun + PACE.patience())
    taken, status = time.monotonic() - begun, front_end.stop()
    front_end.forget()
    trial.front_ends.remove(front_end)
    if b"already in use" in front_end.errors:
        return None
    trial.holds("a long journal: a Get is answered", is_answered, front_end.errors.decode())
    trial.holds("a long journal: it ends", status == 0, front_end.errors.decode())
    return taken


def starts(trial: Trial, path: pathlib.Path, count: int, *more: str) -> list[float]:
    """The seconds of so many starts over a journal of these octets, before which there was one."""
    octets, taken = path.read_bytes(), list[float]()
    while len(taken) <= count:
        path.write_bytes(octets)
        seconds = once(trial, path, *more)
        taken += [] if seconds is None else [seconds]
    path.unlink()
    return taken[1:]


def in_words(taken: list[float]) -> str:
    """What some starts took."""
    median, load = statistics.median(taken), os.getloadavg()[0]
    return (
        f"the first Get is answered after {1000 * median:.0f} ms, the median of {len(taken)} "
        f"({1000 * min(taken):.0f} to {1000 * max(taken):.0f}), load {load:.1f} of {os.cpu_count()} processors"
    )


def run(trial: Trial) -> None:
    """The median of some starts."""
    path = trial.new_folder() / "journal"
    year.write(trial.head(), path, longest(Sign(text.bench()), Moment.now()))
    size = path.stat().st_size
    taken = starts(trial, path, 3 if trial.is_short else 20)
    print(f"{size} octets: {in_words(taken)}", flush=True)
    is_busy = trial.is_short or os.getloadavg()[0] > 1  # then the clock tells of the machine
    median, most = statistics.median(taken), _MOST_OTHER if trial.other else _MOST_START
    trial.holds("a long journal: it starts at once", is_busy or median < most, median)
